// A crate as it is shown: one version of it, and the list of all. Nothing here asks the registry.

import { Failure, isName } from './registry.js';
import { addressOf, badge, button, copyable, definitions, make, number, section, spanOf, told,
    visible } from './texts.js';

const SHORT = 200; // characters of a text in the list of versions
const TOGETHER = 100; // versions in one of its parts
const OURS = [null, `sparse+${location.origin}/index/`];
const CRATES_IO = [
    'https://github.com/rust-lang/crates.io-index', 'sparse+https://index.crates.io/',
];

/** What `.cargo/config.toml` says, by the page's own address. */
export const CONFIG = `[registries.team]
index = "sparse+${location.origin}/index/"
credential-provider = "cargo:token"`;

/** A version as a requirement names it: without build metadata, which cargo ignores there. */
const required = (vers) => vers.split('+', 1)[0];

function linesToCopy({ name, vers }) {
    const line = `${name} = { version = "${required(vers)}", registry = "team" }`;
    return section('Use it',
        copyable(`cargo add ${name}@${required(vers)} --registry team`, 'the line for cargo add'),
        make('p', { className: 'quiet' }, 'or in ', make('code', {}, 'Cargo.toml')),
        copyable(`[dependencies]\n${line}`, 'the lines for Cargo.toml'),
        make('details', {},
            make('summary', {}, 'The registry’s lines for ', make('code', {}, 'config.toml')),
            copyable(CONFIG, 'the lines for config.toml')));
}

/** Its own name, as a link if it is a crate of this registry. */
function dependencyName(name, isOurs) {
    return isOurs && isName(name) ? make('a', { href: addressOf(name) }, name) : told(name);
}

function dependencyItem(dependency) {
    const { name, package: renamed, registry, features } = dependency;
    const isOurs = OURS.includes(registry);
    const about = [
        renamed !== null && renamed !== name && ['renamed to ', told(name)],
        dependency.optional && ['optional'],
        !dependency.default_features && ['without default features'],
        features.length > 0 && ['features: ', told(features.join(', '))],
        !isOurs && ['from ', CRATES_IO.includes(registry) ? 'crates.io' : told(registry)],
    ];
    return make('li', {}, dependencyName(renamed ?? name, isOurs), ' ',
        spanOf('version', told(dependency.req)),
        ...about.filter(Boolean).flatMap((words) => [' ', badge('', ...words)]));
}

/** The dependencies of one kind: those of every target first, then target by target. */
function dependenciesOfKind([kind, title], all) {
    const ofKind = all.filter((dependency) => dependency.kind === kind);
    const byTarget = Map.groupBy(ofKind, ({ target }) => target ?? '');
    const lists = [...byTarget.keys()].sort().flatMap((target) => [
        ...(target === '' ? [] : [make('h4', {}, 'On ', make('code', {}, told(target)))]),
        make('ul', { className: 'dependencies', role: 'list' },
            ...byTarget.get(target).map(dependencyItem)),
    ]);
    return lists.length === 0 ? [] : [make('h3', {}, title), ...lists];
}

function dependencies({ dependencies: all }) {
    const kinds = [['normal', 'Normal'], ['build', 'Build'], ['dev', 'Development']];
    const lists = kinds.flatMap((kind) => dependenciesOfKind(kind, all));
    const none = [make('p', { className: 'quiet' }, 'None')];
    return section(`Dependencies (${number(all.length)})`, ...(all.length > 0 ? lists : none));
}

function features({ features: all }) {
    const nothing = () => spanOf('quiet', 'enables nothing else');
    const rows = all.map(([name, values]) =>
        [told(name), values.length > 0 ? told(values.join(', ')) : nothing()]);
    const none = make('p', { className: 'quiet' }, 'None');
    return section(`Features (${number(all.length)})`,
        all.length > 0 ? definitions('features', rows) : none);
}

/** `handOver` gets the version, and an element for what came of it. */
function facts(version, handOver) {
    const outcome = make('p', { className: 'quiet', role: 'status' });
    const download = button('', 'Download', () => handOver(version, outcome));
    const rust = version.rust === null ? 'not said' : spanOf('', told(version.rust), ' or later');
    const rows = [['SHA-256', make('code', {}, visible(version.sum))], ['Rust', rust]];
    if (version.links !== null) {
        rows.push(['Links', told(version.links)]);
    }
    return section('Archive', download, outcome, definitions('', rows));
}

function owners({ owners: all }) {
    if (all instanceof Failure) {
        return section('Owners', make('p', {}, `${all.message} ${all.advice}`));
    }
    const items = all.map(({ login, given }) => make('li', {}, visible(login),
        ...(given === null ? [] : [' ', spanOf('quiet', told(given))])));
    return section(`Owners (${number(all.length)})`,
        make('ul', { className: 'owners', role: 'list' }, ...items));
}

/** A row of few elements, since a long list has thousands of them. */
function versionRow({ name, vers, isYanked, rust, sum, features: all }) {
    const names = all.map(([feature]) => feature).join(', ').slice(0, SHORT);
    const about = [rust && `Rust ${rust.slice(0, SHORT)}`, names && `features: ${names}`];
    const aboutText = visible(about.filter(Boolean).join(' · '));
    const row = make('li', {},
        make('a', { href: addressOf(name, vers), textContent: visible(vers) }),
        make('code', { textContent: visible(sum) }),
        make('span', { textContent: aboutText }));
    if (isYanked) {
        row.firstChild.after(badge('warning', 'yanked'));
    }
    return row;
}

/** Rows that the browser lays out together, once they come into sight. */
function versionRows(versions) {
    const rows = make('ol', { className: 'versions', role: 'list' }, ...versions.map(versionRow));
    rows.style.setProperty('--rows', versions.length);
    return rows;
}

/** All versions of a crate, each a row with a link. */
export function versionList({ versions }) {
    const lists = [];
    for (let first = 0; first < versions.length; first += TOGETHER) {
        lists.push(versionRows(versions.slice(first, first + TOGETHER)));
    }
    return section(`Versions (${number(versions.length)})`, ...lists);
}

function title({ name, highest }, version) {
    const heading = make('h1', { id: 'crate-title', tabIndex: -1 },
        visible(name), ' ', spanOf('version', visible(version.vers)));
    const row = make('div', { className: 'title' }, heading);
    if (version.isYanked) {
        row.append(badge('warning', 'yanked'));
    }
    if (version !== highest) {
        const words = `The highest version is ${visible(highest.vers)}`;
        row.append(make('a', { href: addressOf(name) }, words));
    }
    return row;
}

function description({ description: text }) {
    if (text instanceof Failure) {
        return make('p', { className: 'quiet' }, `No description: ${text.message} ${text.advice}`);
    }
    return text ? make('p', { className: 'about' }, told(text)) : '';
}

/** What is shown of one version; its archive is asked for by `handOver`. */
export function versionPage(crate, version, handOver) {
    return [
        title(crate, version),
        description(crate),
        make('div', { className: 'columns' },
            make('div', {}, linesToCopy(version), dependencies(version), features(version)),
            make('div', {}, facts(version, handOver), owners(crate))),
    ];
}
