// The registry's page: where it is, what it asks for, and how that ends.

import { CONFIG, versionList, versionPage } from './crate.js';
import { Failure, archiveOf, crateOf, cratesWith, hasToken, isName, knock, useToken }
    from './registry.js';
import { addressOf, button, copyable, make, number, say, spanOf, told, visible } from './texts.js';

const SHOWN = 20; // crates on a page of the screen
const PAUSE = 200; // milliseconds without a key before a search
const KEPT = 'registry-token';

const byId = (id) => document.getElementById(id);
const main = byId('main');
const query = byId('query');

let loading = new AbortController();
let pause = 0;
let found = null; // the list of crates, and the text that it was searched by
let foundScroll = 0;
let crate = null;

// ---- What is begun, and how it ends

/** Gives up what was begun before, so that an answer that comes late never replaces a later one. */
function begin() {
    clearTimeout(pause);
    pause = 0;
    loading.abort();
    loading = new AbortController();
    return loading.signal;
}

/** The same where nothing is asked next. */
function rest() {
    begin();
    main.ariaBusy = 'false';
}

function showFailure({ message, advice }, again) {
    const words = make('p', {}, make('strong', {}, told(message)), ' ', advice);
    const buttons = again ? [button('plain', 'Try again', again)] : [];
    byId('failure').replaceChildren(make('div', { className: 'failure' }, words, ...buttons));
    byId('failure').scrollIntoView({ block: 'nearest' });
}

function hideFailure() {
    byId('failure').replaceChildren();
}

/** Does a work that may fail; `again` is what the reader may try then. */
async function attempt(signal, again, work) {
    main.ariaBusy = 'true';
    hideFailure();
    try {
        await work();
    } catch (error) {
        if (!signal.aborted) {
            fail(error, again);
        }
    } finally {
        if (!signal.aborted) {
            main.ariaBusy = 'false';
        }
    }
}

function fail(error, again) {
    if (!(error instanceof Failure)) {
        throw error;
    }
    if (error.isOfToken && hasToken()) {
        forget();
        go();
    }
    showFailure(error, hasToken() ? again : null);
}

// ---- Signing in

function storage(use) {
    try {
        return use(sessionStorage);
    } catch {
        return null; // the reader's browser keeps nothing
    }
}

/** Forgets the token, and all that was shown by it. */
function forget() {
    useToken('');
    storage((kept) => kept.removeItem(KEPT));
    crate = null;
    byId('view-crate').replaceChildren();
    showNothingFound();
}

/** Takes a text as `cargo login` does: of printable ASCII, without the spaces around it. */
async function signIn() {
    const signal = begin();
    const text = byId('token').value.trim();
    await attempt(signal, null, async () => {
        if (!/^[\t\x20-\x7e]+$/.test(text)) {
            throw new Failure('This is no token.',
                'A token has printable ASCII characters alone. Copy it again.');
        }
        useToken(text);
        try {
            await knock(signal);
        } catch (error) {
            useToken('');
            throw error;
        }
        if (byId('keep').checked) {
            storage((kept) => kept.setItem(KEPT, text));
        }
        byId('token').value = '';
        go();
    });
}

function signOut() {
    rest();
    forget();
    query.value = '';
    location.hash = '#/';
    go();
}

// ---- The list of crates

function foundItem({ name, highest, description }) {
    const link = make('a', { href: addressOf(name) }, visible(name));
    const about = description ? told(description) : spanOf('quiet', 'No description');
    return make('li', {},
        make('h2', {}, link, ' ', spanOf('version', visible(highest))), make('p', {}, about));
}

function countOf({ text, crates, total }) {
    if (total === 0 && text !== '') {
        return 'No crate that you may read has this in its name. A search looks at names alone.';
    }
    const count = `${number(total)} ${total === 1 ? 'crate' : 'crates'}`;
    const more = `, of which these are the first ${number(crates.length)}.`
        + ' To find another, type more of its name.';
    return total > crates.length ? count + more : count;
}

/** Shows a page of the screen: from this crate on. */
function showPage(first) {
    const { crates } = found;
    const last = Math.min(first + SHOWN, crates.length);
    found.first = first;
    byId('found').replaceChildren(...crates.slice(first, last).map(foundItem));
    byId('pages').hidden = crates.length <= SHOWN;
    byId('range').textContent =
        `${number(first + 1)} to ${number(last)} of ${number(crates.length)}`;
    byId('previous').disabled = first === 0;
    byId('next').disabled = last === crates.length;
    scrollTo(0, 0);
}

/** Goes to another page of the screen, and to its first crate. */
function turnPage(by) {
    showPage(found.first + by);
    byId('found').querySelector('a').focus();
    say(byId('range').textContent);
}

function showFound(next) {
    found = next;
    byId('count').textContent = countOf(found);
    showPage(0);
}

function showNothingFound() {
    found = null;
    byId('count').textContent = '';
    byId('found').replaceChildren();
    byId('pages').hidden = true;
}

async function search() {
    const signal = begin();
    const text = query.value.trim();
    await attempt(signal, search, async () => {
        try {
            showFound({ text, ...await cratesWith(text, signal) });
        } catch (error) {
            if (!signal.aborted) {
                showNothingFound();
            }
            throw error;
        }
    });
}

/** Searches once nothing was typed for a moment, from wherever the page is. */
function searchSoon() {
    begin();
    main.ariaBusy = 'true';
    pause = setTimeout(search, PAUSE);
    if (place().view !== 'found') {
        location.hash = '#/';
    }
}

// ---- A crate

function save(bytes, name) {
    const type = 'application/octet-stream';
    const address = URL.createObjectURL(new Blob([bytes], { type }));
    make('a', { href: address, download: name }).click();
    setTimeout(() => URL.revokeObjectURL(address), 60_000);
}

/** Hands over the archive of a version, once it is the one that the index names. */
async function handOver(version, outcome) {
    const signal = loading.signal;
    const file = `${version.name}-${version.vers}.crate`;
    outcome.textContent = '';
    await attempt(signal, () => handOver(version, outcome), async () => {
        save(await archiveOf(version, signal), file);
        outcome.textContent = `${file} is the archive that the index names.`;
    });
}

/** Shows a version of the crate that is there, above the list of all. */
function showVersion(version) {
    const links = byId('versions').querySelectorAll('.versions a');
    byId('versions').querySelector('[aria-current]')?.removeAttribute('aria-current');
    links[crate.versions.indexOf(version)].ariaCurrent = 'true';
    byId('version').replaceChildren(...versionPage(crate, version, handOver));
    document.title = `${version.name} ${version.vers} · ${location.host}`;
    scrollTo(0, 0);
    byId('crate-title').focus({ preventScroll: true });
}

function showCrate(loaded) {
    crate = loaded;
    byId('view-crate').replaceChildren(
        make('div', { id: 'version' }), make('div', { id: 'versions' }, versionList(crate)));
}

/** Shows this version, or the highest if none is asked. */
function choose(vers) {
    const version = crate.versions.find((it) => it.vers === vers);
    showVersion(version ?? crate.highest);
    if (vers !== null && version === undefined) {
        throw new Failure(`${crate.name} has no version ${vers}.`, 'This is its highest one.');
    }
}

async function openCrate(name, vers) {
    const signal = begin();
    await attempt(signal, go, async () => {
        if (!isName(name)) {
            throw new Failure('This is no name of a crate.',
                'A name has letters, digits, - and _, and begins with a letter.');
        }
        if (crate?.name !== name) {
            byId('view-crate').replaceChildren();
            showCrate(await crateOf(name, signal));
            // The address has the spelling that was published.
            history.replaceState(null, '', addressOf(crate.name, ...(vers === null ? [] : [vers])));
        }
        choose(vers);
    });
}

// ---- Where the page is

function decoded(text) {
    try {
        return decodeURIComponent(text);
    } catch {
        return text;
    }
}

/** What the address asks for: `#/` the list, `#/NAME` or `#/NAME/VERSION` a crate, `#start`. */
function place() {
    if (location.hash === '#start') {
        return { view: 'start' };
    }
    const [, name, vers] = /^#\/([^/]+)(?:\/(.+))?$/.exec(location.hash) ?? [];
    if (name === undefined) {
        return { view: 'found' };
    }
    return { view: 'crate', name: decoded(name), vers: vers === undefined ? null : decoded(vers) };
}

function display(...views) {
    for (const view of ['sign-in', 'found', 'crate', 'start']) {
        byId(`view-${view}`).hidden = !views.includes(view);
    }
    byId('search').hidden = !hasToken();
    byId('sign-out').hidden = !hasToken();
}

function openStart() {
    rest();
    display('start');
    document.title = `Getting started · ${location.host}`;
    scrollTo(0, 0);
    byId('start-title').focus({ preventScroll: true });
}

function openSignIn() {
    display('sign-in', 'start');
    document.title = `Sign in · ${location.host}`;
    byId('token').focus({ preventScroll: true });
}

function openList() {
    display('found');
    document.title = `Crates · ${location.host}`;
    query.focus({ preventScroll: true });
    if (found !== null && found.text === query.value.trim()) {
        rest();
        scrollTo(0, foundScroll);
    } else if (pause === 0) {
        search();
    }
}

/** Shows what the address asks for. */
function go() {
    const { view, name, vers } = place();
    if (!byId('view-found').hidden) {
        foundScroll = scrollY;
    }
    hideFailure();
    if (view !== 'crate') {
        crate = null;
    }
    if (view === 'start') {
        openStart();
    } else if (!hasToken()) {
        openSignIn();
    } else if (view === 'crate') {
        display('crate');
        openCrate(name, vers);
    } else {
        openList();
    }
}

function onSubmit(id, action) {
    byId(id).addEventListener('submit', (event) => {
        event.preventDefault();
        action();
    });
}

function start() {
    history.scrollRestoration = 'manual';
    byId('host').textContent = location.host;
    byId('config-lines').append(copyable(CONFIG, 'the lines for config.toml'));
    byId('login-line').append(copyable('cargo login --registry team', 'the line for cargo login'));
    byId('publish-line').append(
        copyable('cargo publish --registry team', 'the line for cargo publish'));
    onSubmit('sign-in', signIn);
    onSubmit('search', () => (place().view === 'found' ? search() : searchSoon()));
    query.addEventListener('input', searchSoon);
    byId('sign-out').addEventListener('click', signOut);
    byId('previous').addEventListener('click', () => turnPage(-SHOWN));
    byId('next').addEventListener('click', () => turnPage(SHOWN));
    addEventListener('hashchange', go);
    useToken(storage((kept) => kept.getItem(KEPT)) ?? '');
    go();
}

start();
