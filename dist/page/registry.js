// What the page asks the registry: its sparse index and its web API, with the reader's own token,
// and never a change. Nothing here touches the page.

const ASKED = 100; // the most crates that the registry puts into one answer
const TRY_AGAIN = 'Wait a moment and try again; if it stays, tell the administrator.';
const ADVICE = new Map(Object.entries({
    A1: 'Sign in with your token.',
    A2: 'Paste the text of the token alone, without a word such as “Bearer”.',
    A3: 'A revoked token stays revoked: ask the administrator for a new one.',
    A4: 'Ask the administrator, who can enable your account again.',
    A8: 'Check the name. A crate that you may not read seems not to exist: the administrator can'
        + ' make you a reader.',
    S1: `The registry’s disk or memory failed. ${TRY_AGAIN}`,
    401: 'Something in front of the registry asks who you are: tell the administrator.',
    403: 'Something in front of the registry does not let you in: tell the administrator.',
    429: 'Too much is asked at once. Wait a moment and try again.',
    502: `The registry is stopped, perhaps for an upgrade. ${TRY_AGAIN}`,
    503: 'Too much is asked at once, or the registry is stopped. Wait a moment and try again.',
    504: `The registry takes too long. ${TRY_AGAIN}`,
}));

/** What went wrong, in the registry's own words where it has some, and what to do about it. */
export class Failure extends Error {
    constructor(words, advice) {
        super(words);
        this.advice = advice;
        this.code = words.split(' ', 1)[0];
    }

    /** The registry knows no such token, or takes it no more. */
    get isOfToken() {
        return ['A1', 'A2', 'A3', 'A4'].includes(this.code);
    }
}

// ---- Requests

let token = '';

export const hasToken = () => token !== '';

/** Sends this text, as it is, in `Authorization` from now on; none if it is empty. */
export function useToken(text) {
    token = text;
}

const textOf = (bytes) => new TextDecoder().decode(bytes);

function refusal(status, bytes) {
    let words;
    try {
        words = JSON.parse(textOf(bytes)).errors[0].detail;
    } catch {
        // It is the answer of something in front of the registry.
    }
    if (typeof words !== 'string') {
        const advice = ADVICE.get(String(status)) ?? TRY_AGAIN;
        return new Failure(`The answer, of status ${status}, is not the registry’s.`, advice);
    }
    return new Failure(words, ADVICE.get(words.split(' ', 1)[0]) ?? TRY_AGAIN);
}

/** The bytes of a good answer. */
async function request(target, signal) {
    let reply;
    let bytes;
    try {
        reply = await fetch(target, {
            headers: { Authorization: token },
            cache: 'no-store',
            credentials: 'omit',
            redirect: 'error',
            signal,
        });
        bytes = await reply.arrayBuffer();
    } catch (error) {
        const failure = new Failure('No answer came from the registry.',
            'Check your network, and try again.');
        throw signal.aborted ? error : failure;
    }
    if (reply.status !== 200) {
        throw refusal(reply.status, bytes);
    }
    return bytes;
}

/** What an answer holds, by a function that fails on an answer that is not the registry's. */
function read(bytes, contents) {
    try {
        return contents(textOf(bytes));
    } catch {
        throw new Failure('The answer is not the registry’s.',
            'Something on the way answered in its place, such as a network that wants you to log'
            + ' in. Try again.');
    }
}

/** Asks for the config, which the registry gives to each token that it takes. */
export async function knock(signal) {
    read(await request('/index/config.json', signal), (json) => JSON.parse(json).api.length);
}

/** The crates whose name has the text: the first `ASKED` of them, and how many there are. */
export async function cratesWith(text, signal) {
    const asked = new URLSearchParams({ q: text, per_page: ASKED });
    return read(await request(`/api/v1/crates?${asked}`, signal), (json) => {
        const { crates, meta } = JSON.parse(json);
        return {
            total: meta.total,
            crates: crates.map(({ name, max_version: highest, description }) =>
                ({ name, highest, description })),
        };
    });
}

const crateTarget = (...parts) => `/api/v1/crates/${parts.map(encodeURIComponent).join('/')}`;

async function ownersOf(name, signal) {
    const bytes = await request(`${crateTarget(name)}/owners`, signal);
    return read(bytes, (json) =>
        JSON.parse(json).users.map((user) => ({ login: user.login, given: user.name })));
}

/** The archive of a version, which has to be the one that the index names. */
export async function archiveOf({ name, vers, sum }, signal) {
    const bytes = await request(`${crateTarget(name, vers)}/download`, signal);
    const came = await sha256(bytes);
    if (came !== sum) {
        throw new Failure(`The archive was changed on its way: its SHA-256 is ${came}.`,
            'It is not saved. Try again; if it stays, tell the administrator.');
    }
    return bytes;
}

async function sha256(bytes) {
    if (!isSecureContext) {
        throw new Failure('The archive cannot be checked.', 'Open this page by its https address.');
    }
    const digest = new Uint8Array(await crypto.subtle.digest('SHA-256', bytes));
    return Array.from(digest, (byte) => byte.toString(16).padStart(2, '0')).join('');
}

// ---- A crate and its versions

export const isName = (text) => /^[A-Za-z][A-Za-z0-9_-]{0,63}$/.test(text);
const canonical = (name) => name.toLowerCase().replaceAll('-', '_');
const exchanged = (name) => name.replace(/[-_]/g, (mark) => (mark === '-' ? '_' : '-'));

/** The path of an index file (the Cargo Book, "Registry Index", "Index files"). */
function indexPath(name) {
    const text = name.toLowerCase();
    const folders = [null, '1', '2', `3/${text[0]}`];
    return `${folders[text.length] ?? `${text.slice(0, 2)}/${text.slice(2, 4)}`}/${text}`;
}

function versionOf(fields) {
    return {
        name: fields.name,
        vers: fields.vers,
        sum: fields.cksum,
        isYanked: fields.yanked,
        rust: fields.rust_version,
        links: fields.links,
        dependencies: [...fields.deps],
        features: [...Object.entries(fields.features), ...Object.entries(fields.features2 ?? {})],
        precedence: precedenceOf(fields.vers),
    };
}

/** The versions of an index file, which has one at least, the highest first. */
function versionsIn(text) {
    // One list of the lines: ten thousand that are read one by one take more than twice as long.
    const versions = JSON.parse(`[${text.trimEnd().replaceAll('\n', ',')}]`).map(versionOf);
    if (versions.length === 0) {
        throw new RangeError('an index file without a version');
    }
    return versions.sort((a, b) => byPrecedence(b.precedence, a.precedence));
}

/** All versions of a crate, the highest first, or null if no index file has this spelling. */
async function versionsAt(name, signal) {
    let bytes;
    try {
        bytes = await request(`/index/${indexPath(name)}`, signal);
    } catch (failure) {
        if (failure.code === 'A8') {
            return null;
        }
        throw failure;
    }
    return read(bytes, versionsIn);
}

/** The versions of a crate by any spelling; `search` is what a search of that finds. */
async function versionsOf(name, search, signal) {
    const versions = await versionsAt(name, signal);
    if (versions !== null) {
        return versions;
    }
    const found = await search;
    const names = found instanceof Failure ? [] : found.crates.map((crate) => crate.name);
    const spellings = names.filter((other) => canonical(other) === canonical(name));
    for (const other of [...spellings, exchanged(name)]) {
        const published = await versionsAt(other, signal);
        if (published !== null) {
            return published;
        }
    }
    throw new Failure('A8 no such crate', ADVICE.get('A8'));
}

/** What a promise gives, or its failure, which is told in place of that part of the page. */
async function orFailure(promise) {
    try {
        return await promise;
    } catch (error) {
        if (error instanceof Failure && !error.isOfToken) {
            return error;
        }
        throw error;
    }
}

/**
 * All of a crate. Its owners and its description may be a `Failure`; the description is null if
 * there is none, or if the crate is not among those that a search of its name shows.
 */
export async function crateOf(name, signal) {
    const search = orFailure(cratesWith(name, signal));
    const [versions, found, owners] = await Promise.all([
        versionsOf(name, search, signal), search, orFailure(ownersOf(name, signal)),
    ]);
    const published = versions[0].name;
    return {
        name: published,
        versions,
        owners,
        highest: versions.find((version) => !version.isYanked) ?? versions[0],
        description: found instanceof Failure ? found
            : found.crates.find((crate) => crate.name === published)?.description ?? null,
    };
}

// ---- The order of versions: SemVer 2.0.0, section 11

/** What it compares: three numbers, and the parts of a pre-release if it is one. */
function precedenceOf(version) {
    const [, numbers, pre] = /^([^-+]*)(?:-([^+]*))?/.exec(version);
    return { numbers: numbers.split('.'), pre: pre?.split('.') };
}

const byText = (a, b) => Number(a > b) - Number(a < b);
/** Digits without leading zeros, of any length. */
const byNumber = (a, b) => a.length - b.length || byText(a, b);

function byPart(a, b) {
    const [isNumber, isOtherNumber] = [a, b].map((part) => /^[0-9]+$/.test(part));
    if (isNumber !== isOtherNumber) {
        return isNumber ? -1 : 1;
    }
    return isNumber ? byNumber(a, b) : byText(a, b);
}

/** Compares two lists by their first parts that differ, and else by length. */
function byFirstDifference(a, b, compare) {
    const length = Math.min(a.length, b.length);
    for (let at = 0; at < length; at += 1) {
        const order = compare(a[at], b[at]);
        if (order !== 0) {
            return order;
        }
    }
    return a.length - b.length;
}

function byPrecedence(a, b) {
    const order = byFirstDifference(a.numbers, b.numbers, byNumber);
    if (order !== 0 || !a.pre || !b.pre) {
        return order || Number(!a.pre) - Number(!b.pre);
    }
    return byFirstDifference(a.pre, b.pre, byPart);
}
