// Elements and the texts in them. What a publisher wrote enters the page by these alone: as text
// nodes, whose marks turn and hide nothing.

const LONG = 240; // characters from which on a text is cut

/** The address of a crate, or of a version of it, on this page. */
export const addressOf = (...parts) => `#/${parts.map(encodeURIComponent).join('/')}`;

/** A new element with these properties; each text becomes a text node. */
export function make(tag, properties = {}, ...children) {
    const element = Object.assign(document.createElement(tag), properties);
    element.append(...children);
    return element;
}

export const spanOf = (className, ...children) => make('span', { className }, ...children);
export const badge = (kind, ...words) => spanOf(`badge ${kind}`, ...words);
export const number = new Intl.NumberFormat('en').format;

export function section(title, ...children) {
    return make('section', {}, make('h2', {}, title), ...children);
}

export function definitions(className, pairs) {
    const rows = pairs.flatMap(([term, about]) => [make('dt', {}, term), make('dd', {}, about)]);
    return make('dl', { className }, ...rows);
}

export function button(className, words, action) {
    const made = make('button', { type: 'button', className }, words);
    made.addEventListener('click', action);
    return made;
}

/** A publisher's text with each hidden or directional character spelled out. */
export function visible(text) {
    if (/^[ -~]*$/.test(text)) {
        return text; // as most are, of which a long list has thousands
    }
    const hidden = /(?![\t\n\r\u200c\u200d])[\p{Cc}\p{Cf}\p{Zl}\p{Zp}]/gu;
    const digits = (mark) => mark.codePointAt(0).toString(16).toUpperCase().padStart(4, '0');
    return text.replace(hidden, (mark) => `[U+${digits(mark)}]`);
}

/** A publisher's text, cut if it is long, with a button that shows all of it. */
export function told(text) {
    const whole = visible(text);
    const shown = make('span', { className: 'told', dir: 'auto' }, whole);
    if (whole.length <= LONG) {
        return shown;
    }
    const start = `${whole.slice(0, LONG).replace(/[\uD800-\uDBFF]$/, '')}…`;
    const more = button('more', '', () => show(more.ariaExpanded === 'false'));
    const show = (all) => {
        shown.textContent = all ? whole : start;
        more.textContent = all ? 'Show less' : `Show all ${number(whole.length)} characters`;
        more.ariaExpanded = String(all);
    };
    show(false);
    return spanOf('', shown, ' ', more);
}

/** Tells a screen reader what happened. */
export function say(text) {
    document.getElementById('said').textContent = text;
}

/** Lines with a button that copies them; `what` says which they are. */
export function copyable(text, what) {
    const code = make('code', {}, text);
    const copy = button('plain', 'Copy', async () => {
        try {
            await navigator.clipboard.writeText(text);
            copy.textContent = 'Copied';
        } catch {
            getSelection().selectAllChildren(code);
            copy.textContent = 'Selected';
        }
        say(`${copy.textContent}: ${what}`);
        setTimeout(() => { copy.textContent = 'Copy'; }, 2000);
    });
    copy.ariaLabel = `Copy ${what}`;
    return make('div', { className: 'copyable' }, make('pre', {}, code), copy);
}
