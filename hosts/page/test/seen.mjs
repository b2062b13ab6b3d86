// What a user sees on the page, and does with it.
import { basename } from 'node:path';

/** What the page shows, as text, once it is drawn and no table is busy; runs in the page. */
export async function seen() {
    const frame = () => new Promise((resolve) => requestAnimationFrame(resolve));
    do await frame();
    while (document.querySelector('[aria-busy="true"]'));
    await frame();
    const the = (id) => document.getElementById(id);
    const text = (id) => (the(id).checkVisibility() ? the(id).textContent : undefined);
    const rows = (table) => Array.from(table.tBodies[0].rows, (row) => Array.from(row.cells, (cell) => cell.textContent));
    const table = (id) => (the(id).checkVisibility() ? rows(the(id)) : []);
    return {
        name: text('name'),
        box: the('sheet').value,
        status: text('status'),
        text: the('text').textContent,
        note: text('note'),
        marked: the('mark').checkVisibility() ? Number(the('mark').dataset.line) : 0,
        numbers: the('numbers').textContent.split('\n'),
        meaning: text('meaning'),
        should: text('should'),
        refusedLine: text('refused-line'),
        fields: table('fields'),
        date: text('date'),
        heads: Array.from(document.querySelectorAll('#report thead'), (head) => head.textContent.trim()),
        totals: table('totals'),
        classes: table('classes'),
        trades: table('trades'),
        why: the('why').checkVisibility()
            ? {
                heads: Array.from(the('why').querySelectorAll('h3, h4'), (head) => head.textContent),
                words: Array.from(the('why').querySelectorAll('p:not(.tools)'), (words) => words.textContent),
                tables: Array.from(the('why').querySelectorAll('table'), rows),
            }
            : undefined,
        bars: Array.from(document.querySelectorAll('#pictures svg'), (one) => ({
            currency: one.dataset.currency,
            number: one.dataset.class,
            told: one.getAttribute('aria-label'),
            top: one.getBoundingClientRect().top, // px
            bottom: one.getBoundingClientRect().bottom, // px
            labels: Array.from(one.querySelectorAll('text'), (label) => label.textContent),
            widths: Array.from(one.querySelectorAll('rect'), (bar) => bar.getBoundingClientRect().width), // px
        })),
        rows: Array.from(the('rows').querySelectorAll('li > code'), (row) => row.textContent),
        harmless: the('moves').checkVisibility() ? the('verdict').dataset.harmless : undefined,
        verdict: the('verdict').textContent,
        disturbed: Array.from(the('disturbed').children, (item) => item.textContent),
        comparison: table('comparison'),
        marks: the('comparison').querySelectorAll('mark').length,
        listing: the('listing').textContent,
    };
}

/** Opens a file as a user does, one of another name than what is shown, and gives what the page then shows. */
export async function opened(browser, path) {
    await browser.setFile('#file', path);
    await browser.until((name) => document.getElementById('name').textContent === name, basename(path));
    return browser.run(seen);
}

/** Presses what a selector names, by a click of its own, and gives what the page then shows. */
export async function pressed(browser, selector) {
    await browser.run((selector) => document.querySelector(selector).click(), selector);
    return browser.run(seen);
}

/** Has the full list shown, or the quiet one. */
export async function listed(browser, full) {
    const is = await browser.run(() => document.getElementById('full').checked);
    return is === full ? browser.run(seen) : pressed(browser, '#full');
}

/** Has the box say that it was changed, as it does after each letter, and gives what the page then shows. */
export async function touched(browser) {
    await browser.run(() => document.getElementById('sheet').dispatchEvent(new InputEvent('input')));
    return browser.run(seen);
}
