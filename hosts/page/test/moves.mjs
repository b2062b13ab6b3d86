// Rows moved up and down: both reorderings of docs/PROMISES.md, and an order that the rule does not promise but this sheet
// forgives.
import assert from 'node:assert/strict';
import { writeFileSync } from 'node:fs';
import { join } from 'node:path';
import { caseText, sheetOf } from './cases.mjs';
import { opened, pressed, seen } from './seen.mjs';

const up = (line) => `#rows [data-line="${line}"][data-move="-1"]`;
const down = (line) => `#rows [data-line="${line}"][data-move="1"]`;
const differing = ({ comparison }) => comparison.filter(([, , differs]) => differs !== '').map((cells) => cells.slice(0, 2));

/** The reorderings, by what the page says and shows of each. */
export async function holdMoves(browser, folder) {
    await harmless(browser);
    await otherwise(browser);
    await forgiven(browser);
    await second(browser, folder);
    await byKeys(browser);
}

async function harmless(browser) {
    const first = await opened(browser, sheetOf('priorities-as-listed'));
    assert.deepEqual(first.rows, ['O;6;6;10000', 'O;6;7;10000', 'O;8;8;5000']);
    assert.equal(first.harmless, undefined);
    await pressed(browser, up(8));
    const shown = await pressed(browser, up(7));
    assert.equal(shown.box, caseText('priorities-reordered-harmlessly', 'sheet'));
    assert.equal(shown.harmless, 'yes');
    assert.match(shown.verdict, /^Harmless: .* The report is the same byte for byte\.$/);
    assert.deepEqual([differing(shown), shown.disturbed], [[], []]);
    assert.deepEqual(shown.comparison.map(([before]) => `${before}\n`).join(''), caseText('priorities-as-listed', 'expect'));
    const back = await pressed(browser, '#put-back');
    assert.equal(back.box, caseText('priorities-as-listed', 'sheet'));
    assert.equal(back.harmless, undefined);
}

async function otherwise(browser) {
    await opened(browser, sheetOf('priorities-as-listed'));
    const shown = await pressed(browser, down(6));
    assert.equal(shown.box, caseText('priorities-reordered-otherwise', 'sheet'));
    assert.equal(shown.text, caseText('priorities-reordered-otherwise', 'expect'));
    assert.equal(shown.harmless, 'no');
    assert.match(shown.verdict, /^Not harmless: .* The report is another: 3 of its lines differ\.$/);
    assert.deepEqual(differing(shown), [
        ['no line: all zero', 'K;EUR;6;0;100000;3550'],
        ['K;EUR;7;0;100000;4900', 'no line: all zero'],
        ['Z;EUR;0;8200;820000', 'Z;EUR;0;6850;685000'],
    ]);
    assert.equal(shown.marks, 2 * 3, 'a line that differs is marked on both sides');
    assert.deepEqual(shown.disturbed, ['Class 6 met O;6;6;10000, O;6;7;10000; now it meets O;6;7;10000, O;6;6;10000.']);
    const full = await pressed(browser, '#full');
    assert.deepEqual(differing(full)[0], ['K;EUR;6;0;0;0', 'K;EUR;6;0;100000;3550']);
    await pressed(browser, '#full');
}

// On document 01's sheet row 6;6 takes nothing, so that the other order gives the same report
async function forgiven(browser) {
    await opened(browser, sheetOf('document-01'));
    const shown = await pressed(browser, up(6));
    assert.equal(shown.text, caseText('document-01', 'expect'));
    assert.equal(shown.harmless, 'no');
    assert.match(shown.verdict, /^Not harmless: .* The report is the same byte for byte\.$/);
    assert.deepEqual(differing(shown), []);
    const typed = await browser.run(() => {
        const box = document.getElementById('sheet');
        box.value = box.value.replace('T;', 'T;;');
        box.dispatchEvent(new InputEvent('input'));
        return document.getElementById('moves').checkVisibility();
    });
    assert.equal(typed, false, 'what was moved is compared until something else is changed');
}

// A class that a row names second meets it too
async function second(browser, folder) {
    const path = join(folder, 'named-second.sheet');
    writeFileSync(path, caseText('priorities-as-listed', 'sheet').replace(/(O;.*\n)+/, 'O;6;7;10000\nO;8;7;5000\n'));
    await opened(browser, path);
    const shown = await pressed(browser, up(7));
    assert.equal(shown.harmless, 'no');
    assert.deepEqual(shown.disturbed, ['Class 7 met O;6;7;10000, O;8;7;5000; now it meets O;8;7;5000, O;6;7;10000.']);
}

// With the keyboard alone: the row keeps the focus while it goes down
async function byKeys(browser) {
    await opened(browser, sheetOf('priorities-as-listed'));
    await browser.run((selector) => document.querySelector(selector).focus(), down(6));
    await browser.press('Enter');
    await browser.press('Space');
    const shown = await browser.run(seen);
    assert.deepEqual(shown.rows, ['O;6;7;10000', 'O;8;8;5000', 'O;6;6;10000']);
    assert.equal(await browser.run(() => document.activeElement.dataset.line), '8');
    await pressed(browser, '#put-back');
}
