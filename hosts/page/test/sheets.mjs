// Sheets as they come in: opened, dropped, pasted, typed; of every length, and of bytes that are no text; and what goes out,
// saved and copied, byte for byte.
import assert from 'node:assert/strict';
import { readFileSync, rmSync, writeFileSync } from 'node:fs';
import { basename, join } from 'node:path';
import { caseText, holdRefusal, sheetOf } from './cases.mjs';
import { opened, pressed, seen, touched } from './seen.mjs';

const head = 'BRM;1\nD;20190612\n';
const latin = (text) => Buffer.from(text, 'latin1');

/** All of it; the folder is for files that come and go. */
export async function holdSheets(browser, folder) {
    await start(browser);
    await lengths(browser, folder);
    await odd(browser, folder);
    await dropped(browser);
    await later(browser);
    await examples(browser);
    await scrolled(browser);
    await typed(browser);
    await undone(browser);
    await resumed(browser);
    await goesToLine(browser);
    await saved(browser, folder);
    await copied(browser);
}

async function start(browser) {
    const shown = await browser.run(seen);
    assert.equal(shown.box, caseText('document-01', 'sheet'), 'document 01 is there at the start');
    assert.equal(shown.text, caseText('document-01', 'expect'));
    assert.equal(shown.name, 'document-01.sheet');
    assert.equal(shown.date, 'Calculation date 2019-06-12');
    assert.deepEqual(shown.bars.map(({ labels }) => labels), [
        ['Class 6', 'long 810,160 of 1,110,160 EUR', 'short 0 of 0 EUR'],
        ['Class 7', 'long 0 of 0 EUR', 'short 300,000 of 600,000 EUR'],
    ]);
    assert.deepEqual(shown.numbers.slice(0, 11), Array.from({ length: 11 }, (_, place) => String(place + 1)));
}

// What a sheet of these bytes is refused for, or accepted with
async function holdBytes(browser, folder, name, bytes, text) {
    const path = join(folder, name);
    writeFileSync(path, bytes);
    const shown = await opened(browser, path);
    rmSync(path);
    assert.equal(shown.text, text, name);
    const refusal = /^N;(\d+);(\d+)\n$/.exec(text);
    if (refusal) holdRefusal(shown, bytes.toString('latin1'), Number(refusal[1]), Number(refusal[2]));
    if (!shown.note?.startsWith('The file has')) assert.equal((await touched(browser)).text, text, `${name}, from the box`);
    return shown;
}

async function lengths(browser, folder) {
    const filled = (length) => latin(head.padEnd(length, 'x'));
    await holdBytes(browser, folder, 'no-bytes', latin(''), 'N;3;1\n');
    await holdBytes(browser, folder, 'head-alone', latin(head), '');
    await holdBytes(browser, folder, '65536-bytes', filled(65536), 'N;5;3\n');
    await holdBytes(browser, folder, '65537-bytes', filled(65537), 'N;2;0\n');
    await holdBytes(browser, folder, '65537-lines', latin('\n'.repeat(65537)), 'N;2;0\n');
    const many = await holdBytes(browser, folder, '6000-rows', latin(head + 'C;1;I;;0\n'.repeat(6000)), 'N;9;4\n');
    assert.equal(many.numbers[3], '\u25b6 4');
    const longest = await holdBytes(browser, folder, 'two-million-bytes', filled(2000000), 'N;2;0\n');
    assert.match(longest.note, /^The file has 2,000,000 bytes\. /);
    assert.equal(await browser.run(() => document.getElementById('sheet').readOnly), true);
}

async function odd(browser, folder) {
    const document01 = caseText('document-01', 'sheet');
    const every = Buffer.from(Array.from({ length: 256 }, (_, byte) => byte));
    const signs = await holdBytes(browser, folder, 'every-byte', every, 'N;3;1\n');
    assert.match(signs.note, /^Bytes that are no plain text are shown by signs/);
    await holdBytes(browser, folder, 'no-text', latin(document01.replace('T;R;S', 'T;R;\xff')), 'N;6;9\n');
    await holdBytes(browser, folder, 'utf-8', Buffer.from(document01.replace('T;R;S', 'T;R;\u00e9'), 'utf8'), 'N;6;9\n');
    await holdBytes(browser, folder, 'zero-byte', latin(document01.replace('T;R;S', 'T;R;\0')), 'N;6;9\n');
    await holdBytes(browser, folder, 'byte-order-mark', latin(`\xef\xbb\xbf${document01}`), 'N;3;1\n');
    await holdBytes(browser, folder, 'no-line-end', latin(document01.slice(0, -1)), 'N;5;10\n');
    await holdBytes(browser, folder, 'signs-as-text', Buffer.from('\u240d\u2880\n'), 'N;3;1\n');
    await holdBytes(browser, folder, 'carriage-returns', latin(document01.replaceAll('\n', '\r\n')), 'N;4;1\n');
    const without = await pressed(browser, '#drop-carriage');
    assert.equal(without.text, caseText('document-01', 'expect'), 'without CR it is document 01');
    assert.equal(without.note, undefined);
}

// Drags a file over the page and drops it; gives whether the page took both from the browser, which would open the file
function drop(name, text) {
    const data = new DataTransfer();
    data.items.add(new File([text], name));
    const how = { dataTransfer: data, bubbles: true, cancelable: true };
    const events = ['dragover', 'drop'].map((kind) => new DragEvent(kind, how));
    events.forEach((event) => document.body.dispatchEvent(event));
    return events.every((event) => event.defaultPrevented);
}

async function dropped(browser) {
    assert.ok(await browser.run(drop, 'dropped.sheet', caseText('priorities-as-listed', 'sheet')));
    await browser.until(() => document.getElementById('name').textContent === 'dropped.sheet');
    assert.equal((await browser.run(seen)).text, caseText('priorities-as-listed', 'expect'));
}

// Of two files the later one stays, also where the first is read more slowly
async function later(browser) {
    await browser.run(() => {
        const { arrayBuffer } = Blob.prototype;
        Blob.prototype.arrayBuffer = async function () {
            Blob.prototype.arrayBuffer = arrayBuffer;
            await new Promise((resolve) => setTimeout(resolve, 200)); // ms
            return arrayBuffer.call(this);
        };
    });
    await browser.run(drop, 'slow.sheet', 'slow');
    await browser.run(drop, 'quick.sheet', 'quick');
    await browser.run(() => new Promise((resolve) => setTimeout(resolve, 400))); // ms
    assert.equal((await browser.run(seen)).name, 'quick.sheet');
}

// Each example, and that a reason which was asked for goes with its sheet
async function examples(browser) {
    const all = () => Array.from(document.querySelectorAll('[data-example]'), (one) => one.dataset.example);
    const names = await browser.run(all);
    assert.equal(names[0], 'document-01');
    for (const name of names) {
        await pressed(browser, '[data-example="document-01"]');
        assert.ok((await pressed(browser, '#classes button')).why);
        const shown = await pressed(browser, `[data-example="${name}"]`);
        assert.deepEqual([shown.name, shown.text, shown.why], [`${name}.sheet`, caseText(name, 'expect'), undefined]);
    }
}

async function scrolled(browser) {
    await opened(browser, sheetOf('tables-full'));
    await browser.run(() => document.getElementById('sheet').scrollTo(0, 20 * 500 /* px */));
    await browser.until(() => document.getElementById('numbers').textContent.startsWith('501\n'));
}

// By real keys; each one is answered
async function typed(browser) {
    await browser.click('#sheet');
    await browser.press('Control+a');
    await browser.press('Delete');
    assert.equal((await browser.run(seen)).text, 'N;3;1\n');
    await browser.type('BRM;1');
    assert.equal((await browser.run(seen)).text, 'N;4;1\n');
    await browser.press('Enter');
    assert.equal((await browser.run(seen)).text, 'N;5;2\n');
    await browser.type('D;20190612');
    assert.equal((await browser.run(seen)).text, 'N;5;2\n');
    await browser.press('Enter');
    const shown = await browser.run(seen);
    assert.equal(shown.text, '');
    assert.match(shown.status, /^Accepted\. The report has no line/);
    assert.match(shown.name, /, changed$/);
    // Pasted: what the clipboard's text does to a box, CR and LF included
    await browser.press('Control+a');
    const lines = caseText('document-01', 'sheet').replaceAll('\n', '\r\n');
    await browser.run((text) => document.execCommand('insertText', false, text), lines);
    assert.equal((await browser.run(seen)).text, caseText('document-01', 'expect'));
}

// What was typed at the end of one sheet is not undone in another, nor done again
async function undone(browser) {
    await opened(browser, sheetOf('document-01'));
    await browser.click('#sheet');
    await browser.press('Control+End');
    await browser.type('yy');
    for (const key of ['Backspace', 'Backspace', 'x', 'Control+z']) await browser.press(key);
    await opened(browser, sheetOf('priorities-as-listed'));
    await browser.click('#sheet');
    for (const key of ['Control+z', 'Control+Shift+z', 'Control+y']) {
        await browser.press(key);
        const { box, name } = await browser.run(seen);
        assert.deepEqual([box, name], [caseText('priorities-as-listed', 'sheet'), 'priorities-as-listed.sheet'], key);
    }
}

// What was typed is not lost when another sheet comes
async function resumed(browser) {
    await opened(browser, sheetOf('priorities-as-listed'));
    await browser.click('#sheet');
    await browser.press('Control+a');
    await browser.type('typed');
    await opened(browser, sheetOf('document-01'));
    const shown = await pressed(browser, '#back');
    assert.deepEqual([shown.box, shown.name], ['typed', 'priorities-as-listed.sheet, changed']);
}

async function goesToLine(browser) {
    const shown = await opened(browser, sheetOf('trade-7-before-8'));
    assert.ok(shown.marked > 100, 'a line far down');
    const place = () => {
        const [box, mark] = ['sheet', 'mark'].map((id) => document.getElementById(id));
        const [outer, inner] = [box, mark].map((one) => one.getBoundingClientRect());
        const arrow = document.getElementById('numbers').textContent.split('\n').findIndex((line) => line.startsWith('\u25b6'));
        const first = document.getElementById('numbers').getBoundingClientRect().top; // px
        const height = parseFloat(getComputedStyle(box).lineHeight); // px
        const selected = box.value.slice(box.selectionStart, box.selectionEnd);
        const inside = inner.top >= outer.top && inner.bottom <= outer.bottom;
        return { inside, apart: first + height * arrow - inner.top, selected };
    };
    const { inside, apart } = await browser.run(place);
    assert.ok(inside && Math.abs(apart) <= 1, `the marked line is in sight, and its number beside it: ${apart} px`);
    await browser.click('#go');
    const line = caseText('trade-7-before-8', 'sheet').split('\n')[shown.marked - 1];
    assert.equal((await browser.run(place)).selected, line);
    assert.equal(await browser.run(() => document.activeElement.id), 'sheet');
    await opened(browser, sheetOf('document-01'));
    await browser.click('#trades tr:last-child button.line');
    assert.equal((await browser.run(place)).selected, caseText('document-01', 'sheet').split('\n')[9], 'the line of a trade');
}

async function saved(browser, folder) {
    await browser.downloads(join(folder, 'downloads'));
    const gets = async (selector, name, bytes) => {
        await browser.click(selector);
        const path = await browser.downloaded();
        assert.equal(basename(path), name);
        assert.deepEqual(readFileSync(path), bytes, name);
        rmSync(path);
    };
    await opened(browser, sheetOf('all-kinds-two-currencies'));
    await gets('#save', 'all-kinds-two-currencies.report.txt', latin(caseText('all-kinds-two-currencies', 'expect')));
    await pressed(browser, '#full');
    await gets('#save', 'all-kinds-two-currencies.report.txt', latin(caseText('all-kinds-two-currencies', 'full')));
    await pressed(browser, '#full');
    await gets('#save-sheet', 'all-kinds-two-currencies.sheet', latin(caseText('all-kinds-two-currencies', 'sheet')));
    const every = Buffer.from(Array.from({ length: 512 }, (_, place) => (place * 7) % 256));
    await holdBytes(browser, folder, 'every.sheet', every, 'N;3;1\n');
    await gets('#save-sheet', 'every.sheet', every); // as it came back from the box
    await gets('#save', 'every.report.txt', latin('N;3;1\n'));
}

async function copied(browser) {
    await opened(browser, sheetOf('document-01'));
    await browser.click('#copy');
    await browser.until(() => document.getElementById('copied').textContent === 'Copied.');
    await browser.click('#sheet');
    await browser.press('Control+a');
    await browser.press('Control+v');
    assert.equal((await browser.run(seen)).box, caseText('document-01', 'expect'), 'what was copied');
}
