// How the page stands in windows of every width, light and dark, on paper, by keyboard and read aloud; and how quick it is.
import assert from 'node:assert/strict';
import { writeFileSync } from 'node:fs';
import { join } from 'node:path';
import { caseText, sheetOf } from './cases.mjs';
import { listed, opened, pressed, seen } from './seen.mjs';

const WIDTHS = [1600, 1280, 1101, 1100, 800, 561, 560, 390, 320]; // px
const SOON = 250; // ms, on a slow machine too; hosts/page/README.md has what was measured

/** No window is too narrow for the page. */
export async function holdWidths(browser, folder) {
    for (const name of ['document-01', 'tables-full', 'code-with-digits-swapped', 'trade-8-before-10']) {
        await opened(browser, sheetOf(name));
        for (const width of WIDTHS) {
            await browser.size(width, 900);
            const wider = await browser.run(() => document.scrollingElement.scrollWidth - innerWidth); // px
            assert.ok(wider <= 0, `${name} is ${wider} px wider than a window of ${width}`);
            const { text, totals, trades, marked } = await browser.run(seen);
            assert.ok(text.startsWith('N') ? marked > 0 : totals.length > 0 && trades.length > 0, `${name} in ${width} px`);
        }
    }
    await opened(browser, sheetOf('priorities-as-listed'));
    await pressed(browser, '#rows [data-line="6"][data-move="1"]');
    await pressed(browser, '#classes button');
    for (const width of WIDTHS) {
        await browser.size(width, 900);
        assert.ok(await browser.run(() => document.scrollingElement.scrollWidth <= innerWidth), `a comparison in ${width} px`);
    }
    // With a note and a button below the box
    const path = join(folder, 'low.sheet');
    writeFileSync(path, caseText('document-01', 'sheet').replaceAll('\n', '\r\n'));
    await opened(browser, path);
    for (const width of WIDTHS) {
        await browser.size(width, 500);
        const high = await browser.run(() => document.getElementById('sheet').clientHeight); // px
        assert.ok(high >= 120, `the box is ${high} px high in a window of ${width} by 500`);
    }
    await browser.size(1280, 900);
}

// The least contrast of a text with what is behind it, and what text it is; runs in the page
function leastContrast() {
    const channels = (colour) => colour.match(/[\d.]+/g).map(Number);
    const light = ([red, green, blue]) => [red, green, blue]
        .map((part) => part / 255)
        .map((part) => (part <= 0.03928 ? part / 12.92 : ((part + 0.055) / 1.055) ** 2.4))
        .reduce((sum, part, place) => sum + part * [0.2126, 0.7152, 0.0722][place], 0);
    const behind = (one) => {
        const colour = channels(getComputedStyle(one).backgroundColor);
        return colour[3] === 0 && one.parentElement ? behind(one.parentElement) : colour;
    };
    const hasText = (one) => Array.from(one.childNodes).some((child) => child.nodeType === Node.TEXT_NODE && child.data.trim());
    const shown = Array.from(document.querySelectorAll('body *')).filter((one) => one.checkVisibility() && !one.disabled);
    const texts = shown.filter(hasText);
    const ratios = texts.map((one) => {
        const style = getComputedStyle(one);
        const [ink, ground] = [channels(one.ownerSVGElement ? style.fill : style.color), behind(one)].map(light);
        const ratio = (Math.max(ink, ground) + 0.05) / (Math.min(ink, ground) + 0.05);
        return { ratio, text: one.textContent.slice(0, 40) };
    });
    return ratios.reduce((least, one) => (one.ratio < least.ratio ? one : least));
}

/** Without colour: what remains is filled, what was taken hatched, and the legend says so. */
export async function holdPicture(browser) {
    await opened(browser, sheetOf('priorities-as-listed'));
    const { fills, hatch, legend } = await browser.run(() => {
        const fill = (part) => getComputedStyle(document.querySelector(`#pictures .${part}`)).fill;
        return {
            fills: { taken: fill('taken'), remains: fill('remains') },
            hatch: document.querySelectorAll('pattern#hatch line').length,
            legend: Array.from(document.querySelectorAll('.legend svg'), (sign) =>
                `${sign.querySelector('rect').classList} ${sign.nextSibling.data.trim()}`),
        };
    });
    assert.match(fills.taken, /#hatch/);
    assert.match(fills.remains, /^rgb/);
    assert.equal(hatch, 1);
    assert.deepEqual(legend, ['remains remains', 'taken taken by priority rows']);
}

/** Light and dark are two, and every text stands out in both. */
export async function holdSchemes(browser) {
    const grounds = [];
    for (const scheme of ['light', 'dark']) {
        await browser.media({ scheme });
        for (const name of ['code-with-digits-swapped', 'priorities-as-listed']) {
            await opened(browser, sheetOf(name));
            if (name === 'priorities-as-listed') await pressed(browser, '#rows [data-line="6"][data-move="1"]');
            const { ratio, text } = await browser.run(leastContrast);
            assert.ok(ratio >= 4.5, `${scheme}: ${text} stands out by ${ratio}, and not by 4.5`);
        }
        grounds.push(await browser.run(() => getComputedStyle(document.body).backgroundColor));
    }
    assert.notEqual(grounds[0], grounds[1]);
    await browser.media({ scheme: 'light' });
}

/** On paper: the report with its tables and picture, none of what is pressed, and the sheet where it is wanted. */
export async function holdPaper(browser) {
    const visible = (ids) => ids.filter((id) => document.getElementById(id).checkVisibility());
    const report = ['name', 'status', 'totals', 'classes', 'pictures', 'trades', 'text'];
    const all = [...report, 'listing', 'comparison', 'sheet', 'rows', 'full', 'print'];
    await opened(browser, sheetOf('priorities-as-listed'));
    await browser.media({ print: true });
    assert.deepEqual(await browser.run(visible, all), report);
    await pressed(browser, '#with-sheet');
    assert.deepEqual(await browser.run(visible, all), [...report, 'listing']);
    const { listing } = await browser.run(seen);
    const lines = caseText('priorities-as-listed', 'sheet').split('\n').slice(0, -1);
    assert.equal(listing, lines.map((line, place) => `${String(place + 1).padStart(2)}  ${line}\n`).join(''));
    await pressed(browser, '#with-sheet');
    await pressed(browser, '#rows [data-line="6"][data-move="1"]');
    assert.deepEqual(await browser.run(visible, all), [...report, 'comparison']);
    const buttons = () => Array.from(document.querySelectorAll('button:not(.line)'), (one) => one.checkVisibility());
    assert.ok(!(await browser.run(buttons)).includes(true), 'a button on paper');
    await browser.media({ print: false });
    const rows = await browser.run((sheet) => {
        const box = document.getElementById('sheet');
        box.value = sheet;
        box.dispatchEvent(new InputEvent('input'));
        const soon = document.getElementById('trades').tBodies[0].rows.length;
        dispatchEvent(new Event('beforeprint'));
        return [soon, document.getElementById('trades').tBodies[0].rows.length];
    }, fullest());
    assert.ok(rows[0] < 500, 'a long table comes in parts');
    assert.equal(rows[1], 500, 'and is whole on paper');
}

/** What a screen reader has: a name for each control and picture, headings in order, and a live region. */
export async function holdNames(browser) {
    await opened(browser, sheetOf('priorities-as-listed'));
    await pressed(browser, '#rows [data-line="6"][data-move="1"]');
    await pressed(browser, '#classes button');
    const { nameless, moves, whys, levels, language, live } = await browser.run(() => {
        const all = (which) => Array.from(document.querySelectorAll(which));
        const labels = (inside) => all(`${inside} button`).map((one) => one.getAttribute('aria-label'));
        const label = (one) => one.getAttribute('aria-label') || one.labels?.[0]?.textContent || one.textContent ||
            document.getElementById(one.getAttribute('aria-labelledby'))?.textContent || '';
        const controls = all('button, input, textarea, [tabindex="0"], #pictures svg, section');
        const heads = all('h1, h2, h3, h4');
        return {
            nameless: controls.filter((one) => label(one).trim() === '').map((one) => one.outerHTML),
            moves: labels('#rows'),
            whys: labels('#classes'),
            levels: heads.filter((one) => one.checkVisibility()).map((one) => Number(one.localName[1])),
            language: document.documentElement.lang,
            live: ['status', 'verdict', 'copied'].map((id) => document.getElementById(id).getAttribute('role')),
        };
    });
    assert.deepEqual(nameless, []);
    const each = (names, form) => names.length > 0 && names.every((name) => form.test(name));
    assert.ok(each(moves, /^Move O;\S+ on line \d+ (up|down)$/), `${moves}`);
    assert.ok(each(whys, /^Why is the margin of class \d+ in EUR what it is\?$/), `${whys}`);
    assert.equal(language, 'en');
    assert.deepEqual(live, ['status', 'status', 'status']);
    assert.equal(levels[0], 1);
    const leaps = levels.slice(1).filter((level, place) => level > levels[place] + 1);
    assert.deepEqual(leaps, [], `headings of level ${levels}`);
}

/** Tab reaches every control that can be used, in the order of the page, and each shows that it has the focus. */
export async function holdKeys(browser) {
    await opened(browser, sheetOf('document-01'));
    await listed(browser, false);
    const wanted = await browser.run(() => {
        const all = Array.from(document.querySelectorAll('button, input, textarea, [tabindex="0"]'));
        const controls = all.filter((one) => one.checkVisibility() && !one.disabled);
        controls.forEach((one, place) => (one.dataset.stop = place));
        document.activeElement.blur();
        getSelection().removeAllRanges();
        scrollTo(0, 0);
        return controls.length;
    });
    await browser.run(() => document.querySelector('[data-stop="0"]').focus());
    for (let place = 0; place < wanted; place++) {
        const { stop, outline, name } = await browser.run(() => {
            const one = document.activeElement;
            const shown = one.id === 'file' ? document.querySelector('label[for=file]') : one;
            return { stop: one.dataset.stop, outline: getComputedStyle(shown).outlineStyle, name: one.outerHTML.slice(0, 80) };
        });
        assert.equal(stop, String(place), `stop ${place} is ${name}`);
        if (place > 0) assert.notEqual(outline, 'none', `${name} does not show that it has the focus`);
        await browser.press('Tab');
    }
}

// All tables full, every trade margined, and as many classes with a position as there can be securities
function fullest() {
    const rows = caseText('tables-full', 'sheet').split('\n').slice(0, -1);
    const codes = rows.filter((row) => row.startsWith('S;')).map((row) => row.split(';')[1]);
    const securities = codes.map((code, place) =>
        `S;${code};AA${'ABCDEFGH'[Math.floor(place / 25)]};G;${(place % 40) + 1};10959200;225000;1;20181025;20191025`);
    const amounts = (place) => `${99000000 + place};${10900000000 + place}`;
    const trades = Array.from({ length: 500 }, (_, place) =>
        `T;R;${'SP'[place % 2]};${codes[place % codes.length]};${amounts(place)};20190603;20190701;-${4000 + place}`);
    return `${[...rows.filter((row) => /^[BDCO]/.test(row)), ...securities, ...trades].join('\n')}\n`;
}

/**
 * The time until the page stands laid out with the answer to the fullest sheet, in full, where it comes anew, where a letter of
 * it changes, and until the last of its rows is there too; in ms.
 */
export async function holdTime(browser) {
    await listed(browser, true);
    const times = await browser.run(async (sheet, small) => {
        const box = document.getElementById('sheet');
        const frame = () => new Promise((resolve) => requestAnimationFrame(resolve));
        const answered = async (text) => {
            box.value = text;
            const start = performance.now();
            box.dispatchEvent(new InputEvent('input'));
            document.body.getBoundingClientRect();
            const soon = performance.now() - start;
            while (document.querySelector('[aria-busy="true"]')) await frame();
            document.body.getBoundingClientRect();
            return { soon, last: performance.now() - start };
        };
        const turns = [];
        for (let turn = 0; turn < 8; turn++) {
            await answered(small);
            const { soon: anew, last } = await answered(sheet);
            const { soon: changed } = await answered(sheet.replace('-4000', `-${4001 + turn}`));
            turns.push({ anew, changed, last });
        }
        return turns;
    }, fullest(), caseText('document-01', 'sheet'));
    const shown = await listed(browser, false);
    assert.deepEqual([shown.totals, shown.bars, shown.trades].map(({ length }) => length), [8, 200, 500]);
    // The best of each: another turn may have waited for something else on the machine
    const best = (which) => Math.round(Math.min(...times.map((turn) => turn[which])));
    const [anew, changed, last] = ['anew', 'changed', 'last'].map(best);
    assert.ok(anew < SOON && changed < SOON, `the fullest sheet is answered in ${anew} ms, a change of it in ${changed} ms`);
    return { anew, changed, last };
}
