// Pictures of the page, for who looks at it: node hosts/page/test/pictures.mjs chromium PROGRAM FOLDER
import assert from 'node:assert/strict';
import { mkdirSync } from 'node:fs';
import { join } from 'node:path';
import { start } from './browser/browser.mjs';
import { sheetOf } from './cases.mjs';
import { opened, pressed } from './seen.mjs';

const [kind, program, folder] = process.argv.slice(2);
assert.ok(folder, 'usage: node hosts/page/test/pictures.mjs chromium PROGRAM FOLDER');
mkdirSync(folder, { recursive: true });
const picture = (name, whole = false) => browser.picture(join(folder, `${name}.png`), { whole });
const browser = await start(kind, program);
try {
    await browser.size(1200, 960);
    await browser.open(new URL('../../../docs/gronnhyl.html', import.meta.url).href);
    await picture('first'); // the README's
    for (const [name, width] of [['wide', 1280], ['narrow', 390]]) {
        await browser.size(width, 900);
        await opened(browser, sheetOf('document-01'));
        await pressed(browser, '#classes button');
        await picture(name, true);
        await opened(browser, sheetOf('code-with-digits-swapped'));
        await picture(`${name}-refused`);
        await opened(browser, sheetOf('priorities-as-listed'));
        await pressed(browser, '#rows [data-line="6"][data-move="1"]');
        await picture(`${name}-moved`, true);
        await opened(browser, sheetOf('tables-full'));
        await picture(`${name}-full`);
    }
    await browser.size(1280, 900);
    await browser.media({ scheme: 'dark' });
    await opened(browser, sheetOf('all-kinds-two-currencies'));
    await picture('dark', true);
    await opened(browser, sheetOf('code-with-digits-swapped'));
    await picture('dark-refused');
    await browser.media({ scheme: 'light' });
    await opened(browser, sheetOf('document-01'));
    await browser.pdf(join(folder, 'paper.pdf'));
    await pressed(browser, '#with-sheet');
    await opened(browser, sheetOf('priorities-as-listed'));
    await pressed(browser, '#rows [data-line="6"][data-move="1"]');
    await browser.pdf(join(folder, 'paper-moved.pdf'));
    await opened(browser, sheetOf('tables-full'));
    await browser.pdf(join(folder, 'paper-full.pdf'));
} finally {
    await browser.close();
}
