// The page in a real browser, loaded from disk: node hosts/page/test/run.mjs chromium|firefox PROGRAM
import { mkdtempSync, rmSync } from 'node:fs';
import { tmpdir } from 'node:os';
import { join } from 'node:path';
import assert from 'node:assert/strict';
import { start } from './browser/browser.mjs';
import { holdCases, holdQuestions } from './cases.mjs';
import { holdKeys, holdNames, holdPaper, holdPicture, holdSchemes, holdTime, holdWidths } from './looks.mjs';
import { holdMoves } from './moves.mjs';
import { holdInside, holdMarkup, holdPolicy, holdSilence } from './safety.mjs';
import { holdSheets } from './sheets.mjs';

const [kind, program] = process.argv.slice(2);
assert.ok(program, 'usage: node hosts/page/test/run.mjs chromium|firefox PROGRAM');
const address = new URL('../../../docs/gronnhyl.html', import.meta.url).href;
const folder = mkdtempSync(join(tmpdir(), 'page-'));
const browser = await start(kind, program);
try {
    await browser.size(1280, 900);
    await browser.open(address);
    await holdSheets(browser, folder);
    const cases = await holdCases(browser);
    const questions = await holdQuestions(browser);
    await holdMoves(browser, folder);
    await holdWidths(browser, folder);
    await holdNames(browser);
    await holdKeys(browser);
    const { anew, changed, last } = await holdTime(browser);
    await holdPicture(browser);
    await holdSchemes(browser);
    await holdPaper(browser);
    await holdInside(browser);
    await holdMarkup(browser, folder);
    assert.deepEqual(browser.complaints, [], 'what the browser complained of');
    holdSilence(browser, address);
    await holdPolicy(browser);
    console.log(`page: ${browser.version}: ${cases} cases, quiet and full, and ${questions} reasons are shown as expected`);
    console.log(`page: the fullest sheet in ${anew} ms, its last row in ${last} ms, a change of it in ${changed} ms`);
} finally {
    await browser.close();
    rmSync(folder, { recursive: true });
}
