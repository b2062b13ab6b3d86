// A sheet to its report on any computer with Node: node forecast.mjs FILE, or node forecast.mjs < FILE. It is the quiet one,
// without the K lines of zeros; with --full before FILE every class has its line. With --why CURRENCY CLASS before FILE: why the
// margin of that class in that currency is what it is.
// Text, words on standard error and exit status are those of ./forecast: 0 a report or an explanation, 1 a refusal, with what
// it means, 2 wrong words or a sheet that cannot be read.
import { createReadStream, fstatSync, statSync } from 'node:fs';
import { readFile } from 'node:fs/promises';
import { load } from './kit.js';
import { refusalFor, refusalsIn, rowOf } from './refusals.js';

// One byte more than a sheet may have is enough to see that it is too long
const MOST = 65537; // bytes
const HIGHEST = 2n ** 64n - 1n; // the highest class that the kit can be asked for; no sheet has it

class Failure extends Error {}

// What the words ask for: a report, full or not, or a question; and a file or none
function asked(words) {
    const full = words[0] === '--full';
    const question = words[0] === '--why' ? words.slice(1, 3) : undefined;
    const files = words.slice(question ? 3 : full ? 1 : 0);
    if (files.length > 1 || question?.length < 2) {
        throw new Failure('one sheet at a time: node forecast.mjs [--full | --why CURRENCY CLASS] FILE, or the same < FILE');
    }
    return { full, question, file: files[0] };
}

// A class is written as numbers are on the sheet. Any other word, and a number beyond 64 bits, is a class that no sheet has
function classOf(word) {
    const number = /^(0|[1-9][0-9]*)$/.test(word) ? BigInt(word) : HIGHEST;
    return number < HIGHEST ? number : HIGHEST;
}

// Node takes a folder on standard input for an empty sheet. Not every system tells what stands there; then it is read
function folderOnInput() {
    try {
        return fstatSync(0).isDirectory();
    } catch {
        return false;
    }
}

async function read(file) {
    try {
        if (file === undefined ? folderOnInput() : !statSync(file).isFile()) throw new Error('no file');
        const stream = file === undefined ? process.stdin : createReadStream(file, { end: MOST - 1 });
        const pieces = [];
        let length = 0; // bytes
        for await (const piece of stream) {
            pieces.push(piece);
            length += piece.length;
            if (length >= MOST) break;
        }
        return Buffer.concat(pieces).subarray(0, MOST);
    } catch {
        throw new Failure(file === undefined ? 'cannot read the sheet' : `cannot read ${file}`);
    }
}

async function kit() {
    try {
        return await load(await readFile(new URL('kit.wasm', import.meta.url)));
    } catch (error) {
        throw new Failure(`no kit.wasm beside forecast.mjs that Node can load: ${error.message}`);
    }
}

function answer(kit, sheet, full, question) {
    try {
        if (question === undefined) return full ? kit.marginFull(sheet) : kit.margin(sheet);
        const [currency, word] = question;
        return kit.explain(sheet, new TextEncoder().encode(currency), classOf(word));
    } catch {
        throw new Failure('the program stopped');
    }
}

// The table of refusals. Who took hosts/web alone does without it
async function refusals() {
    try {
        return refusalsIn(await readFile(new URL('../../docs/REFUSALS.md', import.meta.url), 'utf8'));
    } catch {
        return [];
    }
}

// What a refusal means and what should stand there; where the table has no entry for it, number and line alone
async function said(sheet, number, line) {
    const which = `forecast: refusal ${number}${line === 0 ? '' : `, line ${line}`}`;
    const entry = refusalFor(await refusals(), number, rowOf(sheet, line));
    return entry ? `${which}: ${entry.meaning}\nforecast: there should be: ${entry.should}\n` : `${which}\n`;
}

async function forecast(words) {
    const { full, question, file } = asked(words);
    const loaded = await kit();
    const sheet = await read(file);
    const { report, number, line } = answer(loaded, sheet, full, question);
    const meaning = report ? '' : await said(sheet, number, line);
    // The status is set and not exited with, so that a pipe gets all of the text
    process.exitCode = report ? 0 : 1;
    // Where the text cannot be written, that alone is said
    process.stdout.write(report ?? `N;${number};${line}\n`, (error) => {
        if (!error) process.stderr.write(meaning);
    });
}

function fail(message) {
    process.stderr.write(`forecast: ${message}\n`);
    process.exitCode = 2;
}

process.stdout.on('error', () => fail('cannot write the report'));
try {
    await forecast(process.argv.slice(2));
} catch (error) {
    if (!(error instanceof Failure)) throw error;
    fail(error.message);
}
