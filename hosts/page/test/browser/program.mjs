// A browser's process, and talking with it.
import { spawn } from 'node:child_process';
import { mkdtempSync, rmSync } from 'node:fs';
import { tmpdir } from 'node:os';
import { join } from 'node:path';

export const LIMIT = 30000; // ms, for every wait
export const PAPER = { width: 21, height: 29.7, margin: 1 }; // cm, A4
const TAIL = 2000; // characters of the browser's own words that an error shows

/** A browser's program, with a folder for all that it writes, which goes with it. */
export class Program {
    static #running = new Set();
    static #watching = false;

    #child;
    #ended; // why, once it has
    #closed = false;
    #said = '';

    constructor(path) {
        this.path = path;
        this.folder = mkdtempSync(join(tmpdir(), 'browser-'));
        Program.#running.add(this);
        Program.#watch();
    }

    // No browser outlives this process, unless that is killed outright
    static #watch() {
        if (Program.#watching) return;
        Program.#watching = true;
        const endAll = () => {
            for (const program of Program.#running) program.#kill();
            for (const program of Program.#running) program.#remove();
        };
        process.once('exit', endAll);
        for (const signal of ['SIGINT', 'SIGTERM', 'SIGHUP']) {
            process.once(signal, () => {
                endAll();
                process.kill(process.pid, signal);
            });
        }
    }

    /** Starts it, with pipes as its files 3 and 4 where they are wanted. Its words on standard error so far go to `heard`. */
    launch(words, { env = {}, pipes = [], heard = () => {} }) {
        const own = { HOME: this.folder, TMPDIR: this.folder, XDG_CONFIG_HOME: this.folder, XDG_CACHE_HOME: this.folder };
        this.#child = spawn(this.path, words, {
            detached: true, // as a group of processes, so that all of it can be ended
            env: { ...process.env, ...own, LC_ALL: 'C.UTF-8', ...env },
            stdio: ['ignore', 'ignore', 'pipe', ...pipes],
        });
        this.#ended = new Promise((done) => {
            this.#child.once('error', ({ message }) => done(`${this.path} did not start: ${message}`));
            this.#child.once('exit', (status, signal) => done(this.#ending(signal ?? `status ${status}`)));
        });
        this.#child.stderr.setEncoding('utf8').on('data', (text) => {
            this.#said = (this.#said + text).slice(-TAIL);
            heard(this.#said);
        });
        // None of it keeps Node from ending, so a test that forgets to close does not hang: only the timer of a wait does
        this.#child.unref();
        for (const stream of this.#child.stdio) stream?.on('error', () => {}).unref();
        return this.#child.stdio;
    }

    /** What comes of a promise, or an error where the program ends before that, or it takes too long. */
    wait(promise, what) {
        const ended = this.#ended.then((why) => {
            throw new Error(why);
        });
        return within(Promise.race([promise, ended]), what);
    }

    /** Ends it, and removes its folder. */
    async end() {
        this.#closed = true;
        this.#kill();
        if (this.#child) await within(this.#ended, `the end of ${this.path}`);
        this.#remove();
        Program.#running.delete(this);
    }

    #ending(how) {
        return this.#closed ? 'the browser is closed' : `${this.path} ended, ${how}: ${this.#said}`;
    }

    #kill() {
        try {
            if (this.#child?.pid) process.kill(-this.#child.pid, 'SIGKILL');
        } catch {
            // It has ended
        }
    }

    // What is being killed may still write for a moment
    #remove() {
        rmSync(this.folder, { recursive: true, force: true, maxRetries: 9, retryDelay: 20 /* ms */ });
    }
}

/** What comes of a promise, or an error where that takes too long. */
async function within(promise, what) {
    let timer;
    const late = new Promise((_, fail) => {
        timer = setTimeout(() => fail(new Error(`${what} did not come within ${LIMIT / 1000} s`)), LIMIT);
    });
    try {
        return await Promise.race([promise, late]);
    } finally {
        clearTimeout(timer);
    }
}

/** Things that come one by one, and whoever waits for the next. */
export class Arrivals {
    #here = [];
    #waiting = [];

    add(thing) {
        if (this.#waiting.length > 0) this.#waiting.shift()(thing);
        else this.#here.push(thing);
    }

    next() {
        return this.#here.length > 0 ? this.#here.shift() : new Promise((done) => this.#waiting.push(done));
    }
}

/**
 * Commands and what comes of them, in the form that both protocols have: { id, method, params } goes out, and { id, result },
 * { id, error } or an event { method, params } comes in.
 */
export class Wire {
    #program;
    #write;
    #heard;
    #last = 0;
    #asked = new Map();

    constructor(program, write, heard) {
        this.#program = program;
        this.#write = write;
        this.#heard = heard;
    }

    /** The answer to a command. */
    async ask(method, params = {}, more = {}) {
        const id = ++this.#last;
        const answer = new Promise((done, fail) => this.#asked.set(id, { done, fail }));
        this.#write(JSON.stringify({ id, method, params, ...more }));
        try {
            return await this.#program.wait(answer, `the answer to ${method}`);
        } catch ({ message }) {
            throw new Error(message); // made here, where its stack leads to the test
        } finally {
            this.#asked.delete(id);
        }
    }

    hear(text) {
        const message = JSON.parse(text);
        const asked = this.#asked.get(message.id);
        if (message.method) this.#heard(message);
        else if (message.error) asked?.fail(new Error(message.error.message ?? `${message.error}: ${message.message}`));
        else asked?.done(message.result);
    }
}

/** Whether a request goes to what is not in the page itself. */
export function goesOut(url) {
    return !/^(data|blob):/.test(url);
}
