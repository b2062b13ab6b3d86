// A real browser for tests of the page, driven from Node by the same methods whichever it is: Chromium over its DevTools
// protocol, Firefox over WebDriver BiDi. It needs Node 20 and the browser, and no package. Neither reaches past this machine.
import { accessSync, mkdirSync, writeFileSync } from 'node:fs';
import { resolve } from 'node:path';
import { Chromium } from './chromium.mjs';
import { Firefox } from './firefox.mjs';
import { stroke } from './keys.mjs';
import { LIMIT, Program } from './program.mjs';

const STEP = 20; // ms, between two looks at the page
const WINDOW = { width: 1280, height: 800 }; // CSS pixels, until a test asks for others

/** A browser of a kind, 'chromium' or 'firefox', from the path of its program. It ends by close, or with this process. */
export async function start(kind, path) {
    const Driver = { chromium: Chromium, firefox: Firefox }[kind];
    if (!Driver) throw new TypeError(`the browser is 'chromium' or 'firefox', not ${kind}`);
    const program = new Program(path);
    try {
        const driver = new Driver(program);
        const browser = new Browser(program, driver, await driver.begin());
        await browser.size(WINDOW.width, WINDOW.height);
        return browser;
    } catch (error) {
        await program.end();
        throw error;
    }
}

/** What a test has: a window with a page. Each method waits until the browser has done it, and throws where it cannot. */
class Browser {
    #program;
    #driver;
    #media;

    constructor(program, driver, version) {
        this.#program = program;
        this.#driver = driver;
        this.version = version; // its name and number
    }

    /**
     * Every URL that the page and its workers asked for since the start, in order, but data: and blob:, which are in the page.
     * Of files Firefox lists the page alone.
     */
    get requests() {
        return this.#driver.requests;
    }

    /** The console's errors since the start, uncaught exceptions and breaches of the content policy among them, and dialogs. */
    get complaints() {
        return this.#driver.complaints;
    }

    /** Goes to a URL and waits until it is loaded. */
    async open(url) {
        try {
            await this.#driver.open(String(url));
        } catch (error) {
            throw new Error(`${url} was not opened: ${error.message}`);
        }
        await this.until(() => document.hasFocus());
        if (this.#media) await this.media(this.#media); // Firefox forgets the medium where it opens a page in another process
    }

    /**
     * What a function gives when it runs in the page, in the page's own world. Its text goes there, so it sees nothing of what
     * is around it here. Arguments and value go as JSON; a promise is awaited; what it throws is thrown, by name and message.
     */
    async run(work, ...args) {
        if (typeof work !== 'function') throw new TypeError(`a function runs in the page, and no ${typeof work}`);
        const given = JSON.stringify(JSON.stringify(args)); // as a text, since in a program __proto__ is no name like others
        const { thrown, value } = JSON.parse(await this.#driver.evaluate(`(async () => {
            await null; // until here Firefox does not hold it to the content policy
            try {
                return JSON.stringify({ value: await (${work})(...JSON.parse(${given})) });
            } catch (error) {
                const { name = 'Error', message = String(error), stack = '' } = error ?? {};
                return JSON.stringify({ thrown: { name, message, stack } });
            }
        })()`));
        if (!thrown) return value;
        const error = new Error(thrown.message);
        error.name = thrown.name;
        error.stack += `\nin the page:\n${thrown.stack}`;
        throw error;
    }

    /** Runs a function in the page again and again until it gives something true, and gives that. */
    async until(condition, ...args) {
        const end = Date.now() + LIMIT;
        for (;;) {
            const value = await this.run(condition, ...args);
            if (value) return value;
            if (Date.now() > end) throw new Error(`not true within ${LIMIT / 1000} s: ${condition}`);
            await new Promise((done) => setTimeout(done, STEP));
        }
    }

    /** Puts a file from disk into an <input type=file>. */
    async setFile(selector, path) {
        const file = resolve(path);
        accessSync(file); // Chromium would take one that is not there
        await this.run(fileInput, selector);
        await this.#driver.setFile(selector, file);
    }

    /** A key, pressed and released: a character, or a name in KEYS. Others may be held, as in Shift+Tab or Control+A. */
    async press(key) {
        await this.#driver.strike([stroke(key)]);
    }

    /** The keys of a text, one after the other; a line's end is Enter. */
    async type(text) {
        const names = { '\n': 'Enter', '\t': 'Tab' };
        await this.#driver.strike([...text].map((character) => stroke(names[character] ?? character)));
    }

    /** A mouse click at an element's centre, scrolled into view; an error where something else lies over it. */
    async click(selector) {
        const { x, y } = await this.run(centre, selector);
        await this.#driver.click(x, y);
    }

    /** The page's room in the window, in CSS pixels. */
    async size(width, height) {
        await this.#driver.size(width, height);
        await this.until((width, height) => innerWidth === width && innerHeight === height, width, height);
    }

    /** What media queries are told: the scheme that the user likes, 'light' or 'dark', and whether it is for print. */
    async media({ scheme = 'light', print = false } = {}) {
        if (scheme !== 'light' && scheme !== 'dark') throw new TypeError(`the scheme is 'light' or 'dark', not ${scheme}`);
        this.#media = { scheme, print };
        await this.#driver.media(scheme, print);
        await this.until((print) => matchMedia('print').matches === print, print);
        // Firefox prints in the light scheme whatever the user likes
        if (!print) await this.until((scheme) => matchMedia(`(prefers-color-scheme: ${scheme})`).matches, scheme);
    }

    /** Writes a PNG of the window, or of the whole page. */
    async picture(path, { whole = false } = {}) {
        writeFileSync(path, Buffer.from(await this.#driver.picture(whole), 'base64'));
    }

    /** Prints the page to a PDF, on A4 unless its style has another size. */
    async pdf(path) {
        writeFileSync(path, Buffer.from(await this.#driver.pdf(), 'base64'));
    }

    /** Lets downloads go into a folder. */
    async downloads(folder) {
        mkdirSync(folder, { recursive: true });
        await this.#driver.downloads(resolve(folder));
    }

    /** The path of the next download, once it is complete. */
    async downloaded() {
        return await this.#program.wait(this.#driver.finished.next(), 'a download');
    }

    /** Ends the browser and removes its profile. It may be called again. */
    async close() {
        await this.#program.end();
    }
}

// In the page: whether a file can be put there
function fileInput(selector) {
    const element = document.querySelector(selector);
    if (!element) throw new Error(`no element is ${selector}`);
    if (element.type !== 'file' || element.disabled) throw new Error(`${selector} takes no file`);
}

// In the page: where an element is clicked
function centre(selector) {
    const element = document.querySelector(selector);
    if (!element) throw new Error(`no element is ${selector}`);
    element.scrollIntoView({ block: 'center', inline: 'center', behavior: 'instant' });
    const [box] = element.getClientRects(); // the first line's, where a text is broken into lines
    if (!box || box.width === 0 || box.height === 0) throw new Error(`${selector} is not shown`);
    const [x, y] = [Math.floor(box.x + box.width / 2), Math.floor(box.y + box.height / 2)];
    const top = document.elementFromPoint(x, y);
    if (!element.contains(top)) throw new Error(`over ${selector} lies ${top ? top.cloneNode().outerHTML : 'the window'}`);
    return { x, y };
}
