// Firefox, over WebDriver BiDi.
import { mkdirSync, writeFileSync } from 'node:fs';
import { join } from 'node:path';
import { Arrivals, goesOut, PAPER, Wire } from './program.mjs';
import { connected, framed, unframed } from './socket.mjs';

const FIREFOX = {
    'browser.startup.page': 0, // an empty one
    'browser.aboutwelcome.enabled': false,
    'browser.newtab.preload': false,
    'browser.chrome.site_icons': false,
    'browser.download.alwaysOpenPanel': false,
    'browser.shell.checkDefaultBrowser': false,
    'print.enabled': false, // a page that prints itself would wait for a dialog
    // Nothing of its own goes out
    'app.update.disabledForTesting': true,
    'datareporting.policy.dataSubmissionEnabled': false,
    'extensions.systemAddon.update.enabled': false,
    'media.gmp-manager.updateEnabled': false,
    'network.captive-portal-service.enabled': false,
    'network.connectivity-service.enabled': false,
    'services.settings.server': 'data:,#remote-settings-dummy/v1',
    // and no other machine is reached: all goes to a proxy that is not there
    'network.proxy.type': 1, // this one
    'network.proxy.socks': '127.0.0.1',
    'network.proxy.socks_port': 9,
    'network.proxy.socks_remote_dns': true,
    'network.proxy.allow_bypass': false,
    'network.proxy.failover_direct': false,
};
const ENVIRONMENT = {
    MOZ_CRASHREPORTER_DISABLE: '1',
    MOZ_REMOTE_SETTINGS_DEVTOOLS: '1', // or services.settings.server above does not count
};
const SCHEMES = { dark: 0, light: 1 };
const EVENTS = [
    'log.entryAdded', 'network.beforeRequestSent', 'browsingContext.navigationStarted', 'browsingContext.userPromptOpened',
    'browsingContext.downloadEnd',
];

export class Firefox {
    #program;
    #wire;
    #page;
    #window; // around the page, where its media and its focus are set
    requests = [];
    complaints = [];
    finished = new Arrivals(); // downloads

    constructor(program) {
        this.#program = program;
    }

    /** Starts it, and gives its version. */
    async begin() {
        const place = await this.#program.wait(this.#launch(), 'the place where Firefox listens');
        const socket = await this.#program.wait(connected(place), 'the socket of Firefox');
        this.#wire = new Wire(this.#program, (text) => socket.write(framed(text)), (message) => this.#heard(message));
        socket.on('data', unframed((text) => this.#wire.hear(text)));
        const wanted = { unhandledPromptBehavior: { default: 'accept', file: 'ignore' } };
        const { capabilities } = await this.#wire.ask('session.new', { capabilities: { alwaysMatch: wanted } });
        await this.#wire.ask('session.subscribe', { events: EVENTS });
        this.#page = await this.#first('content');
        this.#window = await this.#first('chrome');
        return `Firefox ${capabilities.browserVersion}`;
    }

    async open(url) {
        await this.#ask('browsingContext.navigate', { url, wait: 'complete' });
        await this.#inWindow('page.focus()'); // or the address has the keys
    }

    async evaluate(expression) {
        return await this.#evaluate(this.#page, expression);
    }

    async setFile(selector, file) {
        const locator = { type: 'css', value: selector };
        const { nodes: [{ sharedId }] } = await this.#ask('browsingContext.locateNodes', { locator });
        await this.#ask('input.setFiles', { element: { sharedId }, files: [file] });
    }

    async strike(strokes) {
        const down = ({ sent }) => ({ type: 'keyDown', value: sent });
        const up = ({ sent }) => ({ type: 'keyUp', value: sent });
        const actions = strokes.flatMap(({ held, pressed }) =>
            [...held.map(down), down(pressed), up(pressed), ...held.toReversed().map(up)]);
        await this.#ask('input.performActions', { actions: [{ type: 'key', id: 'keys', actions }] });
    }

    async click(x, y) {
        const actions = [{ type: 'pointerMove', x, y }, { type: 'pointerDown', button: 0 }, { type: 'pointerUp', button: 0 }];
        await this.#ask('input.performActions', { actions: [{ type: 'pointer', id: 'mouse', actions }] });
    }

    async size(width, height) {
        await this.#ask('browsingContext.setViewport', { viewport: { width, height } });
    }

    async media(scheme, print) {
        const preference = 'layout.css.prefers-color-scheme.content-override';
        await this.#inWindow(`Services.prefs.setIntPref('${preference}', ${SCHEMES[scheme]})`);
        await this.#inWindow(`page.browsingContext.mediumOverride = '${print ? 'print' : ''}'`);
    }

    async picture(whole) {
        const { data } = await this.#ask('browsingContext.captureScreenshot', { origin: whole ? 'document' : 'viewport' });
        return data;
    }

    async pdf() {
        const { width, height, margin } = PAPER;
        const paper = { page: { width, height }, margin: { top: margin, bottom: margin, left: margin, right: margin } };
        const { data } = await this.#ask('browsingContext.print', { ...paper, background: true });
        return data;
    }

    async downloads(folder) {
        const downloadBehavior = { type: 'allowed', destinationFolder: folder };
        await this.#wire.ask('browser.setDownloadBehavior', { downloadBehavior });
    }

    #ask(method, params) {
        return this.#wire.ask(method, { context: this.#page, ...params });
    }

    // Starts it, and gives the place where it listens, which it says in its words
    #launch() {
        const profile = join(this.#program.folder, 'profile');
        mkdirSync(profile);
        const lines = Object.entries(FIREFOX).map(([name, value]) => `user_pref('${name}', ${JSON.stringify(value)});\n`);
        writeFileSync(join(profile, 'user.js'), lines.join(''));
        const remote = ['--remote-debugging-port=0', '--remote-allow-system-access']; // any port, and the window too
        const words = ['--headless', '--no-remote', ...remote, '--profile', profile, 'about:blank'];
        return new Promise((done) => {
            const heard = (said) => {
                const [, place] = /WebDriver BiDi listening on ws:\/\/(\S+)\s/.exec(said) ?? [];
                if (place) done(place);
            };
            this.#program.launch(words, { env: ENVIRONMENT, heard });
        });
    }

    async #first(scope) {
        const { contexts: [{ context }] } = await this.#wire.ask('browsingContext.getTree', { 'moz:scope': scope });
        return context;
    }

    // What only the window around the page can do, once the page is the one that it shows
    async #inWindow(work) {
        await this.#ask('browsingContext.activate');
        await this.#evaluate(this.#window, `{ const page = gBrowser.selectedBrowser; ${work}; }`);
    }

    async #evaluate(context, expression) {
        const asked = { expression, target: { context }, awaitPromise: true };
        const { result, exceptionDetails } = await this.#wire.ask('script.evaluate', asked);
        if (exceptionDetails) throw new Error(exceptionDetails.text);
        return result.value;
    }

    #heard({ method, params }) {
        const events = {
            'log.entryAdded': () => params.level === 'error' && this.complaints.push(params.text),
            'network.beforeRequestSent': () => goesOut(params.request.url) && this.requests.push(params.request.url),
            'browsingContext.navigationStarted': () => params.url.startsWith('file:') && this.requests.push(params.url),
            'browsingContext.userPromptOpened': () => this.complaints.push(`a dialog: ${params.message}`),
            'browsingContext.downloadEnd': () => this.#downloaded(params),
        };
        events[method]?.();
    }

    #downloaded({ status, filepath }) {
        if (status === 'complete') this.finished.add(filepath);
        else this.complaints.push('a download was cancelled');
    }
}
