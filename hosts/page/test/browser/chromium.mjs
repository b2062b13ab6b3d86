// Chromium, over its DevTools protocol by a pipe.
import { join } from 'node:path';
import { HELD } from './keys.mjs';
import { Arrivals, goesOut, PAPER, Wire } from './program.mjs';

const INCH = 2.54; // cm
const CHROMIUM = [
    '--headless=new', '--remote-debugging-pipe', '--disable-gpu', '--disable-dev-shm-usage', '--force-color-profile=srgb',
    '--no-first-run', '--no-default-browser-check', '--disable-extensions', '--disable-default-apps', '--password-store=basic',
    // A page that nobody looks at is not slowed down
    '--disable-background-timer-throttling', '--disable-backgrounding-occluded-windows', '--disable-renderer-backgrounding',
    // Nothing of its own goes out, and no other machine is found
    '--disable-background-networking', '--disable-component-update', '--disable-sync', '--no-pings', '--disable-breakpad',
    '--disable-crash-reporter', '--disable-domain-reliability', '--disable-client-side-phishing-detection',
    '--disable-features=MediaRouter,OptimizationHints,Translate', '--metrics-recording-only',
    '--host-resolver-rules=MAP * ~NOTFOUND, EXCLUDE 127.0.0.1, EXCLUDE localhost',
];
// What the page opens is attached to before it begins, so that none of its requests is missed
const ATTACH = { autoAttach: true, waitForDebuggerOnStart: true, flatten: true };
// What a page is and opens; anything else is of the browser's own window
const WATCHED = ['page', 'iframe', 'worker', 'shared_worker', 'service_worker'];

export class Chromium {
    #program;
    #wire;
    #session; // the page's
    #pages = new Arrivals();
    #loads = new Arrivals();
    requests = [];
    complaints = [];
    finished = new Arrivals(); // downloads

    constructor(program) {
        this.#program = program;
    }

    /** Starts it, and gives its version. */
    async begin() {
        const words = [...CHROMIUM, `--user-data-dir=${join(this.#program.folder, 'profile')}`, 'about:blank'];
        if (process.getuid() === 0) words.unshift('--no-sandbox'); // it does not run for root otherwise
        const [, , , out, back] = this.#program.launch(words, { pipes: ['pipe', 'pipe'] });
        this.#wire = new Wire(this.#program, (text) => out.write(`${text}\0`), (message) => this.#heard(message));
        back.on('data', untilNul((text) => this.#wire.hear(text)));
        const { product } = await this.#wire.ask('Browser.getVersion');
        await this.#wire.ask('Target.setAutoAttach', ATTACH);
        const { sessionId, begun } = await this.#program.wait(this.#pages.next(), 'the first page');
        await begun;
        this.#session = sessionId;
        await this.#ask('Emulation.setFocusEmulationEnabled', { enabled: true });
        return product.replace('Chrome/', 'Chromium ');
    }

    async open(url) {
        const { loaderId, errorText } = await this.#ask('Page.navigate', { url });
        if (errorText) throw new Error(errorText);
        if (!loaderId) return; // a place in the same page
        while (await this.#program.wait(this.#loads.next(), 'the end of its load') !== loaderId);
    }

    async evaluate(expression) {
        const options = { awaitPromise: true, returnByValue: true, allowUnsafeEvalBlockedByCSP: false };
        const { result, exceptionDetails } = await this.#ask('Runtime.evaluate', { expression, ...options });
        if (exceptionDetails) throw new Error(exceptionDetails.exception?.description ?? exceptionDetails.text);
        return result.value;
    }

    async setFile(selector, file) {
        const expression = `document.querySelector(${JSON.stringify(selector)})`;
        const { result: { objectId } } = await this.#ask('Runtime.evaluate', { expression });
        await this.#ask('DOM.setFileInputFiles', { objectId, files: [file] });
    }

    async strike(strokes) {
        for (const { held, pressed } of strokes) {
            let modifiers = 0;
            const send = (type, { key, code, number }, text) =>
                this.#ask('Input.dispatchKeyEvent', { type, key, code, windowsVirtualKeyCode: number, modifiers, text });
            for (const key of held) {
                modifiers |= key.bit;
                await send('rawKeyDown', key);
            }
            const text = modifiers & ~HELD.Shift ? undefined : pressed.text; // with Control or Alt it makes no character
            await send(text ? 'keyDown' : 'rawKeyDown', pressed, text);
            await send('keyUp', pressed);
            for (const key of held.toReversed()) {
                modifiers &= ~key.bit;
                await send('keyUp', key);
            }
        }
    }

    async click(x, y) {
        const send = (type, more) => this.#ask('Input.dispatchMouseEvent', { type, x, y, ...more });
        await send('mouseMoved');
        await send('mousePressed', { button: 'left', buttons: 1, clickCount: 1 });
        await send('mouseReleased', { button: 'left', clickCount: 1 });
    }

    async size(width, height) {
        await this.#ask('Emulation.setDeviceMetricsOverride', { width, height, deviceScaleFactor: 1, mobile: false });
    }

    async media(scheme, print) {
        const features = [{ name: 'prefers-color-scheme', value: scheme }];
        await this.#ask('Emulation.setEmulatedMedia', { media: print ? 'print' : '', features });
    }

    async picture(whole) {
        const { cssContentSize: { width, height } } = await this.#ask('Page.getLayoutMetrics');
        const all = { captureBeyondViewport: true, clip: { x: 0, y: 0, width, height, scale: 1 } };
        const { data } = await this.#ask('Page.captureScreenshot', { format: 'png', ...(whole ? all : {}) });
        return data;
    }

    async pdf() {
        const [paperWidth, paperHeight, margin] = [PAPER.width, PAPER.height, PAPER.margin].map((length) => length / INCH);
        const margins = { marginTop: margin, marginBottom: margin, marginLeft: margin, marginRight: margin };
        const paper = { paperWidth, paperHeight, ...margins, preferCSSPageSize: true };
        const { data } = await this.#ask('Page.printToPDF', { ...paper, printBackground: true });
        return data;
    }

    async downloads(folder) {
        await this.#wire.ask('Browser.setDownloadBehavior', { behavior: 'allow', downloadPath: folder, eventsEnabled: true });
    }

    #ask(method, params) {
        return this.#wire.ask(method, params, { sessionId: this.#session });
    }

    #heard({ method, params, sessionId }) {
        const events = {
            'Target.attachedToTarget': () => this.#attached(params.sessionId, params.targetInfo.type),
            'Page.lifecycleEvent': () => params.name === 'load' && this.#loads.add(params.loaderId),
            'Page.javascriptDialogOpening': () => this.#answer(params.message, sessionId),
            'Network.requestWillBeSent': () => goesOut(params.request.url) && this.requests.push(params.request.url),
            'Network.webSocketCreated': () => this.requests.push(params.url),
            'Network.webTransportCreated': () => this.requests.push(params.url),
            'Runtime.consoleAPICalled': () => this.#logged(params),
            'Runtime.exceptionThrown': () => this.#thrown(params.exceptionDetails),
            'Log.entryAdded': () => params.entry.level === 'error' && this.complaints.push(params.entry.text),
            'Inspector.targetCrashed': () => this.complaints.push('the page crashed'),
            'Browser.downloadProgress': () => this.#downloading(params),
        };
        events[method]?.();
    }

    #attached(sessionId, type) {
        const ask = (method, params) => this.#wire.ask(method, params, { sessionId });
        // A worker's words come by its page too
        const words = () => (type === 'worker' ? [] : [ask('Runtime.enable'), ask('Log.enable')]);
        const watched = () => [
            ...words(),
            ask('Network.enable'),
            ask('Target.setAutoAttach', ATTACH),
            ask('Page.enable'),
            ask('Page.setLifecycleEventsEnabled', { enabled: true }),
        ];
        const begun = Promise.all([...(WATCHED.includes(type) ? watched() : []), ask('Runtime.runIfWaitingForDebugger')]);
        begun.catch(() => {}); // a worker is no page, and may be gone already
        if (type === 'page') this.#pages.add({ sessionId, begun });
    }

    // The page stands still until a dialog is answered
    async #answer(message, sessionId) {
        this.complaints.push(`a dialog: ${message}`);
        await this.#wire.ask('Page.handleJavaScriptDialog', { accept: true }, { sessionId }).catch(() => {});
    }

    #logged({ type, args }) {
        if (type !== 'error' && type !== 'assert') return;
        this.complaints.push(args.map(({ value, description }) => String(value ?? description)).join(' '));
    }

    #thrown({ text, exception }) {
        this.complaints.push(`${text} ${exception?.description ?? exception?.value ?? ''}`);
    }

    #downloading({ state, filePath }) {
        if (state === 'completed') this.finished.add(filePath);
        if (state === 'canceled') this.complaints.push('a download was cancelled');
    }
}

/** Takes bytes as they come, and hands on each text that ended by NUL. */
function untilNul(heard) {
    let parts = [];
    return (bytes) => {
        for (let end; (end = bytes.indexOf(0)) >= 0; bytes = bytes.subarray(end + 1)) {
            const text = Buffer.concat([...parts, bytes.subarray(0, end)]).toString();
            parts = [];
            heard(text);
        }
        parts.push(bytes);
    };
}
