// Nothing that a sheet holds is run, and nothing is asked of any other place; the policy in the file would not let it.
import assert from 'node:assert/strict';
import { createHash } from 'node:crypto';
import { readFileSync, rmSync, writeFileSync } from 'node:fs';
import { join } from 'node:path';
import { opened } from './seen.mjs';

const MARKUP = [
    '<script>window.ran = 1</script>',
    '<img src=x onerror="window.ran = 1">',
    '<svg onload="window.ran = 1"><a href="javascript:window.ran=1">x</a></svg>',
    '"><iframe srcdoc="<script>parent.ran = 1</script>"></iframe>',
    '</textarea><script>window.ran = 1</script>',
    '{{script}}',
];
// Sheets in which it stands on each line that can be refused for it
function rowsWith(markup) {
    const head = 'BRM;1\nD;20190612\n';
    const rows = [`C;6;${markup};1;1`, `O;6;${markup};1`, `S;${markup};EUR;G;1;1;1;1;;`, `T;R;S;${markup};1;1;;;1`];
    return [markup, `BRM;${markup}`, `BRM;1\n${markup}`, `BRM;1\nD;${markup}`, ...rows.map((row) => head + row)];
}

const count = () => document.querySelectorAll('script, img, iframe, object, embed, link, a').length;

/** Markup in every row, and in a file's name, is shown as text. */
export async function holdMarkup(browser, folder) {
    const elements = await browser.run(count);
    let files = 0;
    for (const markup of MARKUP) {
        for (const row of rowsWith(markup)) {
            const path = join(folder, `markup ${++files} <img src=x onerror=ran=1>.sheet`);
            writeFileSync(path, `${row}\n`);
            const shown = await opened(browser, path);
            rmSync(path);
            assert.match(shown.text, /^N;/);
            assert.ok(shown.refusedLine.includes(markup), `${markup} is shown as it is`);
        }
    }
    await browser.run(() => new Promise((resolve) => setTimeout(resolve, 200))); // ms, in which it would run
    assert.equal(await browser.run(() => window.ran), undefined, 'markup of a sheet was run');
    assert.equal(await browser.run(count), elements, 'a sheet made an element');
}

/** Nothing but the page itself was asked for so far. */
export function holdSilence(browser, address) {
    assert.deepEqual(browser.requests, [address]);
}

/** The kit inside is the one of hosts/web, and the policy is what it was meant to be. */
export async function holdInside(browser) {
    const { policy, kit } = await browser.run(() => ({
        policy: document.querySelector('meta[http-equiv="Content-Security-Policy"]').content.split('; '),
        kit: document.querySelector('footer').textContent,
    }));
    const hash = "'sha256-[A-Za-z0-9+/]{43}='";
    const wanted = ["default-src 'none'", `script-src ${hash} 'wasm-unsafe-eval'`, `style-src ${hash}`, "base-uri 'none'",
        "form-action 'none'", "require-trusted-types-for 'script'", "trusted-types 'none'"];
    wanted.forEach((directive, place) => assert.match(policy[place], new RegExp(`^${directive}$`)));
    assert.equal(policy.length, wanted.length);
    const wasm = readFileSync(new URL('../../web/kit.wasm', import.meta.url));
    assert.ok(kit.includes(createHash('sha256').update(wasm).digest('hex')));
}

/** What the policy says to a page that would ask: each way out is refused. */
export async function holdPolicy(browser) {
    const refused = await browser.run(async () => {
        const violations = [];
        addEventListener('securitypolicyviolation', ({ effectiveDirective }) => violations.push(effectiveDirective));
        const tries = {
            fetch: () => fetch('https://example.org/').then(() => 'asked', () => 'refused'),
            picture: () => new Promise((resolve) => {
                const answers = { onload: () => resolve('asked'), onerror: () => resolve('refused') };
                Object.assign(new Image(), answers, { src: 'https://example.org/x.png' });
            }),
            socket: async () => {
                try {
                    const socket = new WebSocket('wss://example.org/');
                    return await new Promise((resolve) => (socket.onerror = () => resolve('refused')));
                } catch {
                    return 'refused';
                }
            },
            request: () => new Promise((resolve) => {
                const request = new XMLHttpRequest();
                request.onload = () => resolve('asked');
                request.onerror = () => resolve('refused');
                request.open('GET', 'https://example.org/');
                request.send();
            }),
            evaluated: async () => {
                const script = document.createElement('script');
                script.append('window.ran = 1');
                document.body.append(script);
                await new Promise((resolve) => setTimeout(resolve, 100)); // ms, in which it is told of
                script.remove();
                return window.ran === undefined ? 'refused' : 'run';
            },
        };
        const answers = {};
        for (const [way, attempt] of Object.entries(tries)) {
            answers[way] = await attempt().catch(() => 'refused');
        }
        return { answers, violations };
    });
    for (const [way, answer] of Object.entries(refused.answers)) assert.equal(answer, 'refused', way);
    for (const directive of ['connect-src', 'img-src']) assert.ok(refused.violations.includes(directive), directive);
    const scripts = refused.violations.filter((directive) => /^(script-src|require-trusted-types-for)/.test(directive));
    assert.ok(scripts.length > 0, `a script was refused by none of ${refused.violations}`);
}
