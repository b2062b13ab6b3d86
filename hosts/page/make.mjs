// Makes the page, one file with all that it needs inside: node hosts/page/make.mjs FILE. The module, the examples and the table
// of refusals go in as text, the sources as they are, and a content policy that lets nothing else run and nothing be asked for.
import { createHash } from 'node:crypto';
import { readFileSync, writeFileSync } from 'node:fs';
import { refusalsIn } from '../web/refusals.js';

const EXAMPLES = {
    'document-01': 'Document 01',
    'priorities-as-listed': 'Priorities',
    'all-kinds-two-currencies': 'Two currencies',
    'code-with-digits-swapped': 'A refusal',
};

const at = (path, from = import.meta.url) => new URL(path, from).href;
const text = (place) => readFileSync(new URL(place), 'utf8');
function fail(why) {
    throw new Error(why);
}

const hash = (data, form) => createHash('sha256').update(data).digest(form);

// A module and those below it, which stand before it. Each is a function that gives what it exports, so that its other names
// stay its own; the first module is as it is, since it waits for the kit.
function joined(place, seen = new Map()) {
    const below = [];
    const body = text(place).replace(/^import \{ (.*) \} from '(.*)';\n/gm, (_, names, path) => {
        const other = at(path, place);
        if (!seen.has(other)) {
            seen.set(other, `module${seen.size + 1}`);
            below.push(joined(other, seen));
        }
        return `const { ${names} } = ${seen.get(other)};\n`;
    });
    const exported = Array.from(body.matchAll(/^export (?:async )?(?:function|const|class) (\w+)/gm), ([, name]) => name);
    const plain = body.replace(/^export /gm, '');
    if (/^(import|export)\b/m.test(plain)) fail(`${place}: an import or an export of another form`);
    const name = seen.get(place);
    return below.join('\n') + (name ? `const ${name} = (() => {\n${plain}return { ${exported.join(', ')} };\n})();\n` : plain);
}

function inside() {
    const sheet = (name) => text(at(`../../tests/cases/${name}.sheet`));
    const examples = Object.entries(EXAMPLES).map(([name, title]) => ({ name, title, text: sheet(name) }));
    const refusals = refusalsIn(text(at('../../docs/REFUSALS.md')));
    return JSON.stringify({ examples, refusals, module: wasm.toString('base64') }, null, 1).replaceAll('<', '\\u003c');
}

// Scripts and styles by their hashes alone; the kit is compiled from its bytes. Nothing may be asked for, sent, framed or made
// markup
function policy(script, style) {
    return [
        "default-src 'none'",
        `script-src 'sha256-${hash(script, 'base64')}' 'wasm-unsafe-eval'`,
        `style-src 'sha256-${hash(style, 'base64')}'`,
        "base-uri 'none'",
        "form-action 'none'",
        "require-trusted-types-for 'script'",
        "trusted-types 'none'",
    ].join('; ');
}

const [file] = process.argv.slice(2);
if (file === undefined) fail('usage: node hosts/page/make.mjs FILE');
const wasm = readFileSync(new URL('../web/kit.wasm', import.meta.url));
const script = `\n${joined(at('page.js'))}`;
const style = `\n${text(at('page.css'))}`;
if (/<\/(script|style)/i.test(script + style)) fail('a source would end its own element');
const parts = { policy: policy(script, style), style, script, inside: inside(), 'module-hash': hash(wasm, 'hex') };
const part = (place, name) => parts[name] ?? fail(`page.html asks for ${place}`);
writeFileSync(file, text(at('page.html')).replace(/\{\{([a-z-]+)\}\}/g, part));
