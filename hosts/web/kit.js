// The kit in any browser and in Node: a sheet's bytes in, an answer out, and so for a question about the sheet. This is the one
// place that knows the memory of kit.wasm; it needs that module and nothing else.

const ROOM = 32768; // bytes, a buffer that holds the report of any sheet
const PAGE = 65536; // bytes, by which the memory grows
const REFUSAL = 65536; // an answer below it is a text's length, any other is REFUSAL × number + line
const NONE = new Uint8Array(0);

/** The kit, from kit.wasm: its bytes, or its WebAssembly.Module. */
export async function load(wasm) {
    const module = wasm instanceof WebAssembly.Module ? wasm : await WebAssembly.compile(wasm);
    return new Kit(await WebAssembly.instantiate(module));
}

class Kit {
    #entries;
    #stopped = false;

    constructor({ exports }) {
        this.#entries = { quiet: exports.brm_margin, full: exports.brm_margin_full, explain: exports.brm_explain };
        this.memory = exports.memory;
        this.base = exports.__heap_base.value; // bytes, where the module's own part of the memory ends
    }

    /**
     * The answer to a sheet: { report }, the quiet report's bytes, without the K lines of zeros, or { number, line } of the
     * refusal. The room is in bytes.
     */
    margin(sheet, room = ROOM) {
        return this.#answer({ sheet }, room);
    }

    /** The same with the full report, which has a K line for every class. */
    marginFull(sheet, room = ROOM) {
        return this.#answer({ sheet, full: true }, room);
    }

    /**
     * Why the margin of a class in a currency is what it is: { report }, the explanation's bytes, or { number, line }. The
     * currency is any bytes, the class any whole number of 64 bits, as a number or a BigInt.
     */
    explain(sheet, currency, classNumber, room = ROOM) {
        return this.#answer(question(sheet, currency, classNumber), room);
    }

    /** As a caller in C has it: the report buffer is lent with what stands in it, and the one number comes back. */
    call(sheet, report) {
        return this.#lend({ sheet }, report);
    }

    /** The same for the full report. */
    callFull(sheet, report) {
        return this.#lend({ sheet, full: true }, report);
    }

    /** The same for an explanation. */
    callExplain(sheet, currency, classNumber, report) {
        return this.#lend(question(sheet, currency, classNumber), report);
    }

    /** Where sheet, currency, report buffer and what is free behind it begin for a call, in bytes of the memory. */
    places(sheetLength, room, currencyLength = 0) {
        const behind = (place, length) => place + Math.ceil(length / 16) * 16;
        const currency = behind(this.base, sheetLength);
        const report = behind(currency, currencyLength);
        return { sheet: this.base, currency, report, free: report + room };
    }

    #answer(asked, room) {
        if (!Number.isSafeInteger(room) || room < 0) {
            throw new TypeError(`the room for the report is a whole number of bytes, not ${told(room)}`);
        }
        const { answer, lent } = this.#call(asked, room, () => {});
        if (answer < REFUSAL) return { report: lent().slice(0, answer) };
        return { number: Math.floor(answer / REFUSAL), line: answer % REFUSAL };
    }

    #lend(asked, report) {
        bytes('report buffer', report);
        const { answer, lent } = this.#call(asked, report.length, (room) => room.set(report));
        report.set(lent());
        return answer;
    }

    // Without a class it is a report that is asked for, full or quiet
    #call({ sheet, full = false, currency = NONE, classNumber }, room, fill) {
        bytes('sheet', sheet);
        if (this.#stopped) throw new Error('the kit was stopped in an earlier call: load it again');
        const at = this.places(sheet.length, room, currency.length);
        this.#reach(at.free);
        // The memory is asked for anew each time, since growing puts another buffer in its place
        const part = (from, length) => new Uint8Array(this.memory.buffer, from, length);
        part(at.sheet, sheet.length).set(sheet);
        part(at.currency, currency.length).set(currency);
        fill(part(at.report, room));
        const lengths = [sheet.length, currency.length, room].map(BigInt);
        const margin = full ? this.#entries.full : this.#entries.quiet;
        this.#stopped = true; // unless the call comes back: after a trap the stack is not as it was
        const answer = classNumber === undefined
            ? margin(at.sheet, lengths[0], at.report, lengths[2])
            : this.#entries.explain(at.sheet, lengths[0], at.currency, lengths[1], classNumber, at.report, lengths[2]);
        this.#stopped = false;
        return { answer: Number(BigInt.asUintN(64, answer)), lent: () => part(at.report, room) };
    }

    #reach(end /* bytes */) {
        const pages = Math.ceil((end - this.memory.buffer.byteLength) / PAGE);
        if (pages <= 0) return;
        try {
            this.memory.grow(pages);
        } catch {
            throw new RangeError(`the kit's memory does not reach to ${end} bytes`);
        }
    }
}

function question(sheet, currency, classNumber) {
    bytes('currency', currency);
    const whole = typeof classNumber === 'bigint' || Number.isSafeInteger(classNumber);
    if (!whole || BigInt.asUintN(64, BigInt(classNumber)) !== BigInt(classNumber)) {
        throw new TypeError(`the class is a whole number of 64 bits, not ${told(classNumber)}`);
    }
    return { sheet, currency, classNumber: BigInt(classNumber) };
}

function bytes(what, value) {
    if (!(value instanceof Uint8Array)) throw new TypeError(`the ${what} is a Uint8Array, not ${told(value)}`);
}

/** What a value is, in a word or two. */
function told(value) {
    if (typeof value === 'number' || typeof value === 'bigint') return String(value);
    return Object.prototype.toString.call(value).slice(8, -1);
}
