// The calls of library.d.ts over byte_unit.wasm, the C library as a module of WebAssembly. Sizes are BigInts.

import { Columns, FIRST_OUT, indexOfByte, indexOfLone, Lists, Memory, stringsOf } from "./memory.js";
import {
    BINARY, CODES, Error, flagsOf, OF_ADJUSTED, OF_APPROXIMATE, OF_CHOICE, OF_TEXT, OF_UNIT, optionsOf, textGiven,
    TYPED, unitCode, UNITS, WORDS,
} from "./options.js";

export { CODES, UNITS };

const { fromCodePoint } = String, { assign } = Object;
// The codes of errors that have fields, or a position, of their own.
const [NOT_NUMBER, EXCEEDED_BOUNDS, UNIT, NOT_UTF8] = ["not_number", "exceeded_bounds", "unit", "not_utf8"].map(
    name => CODES.indexOf(name));
// The version of the package, which is its module's: 3000000 is 3.0.0. And a module that has nothing.
const OF_SIZE = OF_UNIT | BINARY | WORDS, VERSION = 3000000, EMPTY_MODULE = Uint8Array.of(0, 97, 115, 109, 1, 0, 0, 0);

/** The error of a text that is no size, or no unit. */
export class SizeError extends Error {
    name = "SizeError";
    // Declared, so that no setter that objects inherit takes them.
    code;
    text;
    character;
    expected;
    alsoExpectNoCharacter;
    position;
    #findHint;

    constructor(message, fields, findHint) {
        super(message);
        assign(this, fields);
        this.#findHint = findHint;
    }

    /** How the size that was meant is written, or null. It is found when it is read, so that errors take no longer. */
    get hint() {
        return this.#findHint?.() ?? null;
    }
}

/** Returns an instance of the module. Throws an Error if it is another module, or not whole. */
function checked(instance) {
    const { byte_unit_version: version, memory } = instance.exports;
    // A module that ends before its data compiles, and answers wrongly. The data is near the end of the memory.
    if (!version || !new Uint8Array(memory.buffer).findLast(byte => byte > 0))
        throw new Error("it has no calls, or no constants");
    if (version() !== VERSION)
        throw new Error(`its version is ${version()}, and that of the package ${VERSION}`);
    return instance;
}

/** Returns the error of bytes of which no instance could be made. Throws a TypeError if they are no bytes. */
function errorOfModule(bytes, cause) {
    WebAssembly.validate(bytes);
    return new Error(`byte_unit: byte_unit.wasm is another file, or not whole: ${cause.message}`, { cause });
}

/** Makes an instance of the module. An error says whether it is the bytes, or that a page may have no module at all. */
async function instanceOf(bytes) {
    try {
        return checked((await WebAssembly.instantiate(bytes, {})).instance);
    } catch (cause) {
        await WebAssembly.instantiate(EMPTY_MODULE, {}).catch(() => {
            throw new Error("byte_unit: the Content-Security-Policy of this page forbids WebAssembly: 'wasm-unsafe-eval' "
                + "in its script-src allows it", { cause });
        });
        throw errorOfModule(bytes, cause);
    }
}

/** Returns the calls of the library over an instance of the module. */
function callsOf({ exports }) {
    // The views of the memory have the order of the processor, and WebAssembly has the little-endian one.
    if (new Uint8Array(Uint16Array.of(1).buffer)[0] !== 1)
        throw new Error("byte_unit: this processor is big-endian");
    const memory = new Memory(exports.memory);
    const { size: SIZE, spec: SPEC, unit: UNIT_AT, error: ERROR, room: ROOM } = memory.at;

    /** Returns what byte_unit_explain or byte_unit_explain_unit says of a string: nothing if there is no error. */
    function explained(call, string, flags) {
        const length = memory.write(string);
        return memory.read(ROOM + length, call(ROOM, length, flags, ROOM + length, FIRST_OUT));
    }

    /** Writes the hint for a string, which is the same with all flags. */
    const hintTo = (at, length, _, out, room) => exports.byte_unit_hint(at, length, out, room);

    /**
     * Returns the SizeError of a string that the library has just rejected as a size or a unit. In the byte_unit_error,
     * `character` is at 0, `also_expect_no_character` at 4, `expected`, 16 bytes with zeros at the end, at 5, and
     * `position` at 56.
     */
    function errorOf(string, code, flags, ofUnit) {
        const { bytes, words } = memory;
        const fields = { code: CODES[code], text: string, character: null, expected: null, position: null,
            alsoExpectNoCharacter: undefined };
        if (code === NOT_NUMBER || code === UNIT)
            fields.character = fromCodePoint(words[ERROR >> 2]);
        if (code === UNIT) {
            let end = ERROR + 5;
            while (bytes[end] !== 0)
                end++;
            fields.expected = memory.readAscii(ERROR + 5, end - ERROR - 5);
            fields.alsoExpectNoCharacter = bytes[ERROR + 4] === 1;
        }
        if (code === NOT_UTF8)
            fields.position = indexOfLone(string);
        else if (code !== EXCEEDED_BOUNDS)
            fields.position = indexOfByte(string, words[ERROR + 56 >> 2]);
        const call = ofUnit ? exports.byte_unit_explain_unit : exports.byte_unit_explain;
        // A text that is too large has a hint only if it is a size in words, which was read.
        const hasHint = !ofUnit && code !== EXCEEDED_BOUNDS;
        return new SizeError(explained(call, string, flags), fields, () => hasHint && explained(hintTo, string) || null);
    }

    // The members of Library in library.d.ts, which documents them.
    return {
        version: VERSION,

        parse(string, options) {
            const flags = flagsOf(options, OF_SIZE), length = memory.write(textGiven(string));
            const call = flags < BINARY ? exports.byte_unit_parse_to
                : flags & WORDS ? exports.byte_unit_parse_words_to : exports.byte_unit_parse_binary_to;
            const code = call(ROOM, length, flags, SIZE, ERROR, 1);
            if (code !== 0)
                throw errorOf(string, code, flags, false);
            return memory.readSize();
        },

        parseUnit(string, options) {
            const flags = flagsOf(options, OF_UNIT), length = memory.write(textGiven(string));
            const code = exports.byte_unit_parse_unit_to(ROOM, length, flags, UNIT_AT, ERROR, 1);
            if (code !== 0)
                throw errorOf(string, code, flags, true);
            return UNITS[memory.words[UNIT_AT >> 2]];
        },

        parseMany(given, options) {
            const flags = flagsOf(options, OF_SIZE | TYPED), strings = stringsOf(given);
            const found = new (flags & TYPED ? Columns : Lists)(strings.length);
            for (let row = 0; row < strings.length;)
                row = memory.readBatch(exports.byte_unit_parse_many_32_to, strings, row, flags & OF_SIZE, found);
            return found.result();
        },

        explain(string, options) {
            const flags = flagsOf(options, OF_SIZE);
            return explained(exports.byte_unit_explain, textGiven(string), flags) || null;
        },

        explainUnit(string, options) {
            const flags = flagsOf(options, OF_UNIT);
            return explained(exports.byte_unit_explain_unit, textGiven(string), flags) || null;
        },

        text(size, options) {
            const given = optionsOf(options, OF_TEXT), { bits } = given;
            memory.writeSpec(given);
            memory.writeSize(size);
            const call = room => exports.byte_unit_text(SIZE, bits, SPEC, ROOM, room);
            return memory.textOf(call(FIRST_OUT), call);
        },

        adjustedText(size, unit, options) {
            const given = optionsOf(options, OF_ADJUSTED), { bits } = given, code = unitCode(unit);
            memory.writeSpec(given);
            memory.writeSize(size);
            const call = room => exports.byte_unit_adjusted_text(SIZE, bits, code, SPEC, ROOM, room);
            return memory.textOf(call(FIRST_OUT), call);
        },

        approximateText(size, options) {
            const given = optionsOf(options, OF_APPROXIMATE), { bits, unitType } = given;
            memory.writeSpec(given);
            memory.writeSize(size);
            const call = room => exports.byte_unit_approximate_text(SIZE, bits, unitType, SPEC, ROOM, room);
            return memory.textOf(call(FIRST_OUT), call);
        },

        appropriateUnit(size, options) {
            const { bits, unitType } = optionsOf(options, OF_CHOICE);
            memory.writeSize(size);
            return UNITS[exports.byte_unit_appropriate_unit(SIZE, bits, unitType)];
        },
    };
}

/** Compiles the module, and returns the calls of the library over it. */
export async function instantiate(bytes) {
    return callsOf(await instanceOf(bytes));
}

/** Compiles the module at once, as Node can, and returns the calls of the library over it. */
export function instantiateNow(bytes) {
    let instance;
    try {
        instance = checked(new WebAssembly.Instance(new WebAssembly.Module(bytes)));
    } catch (cause) {
        throw errorOfModule(bytes, cause);
    }
    return callsOf(instance);
}
