// The memory of the module, in which strings, sizes, options and columns are passed.

import { CODES, Error, quoted, RangeError, textGiven, TypeError } from "./options.js";

const { Array: List, ArrayBuffer: Buffer, BigUint64Array: Longs, Uint8Array: Bytes, Uint32Array: Words } = globalThis;
const { isSafeInteger } = Number, { fromCharCode } = String, { isArray, prototype: ARRAY } = Array, { ceil } = Math;
const { getOwnPropertyDescriptor, setPrototypeOf } = Object, MEMORY = WebAssembly.Memory.prototype, { iterator } = Symbol;
const [charCodeAt, slice, stringIn, grow, bufferOf, lengthOf] = [
    String.prototype.charCodeAt, String.prototype.slice, String.prototype.valueOf, MEMORY.grow,
    getOwnPropertyDescriptor(MEMORY, "buffer").get, getOwnPropertyDescriptor(Buffer.prototype, "byteLength").get,
].map(method => Function.prototype.call.bind(method));
const encoder = new TextEncoder(), decoder = new TextDecoder();
const encodeInto = encoder.encodeInto.bind(encoder), decode = decoder.decode.bind(decoder);
// The limits of sizes, and of those that one word of 64 bits holds.
const SIZE_LIMIT = 10n ** 30n, WORD_LIMIT = 2n ** 64n;
// The bytes of a page of WebAssembly's memory, and the length of the area that a text is first written to, which is
// BYTE_UNIT_BUFFER_SIZE: every message fits, and every text without a width and with at most 200 places.
const PAGE = 65536;
export const FIRST_OUT = 256;
// Up to this length strings are written and read by their characters, which is faster than by the encoder.
const SHORT = 64;
// The most strings, and UTF-16 units, of a column that are in the memory at once, but for a string that is longer.
const BATCH = 4096, BATCH_UNITS = 2 ** 20;

/** Returns a list with room that inherits nothing, so that no code of a caller runs when something is put there. */
const listFor = count => setPrototypeOf(new List(count), null);

/** Returns whether a value is a string, or a String object of a realm. */
function isString(value) {
    try {
        return typeof stringIn(value) === "string";
    } catch {
        return false;
    }
}

/** Returns a list of the strings of an array or of what else is iterable. */
export function stringsOf(strings) {
    const isListed = isArray(strings) && strings[iterator] === ARRAY[iterator];
    if (!isListed && isString(strings))
        throw new TypeError("strings is one string: an array or another iterable of strings is expected");
    const length = isListed ? strings.length >>> 0 : 0, list = listFor(length);
    for (let at = 0; at < length; at++)
        list[at] = textGiven(strings[at]);
    if (!isListed) {
        let at = 0;
        for (const string of strings)
            list[at++] = textGiven(string);
    }
    return list;
}

/** Returns the index in a string of the first half of a pair of UTF-16 without the other half, or -1. */
export function indexOfLone(string) {
    for (let index = 0; index < string.length; index++) {
        const unit = charCodeAt(string, index);
        if ((unit & 0xf800) !== 0xd800)
            continue;
        if (unit >= 0xdc00 || (charCodeAt(string, index + 1) & 0xfc00) !== 0xdc00)
            return index;
        index++;
    }
    return -1;
}

/** Returns the index in a string, in UTF-16 units, of the character that begins at a byte of its UTF-8 form. */
export function indexOfByte(string, wanted) {
    let index = 0;
    for (let bytes = 0; bytes < wanted; index++) {
        const unit = charCodeAt(string, index);
        // The length in UTF-8: each half of a pair has two of its four bytes.
        bytes += unit < 0x80 ? 1 : unit < 0x800 || (unit & 0xf800) === 0xd800 ? 2 : 3;
    }
    return index;
}

/** Returns 16 bytes as characters. */
function sixteenAt(bytes, at) {
    return fromCharCode(bytes[at], bytes[at + 1], bytes[at + 2], bytes[at + 3], bytes[at + 4], bytes[at + 5],
        bytes[at + 6], bytes[at + 7], bytes[at + 8], bytes[at + 9], bytes[at + 10], bytes[at + 11], bytes[at + 12],
        bytes[at + 13], bytes[at + 14], bytes[at + 15]);
}

/** The memory of the module: the areas of arguments and results come after its own, and grow with the texts. */
export class Memory {
    constructor(memory) {
        const base = lengthOf(bufferOf(memory));
        this.memory = memory;
        // Fixed areas, each aligned as its type: a byte_unit_number of 16 bytes, a byte_unit_spec of 12, the code of a unit
        // of 4, and a byte_unit_error of 64. At `room`, texts and columns begin.
        this.at = { size: base, spec: base + 16, unit: base + 32, error: base + 64, room: base + 256 };
        this.view(bufferOf(memory));
        this.reserve(this.at.room + FIRST_OUT);
    }

    /** Makes the views of the memory, which are kept until it grows. */
    view(buffer) {
        this.buffer = buffer;
        this.length = lengthOf(buffer);
        this.bytes = new Bytes(buffer);
        this.words = new Words(buffer);
        this.longs = new Longs(buffer);
    }

    /** Makes room up to an address. */
    reserve(end) {
        if (end > this.length) {
            grow(this.memory, ceil((end - this.length) / PAGE));
            this.view(bufferOf(this.memory));
        }
    }

    /**
     * Writes a string as UTF-8 to an address, where there is room, and returns its length. One with a lone surrogate,
     * for which the encoder writes U+FFFD, begins with a byte that UTF-8 does not have, so that the library rejects it.
     */
    put(string, at) {
        const { bytes } = this, { length } = string;
        let index = 0;
        if (length <= SHORT) {
            for (; index < length; index++) {
                const unit = charCodeAt(string, index);
                if (unit > 127)
                    break;
                bytes[at + index] = unit;
            }
        }
        if (index === length)
            return length;
        const { written } = encodeInto(string, new Bytes(this.buffer, at, 3 * length));
        if (written > length && indexOfLone(string) >= 0)
            bytes[at] = 0xff;
        return written;
    }

    /** Writes a string to the room, with room for a message after it, and returns its length. */
    write(string) {
        this.reserve(this.at.room + 3 * string.length + FIRST_OUT);
        return this.put(string, this.at.room);
    }

    /** Returns the text at an address, in UTF-8. */
    read(at, length) {
        return decode(new Bytes(this.buffer, at, length));
    }

    /** Returns the text at an address, in ASCII. */
    readAscii(at, length) {
        if (length > SHORT)
            return this.read(at, length);
        let text = "";
        for (const end = at + length; at < end; at += 16)
            text += slice(sixteenAt(this.bytes, at), 0, end - at);
        return text;
    }

    /**
     * Returns the text in the room, of the length that a call has returned. If that is more than FIRST_OUT, it has written
     * nothing, and is made again with more room.
     */
    textOf(length, call) {
        if (length > FIRST_OUT) {
            this.reserve(this.at.room + length);
            call(length);
        }
        return this.readAscii(this.at.room, length);
    }

    /** Writes a size as a byte_unit_number, whose address WebAssembly's C takes for the struct. */
    writeSize(size) {
        const { words, longs } = this, at = this.at.size >> 3, isBig = typeof size === "bigint";
        if (!isBig && !isSafeInteger(size))
            throw new TypeError(`${quoted(size)} is no BigInt, and no integer that a number holds exactly`);
        if (isBig ? size < 0n || size >= SIZE_LIMIT : size < 0)
            throw new RangeError(`${size} is no size: it is negative, or 10^30 or more`);
        if (isBig) {
            // What is stored is the remainder by 2^64.
            longs[at] = size;
            longs[at + 1] = size < WORD_LIMIT ? 0n : size >> 64n;
        } else {
            words[2 * at] = size;
            words[2 * at + 1] = size / 2 ** 32;
            longs[at + 1] = 0n;
        }
    }

    /** Returns the size of the byte_unit_number that a call has written. */
    readSize() {
        const { words, longs } = this, at = this.at.size >> 3;
        return sizeAt(words, longs, at);
    }

    /** Writes the codes of options as a byte_unit_spec. */
    writeSpec({ precision, width, sign, align, alternate }) {
        const { words } = this, at = this.at.spec >> 2, has_precision = precision < 0 ? 0 : 1;
        words[at] = has_precision * precision;
        words[at + 1] = width;
        words[at + 2] = has_precision | alternate << 8 | sign << 16 | align << 24;
    }

    /**
     * Has a call of the module read strings from one index on, as many as are in the memory at once, and a result take
     * what it finds. Returns the index after the last. A string has 16 bytes for its size, 4 for its offset, of which
     * there is one more, and 1 for its code.
     */
    readBatch(call, strings, first, flags, found) {
        let end = first, units = 0;
        do {
            units += strings[end++].length;
        } while (end < strings.length && end - first < BATCH && units + strings[end].length <= BATCH_UNITS);
        const count = end - first, { room } = this.at, offsetsAt = room + 16 * count;
        const codesAt = offsetsAt + 4 * (count + 1), dataAt = codesAt + count;
        this.reserve(dataAt + 3 * units);
        this.words[offsetsAt >> 2] = 0;
        let at = dataAt;
        for (let row = 0; row < count; row++) {
            at += this.put(strings[first + row], at);
            this.words[(offsetsAt >> 2) + row + 1] = at - dataAt;
        }
        const code = call(dataAt, at - dataAt, offsetsAt, count + 1, flags, room, count, codesAt, count);
        if (code !== 0)
            throw new Error(`byte_unit: byte_unit_parse_many_32_to returned ${CODES[code]}`);
        found.take(this, first, count, room, codesAt);
        return end;
    }
}

/** Returns the size of the byte_unit_number at an index of words of 64 bits. No BigInt is made for a zero. */
function sizeAt(words, longs, at) {
    const isLow = (words[2 * at + 2] | words[2 * at + 3]) === 0;
    return isLow ? longs[at] : longs[at] | longs[at + 1] << 64n;
}

/** The columns of the codes and the sizes of strings, in arrays of their types. */
export class Columns {
    found;
    low;
    high;

    constructor(count) {
        const low = new Buffer(8 * count), high = new Buffer(8 * count);
        this.found = { codes: new Bytes(count), sizes: new Longs(low), high: new Longs(high) };
        this.low = new Words(low);
        this.high = new Words(high);
    }

    /** Takes rows from one on, whose sizes and codes are at these addresses. */
    take({ bytes, words }, first, count, sizesAt, codesAt) {
        const { found: { codes }, low, high } = this;
        for (let row = 0, at = sizesAt >> 2, to = 2 * first; row < count; row++, at += 4, to += 2) {
            codes[first + row] = bytes[codesAt + row];
            low[to] = words[at];
            low[to + 1] = words[at + 1];
            high[to] = words[at + 2];
            high[to + 1] = words[at + 3];
        }
    }

    result() {
        return this.found;
    }
}

/** The lists of the names of the codes of strings, and of their sizes as BigInts. */
export class Lists {
    codes;
    sizes;

    constructor(count) {
        this.codes = listFor(count);
        this.sizes = listFor(count);
    }

    /** Takes rows from one on, whose sizes and codes are at these addresses. */
    take({ bytes, words, longs }, first, count, sizesAt, codesAt) {
        const { codes, sizes } = this;
        for (let row = 0, at = sizesAt >> 3; row < count; row++, at += 2) {
            const code = bytes[codesAt + row];
            codes[first + row] = CODES[code];
            sizes[first + row] = code === 0 ? sizeAt(words, longs, at) : null;
        }
    }

    result() {
        return { codes: setPrototypeOf(this.codes, ARRAY), sizes: setPrototypeOf(this.sizes, ARRAY) };
    }
}
