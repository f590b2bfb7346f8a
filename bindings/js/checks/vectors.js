// Answers test vectors: reads records that end with a zero byte, each a call of the file of rows with its text
// unescaped, and writes a line for each: the answer, or `-` for a call that the package does not have.
import { readFileSync, writeFileSync } from "node:fs";
import * as byteUnit from "../node.js";

const ALIGNS = { "<": "left", "^": "center", ">": "right" }, SIGNS = { "+": "plus", "-": "minus" };

/** Returns the options of a format string of the Rust crate. */
function spec(word) {
    const [, align, sign, alternate, width, precision] = /^\{(?::([<^>]?)([+-]?)(#?)(\d*)(?:\.(\d+))?)?\}$/.exec(word);
    return { align: ALIGNS[align], sign: SIGNS[sign], alternate: alternate === "#",
        width: width ? Number(width) : undefined, precision: precision ? Number(precision) : undefined };
}

/** Returns the name and the fields of an error. */
function errorOf(error) {
    const name = error.code.replace(/(?:^|_)(.)/g, (_, letter) => letter.toUpperCase());
    // A SizeError has no field for a number that is too large: only the message states it, before " exceeds".
    const number = / (\d+(?:\.\d+)?) exceeds/.exec(error.message)?.[1];
    return name + ({
        not_number: ` "${error.character}"`,
        unit: ` "${error.character}" [${error.expected}]${error.alsoExpectNoCharacter ? " end" : ""}`,
        exceeded_bounds: ` ${number}`,
    }[error.code] ?? "");
}

/** Answers `position OF TEXT`: the index in bytes of UTF-8. */
function positionOf(what, text) {
    try {
        what === "unit" ? byteUnit.parseUnit(text) : byteUnit.parse(text, { bits: what === "bit" });
    } catch (error) {
        if (!(error instanceof byteUnit.SizeError))
            throw error;
        if (error.position !== null)
            return Buffer.byteLength(text.slice(0, error.position));
    }
    return "none";
}

/**
 * Returns the message of a text without its last words. If the error has a position, these have to be the number of the
 * character there, or to say that only white space follows.
 */
function messageOf(text, options) {
    const message = byteUnit.explain(text, options);
    try {
        byteUnit.parse(text, options);
    } catch (error) {
        const { position } = error;
        const where = position === null ? "" : text.slice(position).trim() === "" ? " (at the end of the text)"
            : ` (character ${[...text.slice(0, position)].length + 1})`;
        if (!message.endsWith(where))
            return `without${where}: ${message}`;
        return message.slice(0, message.length - where.length);
    }
}

/** Returns the hint for a text, if it is rejected and has one. */
function hintOf(given) {
    try {
        byteUnit.parse(given);
        return "none";
    } catch (error) {
        return error.hint ? `"${error.hint}"` : "none";
    }
}

/** Answers `text KIND SIZE [in UNIT | by TYPE] SPEC`. */
function textOf([, , size, ...more], bits) {
    if (more.length === 1)
        return byteUnit.text(BigInt(size), { bits, ...spec(more[0]) });
    const [how, what, word] = more, options = { bits, ...spec(word) };
    if (how === "by" && options.precision !== undefined)
        return byteUnit.approximateText(BigInt(size), { unitType: what, ...options });
    const unit = how === "in" ? what : byteUnit.appropriateUnit(BigInt(size), { bits, unitType: what });
    return byteUnit.adjustedText(BigInt(size), unit, options);
}

/** Returns the answer to a call, given its words and its text, or throws the SizeError. */
function answer(words, given) {
    const bits = words[1] === "bit", ignoreCase = words.includes("uncased");
    switch (words[0]) {
        case "parse": return byteUnit.parse(given, { bits, ignoreCase });
        case "parse_binary": return byteUnit.parse(given, { bits, ignoreCase, binary: true });
        case "words": return byteUnit.parse(given, { bits, ignoreCase, binary: words[2] === "binary", words: true });
        case "hint": return hintOf(given);
        case "position": return positionOf(words[1], given);
        case "unit": return byteUnit.parseUnit(given, { bits: words[2] === "bits", ignoreCase });
        case "says": return `"${messageOf(given, { bits, ignoreCase })}"`;
        case "text": return `"${textOf(words, bits)}"`;
        default: return "-";
    }
}

const records = readFileSync(0, "utf8").split("\0").slice(0, -1);
writeFileSync(1, records.map(record => {
    // The words of the call, and what is after the first double quote.
    const [call, text] = record.split(/ ?"(.*)/s), words = call.split(" ");
    try {
        return `${answer(words, text)}\n`;
    } catch (error) {
        if (!(error instanceof byteUnit.SizeError))
            throw error;
        return `${errorOf(error)}\n`;
    }
}).join(""));
