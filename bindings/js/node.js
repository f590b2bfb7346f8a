// Reads byte_unit.wasm from beside this file, and exports the calls of the library, as index.js does elsewhere: at once,
// so that `require` can load it, too.
import { readFileSync } from "node:fs";
import { instantiateNow } from "./library.js";

const library = instantiateNow(readFileSync(new URL("byte_unit.wasm", import.meta.url)));

export const {
    version, parse, parseUnit, parseMany, explain, explainUnit, text, adjustedText, approximateText, appropriateUnit,
} = library;
export { CODES, SizeError, UNITS } from "./library.js";
