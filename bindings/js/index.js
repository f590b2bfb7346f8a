// Fetches byte_unit.wasm from beside this file, and exports the calls of the library. Node has node.js in its place.
import { instantiate } from "./library.js";

/** Returns the bytes of the module. */
async function bytesBeside() {
    // Bundlers find the module by this expression, and keep it with what they make.
    const place = new URL("byte_unit.wasm", import.meta.url), response = await fetch(place).catch(cause => {
        throw new Error(`byte_unit: ${place.href} cannot be loaded: ${cause.message}`, { cause });
    });
    if (!response.ok)
        throw new Error(`byte_unit: ${place.href} cannot be loaded: status ${response.status}`);
    return response.arrayBuffer();
}

const library = await instantiate(await bytesBeside());

export const {
    version, parse, parseUnit, parseMany, explain, explainUnit, text, adjustedText, approximateText, appropriateUnit,
} = library;
export { CODES, SizeError, UNITS } from "./library.js";
