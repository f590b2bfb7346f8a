// Compiled by the test, not run: the types are as callers need them.
import { adjustedText, approximateText, CODES, parse, parseMany, parseUnit, SizeError, text, UNITS, version } from "byte-unit";
import { instantiate, type Library } from "byte-unit/library.js";

const size: bigint = parse("10m", { binary: true, ignoreCase: true, words: true });
const words: string[] = [text(size), text(1536, { precision: 2 }), adjustedText(size, "KiB"), approximateText(size, { unitType: "decimal" })];
const { sizes, codes } = parseMany(["1 KB", "x"]), ofSet = parseMany(new Set(["1 KB"])).sizes;
const total: bigint = sizes.reduce((sum: bigint, one) => sum + (one ?? 0n), 0n);
const place = (error: SizeError): number | null => error.position, hint = (error: SizeError): string | null => error.hint;
const made: Promise<Library> = instantiate(new Uint8Array());
const typed: [BigUint64Array, BigUint64Array, Uint8Array] = (found => [found.sizes, found.high, found.codes])(
    parseMany(["1 KB"], { typed: true }));
// @ts-expect-error: an option that does not exist
parse("1", { ignore_case: true });
// @ts-expect-error: one string is no list of strings
parseMany("1 KB");
// @ts-expect-error: a size is no string
text("1536");
export const used = [words, codes, total, ofSet, place, hint, made, typed, CODES, parseUnit("k"), UNITS.length, version];
