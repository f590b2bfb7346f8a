// The types of library.js, for `import` and `require`: its calls, their options and results, and the error of a string.

/** Why a string is no size, or no unit: the names of the codes in byte_unit.h. `not_utf8` is a lone surrogate. */
export type ErrorCode =
    "no_value" | "not_number" | "number_too_long" | "exceeded_bounds" | "unit" | "not_utf8" | "invalid_argument";
/** The name of a unit, such as `KiB`, `MB` or `Kb`. */
export type Unit = string;
/** The units from which one is chosen: by 1024, by 1000, or of both. */
export type UnitType = "binary" | "decimal" | "both";

/** How a string is read. All are false if they are not given. Here and below, options are own properties of an object
 *  whose prototype is that of `{}` or null: of any other object they are a TypeError. */
export interface ReadingOptions {
    /** Sizes are in bits in place of bytes. */
    bits?: boolean;
    /** `b` means bytes, too: it has no effect with `bits`. */
    ignoreCase?: boolean;
}

/** How a string is read as a size. */
export interface SizeReadingOptions extends ReadingOptions {
    /** `K` and `KB` are by 1024, as `Ki` and `KiB` are. */
    binary?: boolean;
    /** Words for units are read, too, as in `5 bytes` and `10 MegaBytes`. */
    words?: boolean;
}

/** How a size is formatted. */
export interface AdjustedTextOptions {
    /** The size is in bits in place of bytes. */
    bits?: boolean;
    /** The number of digits after the point, from 0 to 65535. */
    precision?: number;
    /** The least number of columns, up to 65535. */
    width?: number;
    /** `plus`: a plus sign before digits alone; a unit and its spaces take four columns. `minus`: no space there. */
    sign?: "plus" | "minus";
    /** Where a text is within the width: if it is not given, digits alone on the right, else the number on the left. */
    align?: "left" | "center" | "right";
    /**
     * Of `text`: whether there is a unit, true if it is not given. Of the other calls: whether a precision rounds to at
     * most 16 digits, ties up, without zeros at the end; false if it is not given.
     */
    alternate?: boolean;
}

/** How a size is formatted for people. The precision is 1 if it is not given. */
export interface ApproximateTextOptions extends AdjustedTextOptions {
    /** The units to choose from: `binary` if it is not given. */
    unitType?: UnitType;
}

/** The sizes of strings, `null` for each that is no size, and the code of each: `ok`, or that of its error. */
export interface Sizes {
    sizes: (bigint | null)[];
    codes: ("ok" | ErrorCode)[];
}

/** The sizes and the codes of strings in typed arrays. A size is that of `sizes` plus 2^64 times that of `high`, which
 *  is 0 below 2^64; both are 0 for a string that is no size. The name of a code, 0 for a size, is at its index in
 *  `CODES`. */
export interface SizeColumns {
    sizes: BigUint64Array;
    high: BigUint64Array;
    codes: Uint8Array;
}

/** The error of a string that is no size, or no unit. Its message is that of `explain` or `explainUnit`. */
export class SizeError extends Error {
    readonly code: ErrorCode;
    /** The string. */
    readonly text: string;
    /** The character that is wrong, of `not_number` and `unit`. */
    readonly character: string | null;
    /** The characters that are expected in its place, of `unit`. */
    readonly expected: string | null;
    /** Whether the string could end there, of `unit`. */
    readonly alsoExpectNoCharacter?: boolean;
    /** The index in the string of the wrong character, or, if it ends too early, of its end, before white space there, or
     *  its length if it has white space alone; of `not_utf8` that of the first lone surrogate; null if the size is too
     *  large. */
    readonly position: number | null;
    /** How the size that was meant is written; null if there is no hint, or of a unit. */
    readonly hint: string | null;
}

/** The names of the 38 units, in the order of their codes. */
export const UNITS: readonly Unit[];

/** The names of the codes of strings, in their order: `ok` is at 0. */
export const CODES: readonly ("ok" | ErrorCode)[];

/** The calls of the library. */
export interface Library {
    /** The version of the library: 3000000 is 3.0.0. */
    readonly version: number;
    /** Returns the number of bytes, or of bits, that a string represents, rounded up. Throws a SizeError. */
    parse(string: string, options?: SizeReadingOptions): bigint;
    /** Returns the unit that a string spells. Throws a SizeError. */
    parseUnit(string: string, options?: ReadingOptions): Unit;
    /** Reads the strings of an array, a set, a generator or another iterable object, each as parse does, and throws no
     *  SizeError. With `typed` the result is in typed arrays, which is faster. */
    parseMany(strings: Iterable<string> & object, options?: SizeReadingOptions & { typed?: false }): Sizes;
    parseMany(strings: Iterable<string> & object, options: SizeReadingOptions & { typed: true }): SizeColumns;
    parseMany(strings: Iterable<string> & object, options: SizeReadingOptions & { typed?: boolean }): Sizes | SizeColumns;
    /** Returns the message of the error of a string, or null if it is a size. Unless the size is too large, or the
     *  string has a lone surrogate, it ends with the number of the wrong character, from 1, or with "(at the end of the
     *  text)". */
    explain(string: string, options?: SizeReadingOptions): string | null;
    /** Returns the message of the error of a string, which ends as that of `explain`, or null if it is a unit. */
    explainUnit(string: string, options?: ReadingOptions): string | null;
    /** Returns the exact text of a size with a unit, or its digits if `alternate` is false. */
    text(size: bigint | number, options?: AdjustedTextOptions): string;
    /** Returns the text of a size in a unit: all its digits, or rounded to the precision, ties to even. */
    adjustedText(size: bigint | number, unit: Unit, options?: AdjustedTextOptions): string;
    /** Returns the text of a size, rounded to one place or to the precision, in the largest unit of a type not above it. */
    approximateText(size: bigint | number, options?: ApproximateTextOptions): string;
    /** Returns the largest unit of a type, `binary` if none is given, that is not above a size. */
    appropriateUnit(size: bigint | number, options?: { bits?: boolean; unitType?: UnitType }): Unit;
}

/** Compiles the module byte_unit.wasm, and returns the calls of the library over it. The promise is rejected with an
 *  Error if the bytes are not that module, or if a page forbids WebAssembly by its Content-Security-Policy. */
export function instantiate(bytes: BufferSource): Promise<Library>;

/** Compiles the module at once, and returns the calls. Browsers allow this only in a worker, or for a small module. */
export function instantiateNow(bytes: BufferSource): Library;
