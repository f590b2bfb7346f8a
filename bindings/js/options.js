// The names of units, codes and options, and the checks of what a caller gives.
//
// Calls use no method and no name that a program can put in place of one of the language's: here and in memory.js they are
// taken when the file is loaded.

export const { Error, RangeError, TypeError } = globalThis;
const { getOwnPropertyNames, getPrototypeOf, hasOwn, prototype: OBJECT } = Object, { stringify } = JSON, textOfAny = String;

const PREFIXES = [..."KMGTPEZYR"];
/** The names of the units, each at its code in byte_unit.h. */
export const UNITS = Object.freeze(["b", "B", ...PREFIXES.flatMap(
    prefix => [`${prefix}b`, `${prefix}ib`, `${prefix}B`, `${prefix}iB`])]);
/** The names of the codes that the parsing calls return, each at its code. */
export const CODES = Object.freeze(["ok", "no_value", "not_number", "number_too_long", "exceeded_bounds", "unit",
    "not_utf8", "invalid_argument"]);

/** Returns the codes of names, from a first one on. Nothing is inherited: a name that has none is `undefined`. */
const codesFrom = (first, names) => Object.assign({ __proto__: null },
    Object.fromEntries(names.map((name, at) => [name, first + at])));
const UNIT_CODES = codesFrom(0, UNITS);
// The kinds of options: the type of a value, what is expected, and the codes of strings in byte_unit.h. MOST is the
// greatest number in a byte_unit_spec, where a sign or an alignment of 0 is unset.
const MOST = 65535;
const FLAG = { type: "boolean", expected: "true or false", codes: null };
const COUNT = { type: "number", expected: `an integer from 0 to ${MOST}`, codes: null };
const choice = (first, ...names) => ({ type: "string", expected: `one of ${names.join(", ")}`,
    codes: codesFrom(first, names) });
const OPTIONS = { bits: FLAG, ignoreCase: FLAG, binary: FLAG, words: FLAG, typed: FLAG, alternate: FLAG, precision: COUNT,
    width: COUNT, sign: choice(1, "plus", "minus"), align: choice(1, "left", "center", "right"),
    unitType: choice(0, "binary", "decimal", "both") };
// The flags of the options of reading: BYTE_UNIT_BITS and BYTE_UNIT_IGNORE_CASE together, which are 1 and 2,
// BYTE_UNIT_BINARY_PREFIXES, BYTE_UNIT_WORDS, and one of this package.
export const OF_UNIT = 3, BINARY = 8, WORDS = 16, TYPED = 256;
// The options of the calls that format a size, and of the choice of a unit, with the codes that they have if they are not
// given. A precision of -1 is none.
export const OF_ADJUSTED = { bits: 0, precision: -1, width: 0, sign: 0, align: 0, alternate: 0 };
export const OF_TEXT = { ...OF_ADJUSTED, alternate: 1 }, OF_APPROXIMATE = { ...OF_ADJUSTED, precision: 1, unitType: 0 };
export const OF_CHOICE = { bits: 0, unitType: 0 };

/** Returns a value as an error quotes it: `"2"` and `2n` are no `2`. No method of an object is called. */
export function quoted(value) {
    if (typeof value === "object" && value !== null || typeof value === "function")
        return "an object";
    const text = typeof value === "string" ? stringify(value) : textOfAny(value);
    return typeof value === "bigint" ? `${text}n` : text;
}

/** Returns an argument that has to be a string. */
export function textGiven(value) {
    if (typeof value !== "string")
        throw new TypeError(`${quoted(value)} is no string`);
    return value;
}

/** Returns the code of a unit by its name. */
export function unitCode(unit) {
    const code = UNIT_CODES[textGiven(unit)];
    if (code === undefined)
        throw new RangeError(`${quoted(unit)} is no name of a unit, such as KiB or MB`);
    return code;
}

/** Returns whether the prototype of an object is null, or the Object.prototype of a realm, which alone has the method. */
function isPlain(object) {
    const prototype = getPrototypeOf(object);
    return prototype === OBJECT || prototype === null
        || getPrototypeOf(prototype) === null && hasOwn(prototype, "isPrototypeOf");
}

/**
 * Returns the names of options, which are own properties of a plain object. Each is read once, and nothing is in the
 * module's memory before, so no code of the caller, such as a getter, changes what a call returns.
 */
function namesOf(given) {
    if (typeof given !== "object" || given === null)
        throw new TypeError(`${quoted(given)} is no object with options`);
    if (!isPlain(given))
        throw new TypeError("options are own properties of a plain object, whose prototype is that of {} or null");
    return getOwnPropertyNames(given);
}

/** Returns the error of a name that is no option. */
const errorOfName = name => new TypeError(`${name} is no option of this call`);

/** Returns the code of the value of an option. Throws a TypeError if it has another type, or else a RangeError. */
function codeOf(name, value) {
    const { type, expected, codes } = OPTIONS[name];
    if (typeof value === type) {
        if (type === "boolean")
            return value ? 1 : 0;
        const code = type === "string" ? codes[value] : value;
        if (type === "string" ? code !== undefined : value >= 0 && value <= MOST && value % 1 === 0)
            return code;
    }
    throw new (typeof value === type ? RangeError : TypeError)(`${name} is ${quoted(value)}: ${expected} is expected`);
}

/** Returns the flag of an option of reading: those of byte_unit.h, and TYPED; or 0. */
function flagOf(name) {
    return name === "bits" ? 1 : name === "ignoreCase" ? 2 : name === "binary" ? BINARY : name === "words" ? WORDS
        : name === "typed" ? TYPED : 0;
}

/** Returns the flags of options of reading, none if there are none. Throws a TypeError for one that is not `allowed`. */
export function flagsOf(given, allowed) {
    let flags = 0;
    if (given === undefined)
        return flags;
    const names = namesOf(given);
    for (let at = 0; at < names.length; at++) {
        const name = names[at], flag = flagOf(name);
        if ((flag & allowed) === 0)
            throw errorOfName(name);
        const value = given[name];
        if (value === true || value !== undefined && codeOf(name, value) === 1)
            flags |= flag;
    }
    return flags;
}

/**
 * Returns the codes of options of texts, by their names: those of `defaults` if an option is not given, or is
 * `undefined`. Throws a TypeError for one that has no default.
 */
export function optionsOf(given, defaults) {
    if (given === undefined)
        return defaults;
    const options = { ...defaults }, names = namesOf(given);
    for (let at = 0; at < names.length; at++) {
        const name = names[at];
        if (!hasOwn(defaults, name))
            throw errorOfName(name);
        const value = given[name];
        if (value !== undefined)
            options[name] = codeOf(name, value);
    }
    return options;
}
