// The types of index.js and node.js, for `import` and `require`: the calls of library.js over the module beside them.
import type { Library } from "./library.cjs";

export { CODES, SizeError, UNITS } from "./library.cjs";
export type {
    AdjustedTextOptions, ApproximateTextOptions, ErrorCode, ReadingOptions, SizeColumns, SizeReadingOptions, Sizes, Unit,
    UnitType,
} from "./library.cjs";
export const version: Library["version"];
export const parse: Library["parse"];
export const parseUnit: Library["parseUnit"];
export const parseMany: Library["parseMany"];
export const explain: Library["explain"];
export const explainUnit: Library["explainUnit"];
export const text: Library["text"];
export const adjustedText: Library["adjustedText"];
export const approximateText: Library["approximateText"];
export const appropriateUnit: Library["appropriateUnit"];
