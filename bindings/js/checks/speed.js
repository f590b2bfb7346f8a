// Prints the nanoseconds of calls beside those of Debian's node-bytes and node-filesize, a row for each kind of call: the
// least mean of rounds in which all take turns, in one process.
import { createRequire } from "node:module";
import { approximateText, adjustedText, parse, parseMany, text } from "../node.js";

const debian = createRequire("/usr/share/nodejs/"), bytes = debian("./bytes");
const { default: filesize } = await import("/usr/share/nodejs/filesize/dist/filesize.esm.js");
const ROUNDS = Number(process.argv[2]), REPEATS = 30;
const texts = Array.from({ length: 1000 }, (_, at) => `${at * 7919 % 1024}${at % 5 < 4 ? `.${at % 10}` : ""} `
    + ["KiB", "MB", "GiB", "KB", "B"][at % 5]);
const sizes = texts.map(text => parse(text)), numbers = sizes.map(Number), theirs = texts.map(text => text.replace("i", ""));
// Each row: a name, our calls, and those of bytes, of filesize and of the engine. Each has a loop of its own, over a
// thousand values, so that the engine can compile the call into it.
const parseTheirs = () => { for (const text of theirs) bytes.parse(text); };
const filesizes = () => { for (const size of numbers) filesize(size); };
const formats = () => { for (const size of numbers) bytes.format(size); };
const ROWS = [
    ["`parse`", () => { for (const text of texts) parse(text); }, parseTheirs],
    ["`parse` with an option", () => { for (const text of texts) parse(text, { ignoreCase: true }); }, parseTheirs],
    ["`parseMany`, a text", () => parseMany(texts), parseTheirs],
    ["`parseMany`, `typed`", () => parseMany(texts, { typed: true }), parseTheirs],
    ["`text` of a BigInt", () => { for (const size of sizes) text(size); }, formats, filesizes],
    ["`text` of a number", () => { for (const size of numbers) text(size); }, formats, filesizes],
    ["`approximateText`", () => { for (const size of numbers) approximateText(size); }, formats, filesizes],
    ["`adjustedText` in KiB", () => { for (const size of numbers) adjustedText(size, "KiB"); }, formats, filesizes],
    ["`parse`, an error; `BigInt(\"x\")`", () => { for (const _ of texts) try { parse("12 Kiq"); } catch {} }, null, null,
        () => { for (const _ of texts) try { BigInt("x"); } catch {} }],
].map(([name, ...calls]) => [name, calls, calls.map(() => Infinity)]);

for (let round = 0; round < ROUNDS; round++)
    for (const [, calls, least] of ROWS)
        calls.forEach((call, at) => {
            const start = process.hrtime.bigint();
            for (let repeat = 0; call && repeat < REPEATS; repeat++)
                call();
            least[at] = Math.min(least[at], Number(process.hrtime.bigint() - start) / REPEATS / texts.length);
        });
for (const [name, calls, least] of ROWS)
    console.log([name, ...least.map((time, at) => calls[at] ? time.toFixed(0) : "")].join("|"));
