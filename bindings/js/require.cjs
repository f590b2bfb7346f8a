// What `require` takes of the package: the module node.js, which Node can load so in 20.19, in 22.12 and later.
try {
    module.exports = require("./node.js");
} catch (error) {
    if (error.code !== "ERR_REQUIRE_ESM")
        throw error;
    throw new Error("byte-unit cannot be loaded by require in this Node, as it can in 20.19, 22.12 and later: write "
        + "`const byteUnit = await import('byte-unit')`", { cause: error });
}
