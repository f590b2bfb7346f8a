"""Tests what the package for JavaScript is made of: its module, its names, its types and its page."""

import json
import re
import shutil
from pathlib import Path

import pytest
from byte_unit_dev.fixtures import ended, environment, need, output, path, read
from byte_unit_dev.libraries import MODULE, WASM
from test_js import evaluated


@pytest.mark.parametrize("kind", ["module", "script"])
def test_types(javascript, tmp_path, kind):
    """Compiles checks/types.ts as a module, or as what `require` loads, in the folder of a program. It is not run."""
    need("tsc")
    install(javascript, tmp_path)
    (tmp_path / "package.json").write_text(json.dumps({"type": kind.replace("script", "commonjs")}), encoding="utf-8")
    shutil.copy(javascript / "checks/types.ts", tmp_path)
    words = ["tsc", "--noEmit", "--strict", "--target", "es2022", "--module", "node16", "--lib", "es2022,dom"]
    output(*words, tmp_path / "types.ts")


@pytest.mark.parametrize("given, before, error", [
    ("readFileSync(new URL(`${place}/byte_unit.wasm`))", "Uint16Array.of = one => Uint8Array.of(0, one)",
     "Error: byte_unit: this processor is big-endian"), ("5", "", "TypeError: "),
], ids=["big-endian", "no bytes"])  # fmt: skip
def test_instantiate_elsewhere(javascript, given, before, error):
    """It says that a processor has another order of bytes than the memory, and that what is given is no bytes."""
    code = f"""(async () => {{
        const {{ instantiate, instantiateNow }} = await import(`${{place}}/library.js`);
        const {{ readFileSync }} = await import("node:fs"), made = async make => String(await make({given}));
        {before};
        return Promise.all([instantiate, instantiateNow].map(make => made(make).catch(String)));
    }})()"""
    assert [said.startswith(error) for said in evaluated(javascript, code)] == [True, True]


def test_module(javascript, newest_rustc, check_runner, tmp_path):
    """The module in the tree is byte for byte what its compiler makes of the rendered Rust; what another one makes
    answers as the exact model does."""
    need("wasm-ld-19")
    output(path("tools/make-libraries"), tmp_path, "--target", WASM, env=environment(RUSTC=newest_rustc))
    if read(tmp_path / f"{MODULE}.rustc") == read(f"bindings/js/{MODULE}.rustc"):
        what = f"bindings/js/{MODULE} is not as built: `tools/dev make-libraries bindings/js --target {WASM}` makes it anew"
        assert (tmp_path / MODULE).read_bytes() == Path(path("bindings/js", MODULE)).read_bytes(), what
        return
    shutil.copytree(javascript, tmp_path / "js")
    shutil.copy(tmp_path / MODULE, tmp_path / "js")
    for kind in ("byte", "bit"):
        check_runner(["node", tmp_path / "js/checks/vectors.js"], kind, bytes_=False, count=100_000)


def test_npm(javascript, tmp_path):
    """npm packs the folder as it is, and installs it, and what was packed, without a network."""
    need("npm")
    offline = environment(npm_config_offline="true", npm_config_cache=tmp_path / "cache", npm_config_audit="false")
    (packed,) = json.loads(output("npm", "pack", "--json", javascript, cwd=tmp_path, env=offline))
    assert {file["path"] for file in packed["files"]} == {
        "LICENSE", "README.md", "package.json", "byte_unit.wasm", "index.js", "node.js", "require.cjs", "library.js",
        "memory.js", "options.js", *(f"{name}.d.{kind}" for name in ("index", "library") for kind in ("ts", "cts"))}  # fmt: skip
    for package in (str(javascript), str(tmp_path / packed["filename"])):
        project = tmp_path / f"project-{len(package)}"
        project.mkdir()
        (project / "package.json").write_text("{}", encoding="utf-8")
        output("npm", "install", package, cwd=project, env=offline)
        script = "import('byte-unit').then(({ parse }) => console.log(parse('1.5 KiB')))"
        assert output("node", "-e", script, cwd=project) == "1536n\n"


def install(javascript, folder):
    """Puts the package where a program in a folder finds it by its name."""
    (folder / "node_modules").mkdir()
    (folder / "node_modules/byte-unit").symlink_to(javascript)


def test_names(javascript, tmp_path):
    """`import` finds the package by its name, and `require` where Node can load a module so; elsewhere an error says what
    to write."""
    install(javascript, tmp_path)
    script = "import('byte-unit').then(found => console.log(found.parse('1 KB')))"
    assert output("node", "-e", script, cwd=tmp_path) == "1000n\n"
    script = "const { parse, SizeError } = require('byte-unit'); console.log(parse('1 KB'), new SizeError('x').name)"
    assert output("node", "-e", script, cwd=tmp_path) == "1000n SizeError\n"
    status, _, said = ended("node", "--no-experimental-require-module", "-e", script, cwd=tmp_path)
    assert status == 1 and b"in 20.19, 22.12 and later: write `const byteUnit = await import('byte-unit')`" in said


def test_names_of_index(javascript):
    """index.js, which Node does not take by itself, has the names of node.js, and its calls."""
    code = """(async () => {
        const { readFileSync } = await import("node:fs");
        globalThis.fetch = async place => new Response(readFileSync(place));
        const index = await import(`${place}/index.js`);
        globalThis.fetch = async () => { throw new TypeError("no network"); };
        const said = await import(`${place}/index.js?again`).catch(error => error.message);
        return [Object.keys(index).join() === Object.keys(byteUnit).join(), index.parse("1 KB"), said];
    })()"""
    said = f"byte_unit: {javascript.as_uri()}/byte_unit.wasm cannot be loaded: no network"
    assert evaluated(javascript, code) == [True, "1000n", said]


def test_code_of_the_readme(javascript):
    """Compares each call of the page with the result in the comment after it."""
    code = re.search(r"^```js\n(import .*?)^```$", read("bindings/js/README.md"), re.M | re.S)[1]
    rows = re.findall(r"""^([a-z]\w*\(.*\)); +// (\d+n|"(?:[^"]|"(?=\)))*"|\{.*\})""", code, re.M)
    assert len(rows) == code.count(" // ")
    checks = "".join(f"assert.deepStrictEqual({found}, {wanted});" for found, wanted in rows)
    script = 'import assert from "node:assert";' + code.split("\n")[0] + checks
    (javascript / "checks/readme.js").write_text(script, encoding="utf-8")
    output("node", javascript / "checks/readme.js")
