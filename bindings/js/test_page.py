"""Tests the page in Chromium, driven by WebDriver, and what is said of a module that cannot be loaded."""

import random
import re
import shutil
import threading
import time
from functools import partial
from http.server import SimpleHTTPRequestHandler, ThreadingHTTPServer

import pytest
from byte_unit_dev import page
from byte_unit_dev.fixtures import need, output, read
from byte_unit_dev.model import page as model
from byte_unit_dev.model.exact import some_line
from byte_unit_dev.rows import check, rows

NARROW_SPACE = "\u202f"  # what the page has between groups of three digits


def opened(browser, address):
    """Opens an address anew, and returns the result, for which it waits: a loaded page has to compile the module."""
    browser.get("about:blank")
    browser.get(address)
    for _ in range(200):
        said = browser.execute_script("return document.getElementById('answer').innerText")
        if said:
            break
        time.sleep(0.05)
    return said


@pytest.fixture(scope="module")
def place(tmp_path_factory):
    """The page, in a file."""
    made = tmp_path_factory.mktemp("page") / "how-a-size-is-read.html"
    page.run(made)
    return made


@pytest.fixture(scope="module")
def browser(place):
    need("chromium", "chromedriver", "import selenium")
    from selenium import webdriver

    options = webdriver.ChromeOptions()
    options.binary_location = shutil.which("chromium")
    options.set_capability("goog:loggingPrefs", {"browser": "ALL"})
    # Nothing listens on port 9, so no request leaves the machine.
    for word in ("headless=new", "no-sandbox", "proxy-server=127.0.0.1:9", "disable-background-networking"):
        options.add_argument(f"--{word}")
    with webdriver.Chrome(options=options) as started:
        started.keys = lambda *keys: webdriver.ActionChains(started).send_keys(*keys).perform()
        opened(started, place.as_uri())
        yield started


def emulate(browser, command, **params):
    """Sends a command that emulates something to Chromium."""
    browser.execute_cdp_cmd(f"Emulation.{command}", params)


def typed(browser, text, reading="bytes"):
    """Types a text in the field by keys. Returns the result that the page shows, and what it marks."""
    browser.execute_script(
        "document.querySelector(`[value=${arguments[0]}]`).click(); document.getElementById('text').select()", reading
    )
    browser.keys("\ue003", *text)  # Backspace deletes the text that is selected
    return browser.execute_script(
        "return [document.querySelector('#answer').innerText, document.querySelector('mark')?.textContent ?? null]"
    )


@pytest.mark.parametrize("text, reading, parts, marked", [
    ("1.5 KiB", "bytes", ["1_536 bytes", "Exactly 1.5 KiB", "1.5 × 1_024 bytes"], None),
    ("100 mb", "bytes", ["12_500_000 bytes", "Exactly 12.5 MB", "mb is Mb", "A small b is a bit"], None),
    ("100 mb", "case", ["100_000_000 bytes", "Exactly 100 MB"], None),
    ("10m", "binary", ["10_485_760 bytes", "Exactly 10 MiB", "m is MiB"], None),
    ("1.5 Kb", "bits", ["1_500 bits", "Exactly 1.5 Kb"], None), ("0.3 b", "bytes", ["1 byte\n"], None),
    ("12 Kiq", "bytes", ["Not a size", "(character 6)", "'B' or 'b'"], "q"), ("1..5", "bytes", ["(character 3)"], "."),
    ("1.", "bytes", ["(at the end of the text)"], "␣"), ("1.5 €", "bytes", ["(character 5)"], "€"),
    ("1000 RB", "bytes", ["Not a size: The value 1000 exceeds the valid range"], None),
    ("999.999 RB", "bytes", ["999_999_000_000_000_000_000_000_000_000 bytes"], None),
])  # fmt: skip
def test_page_answers(browser, text, reading, parts, marked):
    """The result has each part, in which an underscore is the narrow space, and the character that is marked."""
    said, mark = typed(browser, text, reading)
    assert mark == marked and [part for part in parts if part.replace("_", NARROW_SPACE) not in said] == [], said


def test_page_by_the_vectors(browser):
    """Each text of the vectors that a field of one line holds is on the page the size of the vectors, or none."""
    readings = {"parse byte cased": "bytes", "parse byte uncased": "case", "parse bit cased": "bits",
                "parse_binary byte uncased": "binary"}  # fmt: skip
    asked = [row for row in rows() if " ".join(row.words) in readings and len(row.text) < 200
             and not re.search(r"[\0\r\n]", row.text)]  # fmt: skip
    calls = [(readings[" ".join(row.words)], row.text) for row in asked]
    assert {reading for reading, _ in calls} == {*readings.values()}
    got = browser.execute_script("""
        const field = document.getElementById("text");
        return arguments[0].map(([reading, text]) => {
            document.querySelector(`[value=${reading}]`).checked = true;
            field.value = text;
            document.getElementById("form").dispatchEvent(new Event("input"));
            return document.querySelector(".value")?.textContent.replace(/[^0-9]/g, "") ?? "";
        })""", calls)  # fmt: skip
    # The page shows no size for a text that is in error.
    check(asked, [size or row.answer * (not row.answer.isdigit()) for row, size in zip(asked, got)])


# Texts at the ends of what the page tells apart, beside those that are drawn.
EDGES = ["", " ", "1.", "0", "1", "1 b", "7 b", "8 b", "9 b", "1 B", "1 byte", "1 Kb", "8 Kb", "8 Mb", "1.5 KiB", "100 mb",
         "10m", "0.3 b", "1 RB", "1.1 RB", "8 RB", "999.999 RB", "1000 RB", "000.50 kib", "1000", "1.25 gb", "1 RiB",
         "12 Kiq", "1.5 €", " 1 😀", "1 Mbps", "1,024"]  # fmt: skip


def calls_of(seed, count=200):
    """Returns readings with texts, of which some are drawn."""
    drawn = [some_line(random.Random(f"{seed} {at}")).decode(errors="replace") for at in range(count)]
    texts = [*EDGES, *(line for line in drawn if not re.search("[\0\r\n]", line))]
    return [(reading, text) for at, text in enumerate(texts) for reading in model.READINGS
            if at < len(EDGES) or reading in ("bytes", "bits")]  # fmt: skip


def check_shown(calls, got, marks, address):
    """Checks that all that the page at an address shows and copies is what the exact model has."""
    wrong = []
    for (reading, text), found in zip(calls, got, strict=True):
        wanted = model.shown(text, reading, address)
        if "bits" in wanted:
            at, label, known = found.pop("place"), found.pop("placeOfLabel"), model.place_of(wanted.pop("bits"))
            # Near an end the label is where it has room.
            is_off = abs(at - known) > 0.1 or abs(label - known) > (0.2 if 15 < known < 85 else 15)
            wrong += [(reading, text, "place", at, label)] * is_off
        wrong += [(reading, text, name, found.get(name), wanted.get(name)) for name in {*found, *wanted}
                  if found.get(name) != wanted.get(name)]  # fmt: skip
    assert wrong == [], wrong[:5]
    for (*mark, of_name, of_line), (*known, at) in zip(marks, model.marks(), strict=True):
        assert mark == known and abs(of_name - at) < 0.1 and abs(of_line - at) < 0.2, mark


def test_page_by_the_model(browser, place, seed):
    calls = calls_of(seed)
    step = browser.execute_script("return navigation.currentEntry.key")
    check_shown(calls, *browser.execute_script(read("bindings/js/checks/shown.js"), calls), place.as_uri())
    time.sleep(0.5)  # the address has the text after 0.2 s, and is no step of the history
    found = browser.execute_script("return [navigation.currentEntry.key, location.href]")
    assert found == [step, model.shown(calls[-1][1], calls[-1][0], place.as_uri())["copied"][-1]]


# The texts of the examples, with the first line of the result, or what is marked.
EXAMPLES = {"1.5 KiB": "1_536 bytes", "100 mb": "12_500_000 bytes", "10m": "10_000_000 bytes",
            "0.1 GiB": "107_374_183 bytes", "1.44 MB": "1_440_000 bytes", "1 byte": "y", "12 Kiq": "q", "1..5": ".",
            "1.": "␣", "999.999 RB": "999_999_000_000_000_000_000_000_000_000 bytes"}  # fmt: skip


ENTER, SPACE, DOWN, BACKSPACE = "\ue007", " ", "\ue015", "\ue003"


def use(browser, selector, at=0, key=None):
    """Clicks on an element, or focuses it and presses a key. Returns the text, the reading, and what is shown: the size,
    or what is marked."""
    element = browser.find_elements("css selector", selector)[at]
    if key is None:
        element.click()
    else:
        browser.execute_script("arguments[0].focus()", element)
        browser.keys(key)
    time.sleep(0.05)
    return browser.execute_script("""
        const shown = document.querySelector("mark") ?? document.querySelector(".value");
        return [document.getElementById("text").value, document.forms[0].reading.value, shown.textContent];""")


def test_examples_and_readings(browser, place):
    """Each shows its result, by the mouse and by keys."""
    opened(browser, f"{place.as_uri()}#bytes=1")
    for keys in ([None] * len(EXAMPLES), [ENTER, SPACE]):
        for at, (key, (text, shown)) in enumerate(zip(keys, EXAMPLES.items())):
            assert use(browser, "#examples button", at, key) == [text, "bytes", shown.replace("_", NARROW_SPACE)]
    assert len(browser.find_elements("css selector", "#examples button")) == len(EXAMPLES)
    use(browser, "#examples button", 1)
    sizes = ["12_500_000 bytes", "100_000_000 bytes", "104_857_600 bytes", "100_000_000 bits"]
    for key in (None, DOWN):
        use(browser, "[name=reading]")
        for at, (reading, size) in enumerate(zip(model.READINGS, sizes)):
            how = (at - 1, key) if key and at else (at,)  # the key goes on from the reading before
            assert use(browser, "[name=reading]", *how) == ["100 mb", reading, size.replace("_", NARROW_SPACE)]


def test_words(browser, place):
    """They are read in each reading while the control is set, by the mouse and by keys. The address keeps it."""
    for key in (None, SPACE):
        opened(browser, f"{place.as_uri()}#bytes=10%20MegaBytes")
        size = f"10{NARROW_SPACE}000{NARROW_SPACE}000 bytes"
        assert use(browser, "#words", 0, key) == ["10 MegaBytes", "bytes", size]
        assert browser.execute_script("return document.querySelectorAll('.wrong').length") == 0
        time.sleep(0.5)  # the address has the text after 0.2 s
        link = browser.execute_script("return location.href")
        assert link == f"{place.as_uri()}#bytes+words=10%20MegaBytes"
        assert f"MegaBytes is MB: 10 × 1{NARROW_SPACE}000" in opened(browser, link)
        assert use(browser, "#words", 0, key) == ["10 MegaBytes", "bytes", "e"]


def test_copying(browser, place):
    """Each button copies what it says, by the mouse and by keys, and says whether the browser allows it."""
    opened(browser, f"{place.as_uri()}#bits=100%20mb")
    said = "document.getElementById('copied').textContent"
    use(browser, "[data-copy]")
    time.sleep(0.2)
    assert browser.execute_script(f"return {said}") in ("Copied.", "The browser does not allow it.")
    browser.execute_script("""
        window.copied = [];
        navigator.clipboard.writeText = async text => { if (copied.push(text) > 9) throw new Error(); }""")
    for key in (None, ENTER, SPACE, None):
        for at, text in enumerate(["100000000", "100 Mb", f"{place.as_uri()}#bits=100%20mb"]):
            use(browser, "[data-copy]", at, key)
            count, last, shown = browser.execute_script(f"return [copied.length, copied.at(-1), {said}]")
            assert (last, shown) == (text, "Copied." if count < 10 else "The browser does not allow it.")
    use(browser, "#text", 0, "0")
    assert browser.execute_script(f"return {said}") == ""


def test_enter_and_the_address(browser, place):
    """Enter loads nothing; another fragment in the address is shown."""
    opened(browser, f"{place.as_uri()}#bits=100%20m")
    browser.execute_script("window.stays = true")
    assert use(browser, "#text", 0, "b" + ENTER) == ["100 mb", "bits", "100_000_000 bits".replace("_", NARROW_SPACE)]
    browser.execute_script("location.hash = '#case=2%20kb'")
    assert use(browser, "h1") == ["2 kb", "case", f"2{NARROW_SPACE}000 bytes"]
    assert browser.execute_script("return [stays, location.search]") == [True, ""]
    assert browser.get_log("browser") == []


def test_page_with_a_lone_surrogate(browser, place):
    """It is told and marked; the address and the link that is copied have U+FFFD in its place."""
    typed(browser, "1 KB")
    got = browser.execute_async_script("""
        const done = arguments[0], links = [], field = document.getElementById("text");
        navigator.clipboard.writeText = async text => links.push(text);
        field.value = "5 K\\ud800B";
        document.getElementById("form").dispatchEvent(new Event("input"));
        document.querySelector("[data-copy=link]").click();
        const said = document.getElementById("answer").innerText.toWellFormed();
        setTimeout(() => done([links, location.href, field.value.charCodeAt(3), said]), 500);""")
    address = place.as_uri() + "#bytes=5%20K%EF%BF%BDB"
    assert got[:3] == [[address], address, 0xD800] and got[3] == "5 K\ufffdB\n\nNot a size: The text is not UTF-8."
    assert browser.get_log("browser") == []


def test_page_with_a_policy(browser, place, tmp_path):
    """A policy that forbids WebAssembly is told in place of a result."""
    policy = """<meta http-equiv="Content-Security-Policy" content="script-src 'unsafe-inline'">"""
    (tmp_path / "page.html").write_text(policy + place.read_text(encoding="utf-8"), encoding="utf-8")
    said = opened(browser, (tmp_path / "page.html").as_uri())
    browser.get_log("browser")  # has the error, too
    opened(browser, place.as_uri())
    assert said.startswith("byte_unit: the Content-Security-Policy of this page forbids WebAssembly: ")


def test_page_for_all(browser):
    """Every field has a label, each table a name; keys reach all; a link opens the same state; no message."""
    unnamed = "[...document.querySelectorAll('input')].filter(input => !input.labels.length), " \
        "[...document.querySelectorAll('table')].filter(table => !table.ariaLabel && !table.caption)"
    assert browser.execute_script(f"return [{unnamed}].flat().length") == 0
    typed(browser, "10m", "binary")
    time.sleep(0.5)  # the address has the text after 0.2 s
    link = browser.execute_script("return location.href")
    assert link.endswith("#binary=10m")
    assert "10 MiB" in opened(browser, link)
    browser.execute_script("document.getElementById('text').focus()")
    name = "const { dataset, ariaLabel, name } = document.activeElement; return dataset.copy ?? ariaLabel ?? name"
    seen = []
    for _ in range(20):
        browser.keys("\ue004")  # Tab
        seen.append(browser.execute_script(name))
    assert {"reading", "words", "number", "text", "link"} <= set(seen)
    live, about, axis, heading = browser.execute_script("""
        const all = [...document.querySelectorAll("h2")].map(heading => heading.textContent);
        const answer = document.getElementById("answer");
        return [[answer.role, answer.ariaLive, answer.ariaAtomic], document.getElementById("about").textContent,
                document.getElementById("scale").ariaLabel, all.find(text => text.startsWith("Where"))];""")
    assert live == ["status", "polite", "true"] and about.startswith(f"byte_unit {read('VERSION').strip()}, made of")
    assert heading == re.sub(".* from (.*) to (.*):.*", r"Where it lies between \1 and \2", axis)
    assert browser.get_log("browser") == []


@pytest.mark.parametrize("fragment, answer", [
    # The first text of the page is in the field if the fragment is none: the last has an escape that is cut.
    *[(fragment, "12_500_000 bytes") for fragment in ("1=x", "12bytes=5", "nosuch=1", "=", "bytes", "__proto__=1",
                                                      "a'b=1", "bytes=%E0%A4%A")],
    ("binary+words=64 KBytes", "65_536 bytes"), ("bits+words=3 octets", "24 bits"), ("bytes+word=5", "12_500_000 bytes"),
    ("bits=1 Kb", "1_000 bits"), ("bytes=1%C2%85", "1 byte"), ("case=%201%20mb%20", "1_000_000 bytes"),
    ("bytes=", "␣"), ("bits=%00", "\0"), ("binary=1=2", "1=2"),
])  # fmt: skip
def test_page_by_a_fragment(browser, place, fragment, answer):
    """The page shows a result whatever is in its address, and logs no error."""
    said = opened(browser, f"{place.as_uri()}#{fragment}")
    assert said.split("\n")[0] == answer.replace("_", NARROW_SPACE)
    assert browser.get_log("browser") == []


@pytest.mark.parametrize("text, reading", [
    ("100 mb", "bytes"), ("999.999 RB", "bytes"), ("123456789012345678.9876543 MiB", "bits"), ("12 Kiq", "bytes"),
    ("1000000000000000000000000000000", "bytes"), ("9" * 99, "bytes"),
])  # fmt: skip
def test_page_at_all_widths(browser, text, reading):
    """From 320 to 1,600 pixels nothing is cut, and no group of digits is broken."""
    typed(browser, text, reading)
    cut = read("bindings/js/checks/cut.js")
    for width in [360, 390, 412, *range(320, 1601, 32)]:
        emulate(browser, "setDeviceMetricsOverride", width=width, height=1200, deviceScaleFactor=1, mobile=False)
        assert browser.execute_script(cut) == [], width
    emulate(browser, "clearDeviceMetricsOverride")


def test_contrast(browser):
    """Texts have a contrast of 4.5 and more in both schemes, as WCAG asks at AA."""
    low = read("bindings/js/checks/contrast.js")
    for scheme in ("light", "dark"):
        emulate(browser, "setEmulatedMedia", features=[{"name": "prefers-color-scheme", "value": scheme}])
        for text in ("1.5 GiB", "12 Kiq"):
            typed(browser, text)
            assert browser.execute_script(low) == []


def test_time_of_a_redraw(browser):
    """A change of the text takes less than 50 ms, the least mean of 10, and one to 40,000 zeros, laid out, less than
    100."""
    drawn = """
        const start = performance.now(), form = document.getElementById("form");
        document.getElementById("text").value = arguments[0];
        for (let at = 0; at < arguments[1]; at++)
            form.dispatchEvent(new Event("input"));
        form.getBoundingClientRect();  // lays out the page
        return (performance.now() - start) / arguments[1]"""
    assert min(browser.execute_script(drawn, "1.5 GiB", 10) for _ in range(5)) < 50
    for text in ("0" * 40000 + "1 KB", "0" * 40000 + "1 KBq"):
        assert min(browser.execute_script(drawn, text, 1) for _ in range(3)) < 100
    typed(browser, "1.5 GiB")


def without_data(module):
    """Returns a module up to its section of data, which has the constants. It is valid all the same."""
    at = 8
    while module[at] != 11:
        # A section is its number, its length as digits of 7 bits, of which the last is below 128, and its content.
        length, shift, at = 0, 0, at + 1
        while module[at] >= 128:
            length, shift, at = length | (module[at] & 127) << shift, shift + 7, at + 1
        at += 1 + (length | module[at] << shift)
    return module[:at]


def of_version_2(module):
    """Returns a module whose byte_unit_version returns 2000000 in place of 3000000."""
    three, two = b"\x41\xc0\x8d\xb7\x01\x0b", b"\x41\x80\x89\xfa\x00\x0b"  # i32.const and end
    assert module.count(three) == 1
    return module.replace(three, two)


# A module that imports the function `b` of a module `a`.
IMPORTS = b"\0asm\1\0\0\0" b"\1\4\1\x60\0\0" b"\2\7\1\1a\1b\0\0"


@pytest.fixture(scope="module")
def broken(javascript, tmp_path_factory):
    """A folder with a copy of the package for each way in which its module can be wrong."""
    module = (javascript / "byte_unit.wasm").read_bytes()
    made = tmp_path_factory.mktemp("broken")
    for name, data in {"missing": None, "html": b"<!DOCTYPE html>", "cut": module[:-9], "code": without_data(module),
                       "empty": b"", "other": module[:8], "imports": IMPORTS, "older": of_version_2(module),
                       "whole": module}.items():  # fmt: skip
        shutil.copytree(javascript, made / name)
        (made / name / "byte_unit.wasm").unlink()
        if data is not None:
            (made / name / "byte_unit.wasm").write_bytes(data)
    return made


# What an import says of them.
OTHER = "byte_unit: byte_unit.wasm is another file, or not whole: "
SAID = {
    **dict.fromkeys(["html", "cut", "empty", "imports"], OTHER),
    **dict.fromkeys(["code", "other"], f"{OTHER}it has no calls, or no constants"),
    "older": f"{OTHER}its version is 2000000, and that of the package 3000000", "whole": "loaded",
}  # fmt: skip


def test_a_broken_module(broken):
    for name, said in {**SAID, "missing": "ENOENT: no such file or directory, open "}.items():
        ends = "() => console.log('loaded'), error => console.log(error.message)"
        for file in ("node.js", "require.cjs"):
            script = f"await import('./{name}/{file}').then({ends})"
            assert output("node", "--input-type=module", "-e", script, cwd=broken).startswith(said), (name, file)


def test_a_broken_module_of_a_server(broken, browser):
    """The browser is told what is wrong."""
    with ThreadingHTTPServer(("127.0.0.1", 0), partial(SimpleHTTPRequestHandler, directory=broken)) as server:
        threading.Thread(target=server.serve_forever).start()
        try:
            root = f"http://127.0.0.1:{server.server_port}"
            browser.get(root)  # a list of the folders, from which a module may be imported
            script = "return import(arguments[0]).then(() => 'loaded', error => error.message)"
            missing = f"byte_unit: {root}/missing/byte_unit.wasm cannot be loaded: status 404"
            for name, said in {**SAID, "missing": missing}.items():
                assert browser.execute_script(script, f"{root}/{name}/index.js").startswith(said), name
        finally:
            server.shutdown()
