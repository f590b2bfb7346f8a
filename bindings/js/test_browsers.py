"""Tests the package's calls, the page, and a policy that forbids them, in Chromium, Firefox and WebKit. Each opens a page
of a server, which posts what it finds."""

import json
import queue
import shutil
import subprocess
import threading
from http.server import SimpleHTTPRequestHandler, ThreadingHTTPServer

import pytest
from byte_unit_dev import page
from byte_unit_dev.fixtures import environment, need, read
from byte_unit_dev.needs import WEBKIT
from test_js import ROWS, script_of
from test_page import calls_of, check_shown

# What each needs, and its words before an address. HOME is a folder of the test.
BROWSERS = {
    "chromium": (["chromium"], ["chromium", "--headless=new", "--no-sandbox", "--disable-gpu"]),
    "firefox": (["firefox-esr"], ["firefox-esr", "--headless", "--no-remote", "--profile", "profile"]),
    "webkit": ([WEBKIT, "xvfb-run"], ["xvfb-run", "--auto-servernum", WEBKIT]),
}
POST = "(found => fetch('/found', { method: 'POST', body: found }))"
# Waits until the page has compiled the module, and posts what checks/shown.js returns.
SHOWN = """<script type="module">
while (!document.getElementById("answer").textContent)
    await new Promise(done => setTimeout(done, 20));
const shown = new Function(%s);
%s(JSON.stringify(shown(%s)));
</script>"""


class Handler(SimpleHTTPRequestHandler):
    """Serves a folder, and takes what is posted. Below /forbidden/ no WebAssembly is allowed."""

    def do_POST(self):
        self.server.found.put(json.loads(self.rfile.read(int(self.headers["Content-Length"]))))
        self.send_response(204)
        self.end_headers()

    def end_headers(self):
        if self.path.startswith("/forbidden/"):
            self.send_header("Content-Security-Policy", "script-src 'self'")
        super().end_headers()

    def log_message(self, *_):
        pass


@pytest.fixture(scope="module", params=BROWSERS)
def found(request, javascript, tmp_path_factory):
    """Returns what a browser posts of a page with this text, in the folder of the package, or in `forbidden` there."""
    needs, words = BROWSERS[request.param]
    need(*needs)
    home = tmp_path_factory.mktemp(request.param)
    shutil.copytree(javascript, home / "served/forbidden", dirs_exist_ok=True)
    shutil.copytree(javascript, home / "served", dirs_exist_ok=True)
    (home / "profile").mkdir()
    handler = lambda *given: Handler(*given, directory=home / "served")
    with ThreadingHTTPServer(("127.0.0.1", 0), handler) as server:
        server.found = queue.Queue()
        threading.Thread(target=server.serve_forever).start()

        def posted(name, text, **more):
            for file, content in {name: text, **more}.items():
                (home / "served" / file).write_text(content, encoding="utf-8")
            address = f"http://127.0.0.1:{server.server_port}/{name}"
            here = environment(HOME=home, XDG_RUNTIME_DIR=home, WEBKIT_DISABLE_SANDBOX_THIS_IS_DANGEROUS=1)
            started = subprocess.Popen([*words, address], cwd=home, env=here, start_new_session=True,
                                       stdout=subprocess.DEVNULL, stderr=subprocess.DEVNULL)  # fmt: skip
            try:
                return server.found.get(timeout=120), address
            finally:
                subprocess.run(["pkill", "--signal", "KILL", "--session", str(started.pid)], check=False)
                started.wait()

        yield posted
        server.shutdown()


def test_calls(found):
    codes, wanted = zip(*ROWS)
    script = script_of("./index.js", codes, POST)
    got, _ = found("calls.html", f'<meta charset="utf-8"><script type="module">{script}</script>')
    assert [row for row in zip(codes, wanted, got, strict=True) if row[1] != row[2]] == []


def test_page(found, tmp_path, seed):
    page.run(tmp_path / "page.html")
    calls = calls_of(seed, 50)
    script = SHOWN % (json.dumps(read("bindings/js/checks/shown.js")), POST, json.dumps(calls).replace("<", "\\u003c"))
    got, address = found("page.html", (tmp_path / "page.html").read_text(encoding="utf-8") + script)
    check_shown(calls, *got, address)


def test_policy(found):
    """A page whose policy forbids WebAssembly is told so."""
    script = f'import("./index.js").then(() => "loaded", error => error.message).then(said => {POST}(JSON.stringify(said)))'
    page_text = '<script type="module" src="policy.js"></script>'
    got, _ = found("forbidden/page.html", page_text, **{"forbidden/policy.js": script})
    assert got.startswith("byte_unit: the Content-Security-Policy of this page forbids WebAssembly: ")
