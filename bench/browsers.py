"""A headless Firefox and a headless Chromium, each driven by its own interface, and the pages that they visit."""
import atexit
import http.server
import json
import os
import pathlib
import shutil
import socket
import subprocess
import sys
import threading
import time

PACKAGES = {"firefox-esr": "firefox-esr", "chromium": "chromium", "sqlite3": "sqlite3"}
GENTLY = ["nice", "-n", "10"]
SECONDS = 60


def install():
    missing = [package for package, command in PACKAGES.items() if not shutil.which(command)]
    if missing:
        subprocess.run("apt-get update && apt-get install -y --no-install-recommends " + " ".join(missing), shell=True,
                       env={**os.environ, "DEBIAN_FRONTEND": "noninteractive"}, check=True, stdout=sys.stderr)


# ---- the pages

def title_of(path):
    """A title with backslashes, and with TABs as far as a browser keeps them in a page's title."""
    return f"Page\\{path[1:]} \\t C:\\new\ttab & <b>ü 😀</b>"


class Pages(http.server.BaseHTTPRequestHandler):
    """`/301/X`, `/302/X` and `/307/X` redirect to `/X`, `/meta/X` does so by its text, `/frame/X` has it in a frame."""

    protocol_version = "HTTP/1.1"

    def do_GET(self):
        kind, _, rest = self.path[1:].partition("/")
        if kind in ("301", "302", "307"):
            self.answer(int(kind), "", location=f"/{rest}")
        elif kind == "meta":
            self.answer(200, f'<meta http-equiv="refresh" content="0;url=/{rest}"><title>To {rest}</title>')
        elif kind == "frame":
            self.answer(200, f'<title>Frame of {rest}</title><iframe src="/{rest}"></iframe>')
        elif self.path == "/favicon.ico":
            self.answer(404, "")
        else:
            title = title_of(self.path).replace("&", "&amp;").replace("<", "&lt;")
            self.answer(200, f'<meta charset="utf-8"><title>{title}</title><p>{self.path}')

    def answer(self, status, text, location=None):
        data = text.encode()
        self.send_response(status)
        self.send_header("Content-Type", "text/html; charset=utf-8")
        self.send_header("Content-Length", str(len(data)))
        self.send_header("Cache-Control", "no-store")
        if location:
            self.send_header("Location", location)
        self.end_headers()
        self.wfile.write(data)

    def log_message(self, *_):
        pass


def serve():
    """The port of a server of the pages, which ends with this program."""
    server = http.server.ThreadingHTTPServer(("127.0.0.1", 0), Pages)
    server.daemon_threads = True
    threading.Thread(target=server.serve_forever, daemon=True).start()
    return server.server_port


def free_port():
    with socket.socket() as some:
        some.bind(("127.0.0.1", 0))
        return some.getsockname()[1]


# ---- Firefox, by Marionette

FIREFOX_SETTINGS = """
user_pref("marionette.port", %d);
user_pref("browser.bookmarks.autoExportHTML", true);
user_pref("datareporting.policy.dataSubmissionEnabled", false);
user_pref("app.normandy.enabled", false);
user_pref("network.captive-portal-service.enabled", false);
user_pref("dom.security.https_first", false);
"""


class Firefox:
    """A profile in a folder, `places.sqlite` of which and `bookmarks.html` are complete once it has quit."""

    def __init__(self, folder):
        self.folder, port = pathlib.Path(folder), free_port()
        self.folder.mkdir()
        (self.folder / "user.js").write_text(FIREFOX_SETTINGS % port)
        words = ["firefox-esr", "--headless", "--marionette", "--remote-allow-system-access", "--no-remote"]
        self.process = subprocess.Popen([*GENTLY, *words, "--profile", self.folder], stdin=subprocess.DEVNULL,
                                        stdout=subprocess.DEVNULL, stderr=subprocess.DEVNULL)
        atexit.register(self.process.kill)
        self.connection, self.number = self.connect(port), 0
        self.stream = self.connection.makefile("rb")
        self.read()
        self.call("WebDriver:NewSession", {"capabilities": {"alwaysMatch": {}}})

    def connect(self, port):
        for _ in range(10 * SECONDS):
            try:
                return socket.create_connection(("127.0.0.1", port))
            except OSError:
                time.sleep(0.1)
        sys.exit("Firefox took no connection")

    def read(self):
        size = b""
        while (digit := self.stream.read(1)) != b":":
            size += digit or sys.exit("Firefox ended the connection")
        return json.loads(self.stream.read(int(size)))

    def call(self, name, parameters):
        self.number += 1
        data = json.dumps([0, self.number, name, parameters]).encode()
        self.connection.sendall(b"%d:%s" % (len(data), data))
        _, _, error, result = self.read()
        if error:
            raise RuntimeError(f"Firefox, {name}: {error['message']}")
        return result

    def visit(self, url, mark=None):
        """Goes to an address, which was typed or followed as `mark` says, a call of the history service."""
        if mark:
            self.run("PlacesUtils.history[args[1]](Services.io.newURI(args[0]))", url, mark)
        self.call("Marionette:SetContext", {"value": "content"})
        self.call("WebDriver:Navigate", {"url": url})

    def go_in_frame(self, path):
        self.call("WebDriver:ExecuteAsyncScript", {"args": [path], "script": """
            const done = arguments[arguments.length - 1], frame = document.querySelector("iframe");
            frame.onload = () => done(1);
            frame.contentWindow.location.href = arguments[0];"""})

    def run(self, task, *words):
        """Runs one expression of the browser's own script on `args`, and waits for it."""
        self.call("Marionette:SetContext", {"value": "chrome"})
        script = f"""
            const {{PlacesUtils}} = ChromeUtils.importESModule("resource://gre/modules/PlacesUtils.sys.mjs");
            const done = arguments[arguments.length - 1], args = [...arguments];
            (async () => done([await ({task}) ?? null]))().catch(fault => done(String(fault)));"""
        value = self.call("WebDriver:ExecuteAsyncScript", {"script": script, "args": words})["value"]
        if not isinstance(value, list):
            raise RuntimeError(f"Firefox: {value}")
        return value[0]

    def insert(self, pages):
        """Visits as an extension or an import of another browser gives them: pairs of an address and a title, with
        the dates and types of its visits."""
        self.run("""PlacesUtils.history.insertMany(args[0].map(([url, title, visits]) => ({url, title,
            visits: visits.map(([date, transition]) => ({date: new Date(date), transition}))})))""", pages)

    def quit(self):
        self.call("Marionette:Quit", {"flags": ["eAttemptQuit"]})
        self.process.wait(SECONDS)
        return self.folder / "places.sqlite"


# ---- Chromium, by its debugging pipe, and by an extension

EXTENSION = {"manifest_version": 3, "name": "visits", "version": "1", "permissions": ["history"],
             "background": {"service_worker": "worker.js"}}

class Chromium:
    """A profile in a folder, `Default/History` of which is complete once it has quit."""

    WORDS = ["chromium", "--headless=new", "--no-sandbox", "--no-zygote", "--disable-gpu", "--disable-dev-shm-usage",
             "--disable-background-networking", "--disable-component-update", "--disable-sync", "--no-first-run",
             "--disable-features=DisableLoadExtensionCommandLineSwitch", "--remote-debugging-pipe"]

    def __init__(self, folder):
        self.folder, self.number, self.rest = pathlib.Path(folder), 0, b""
        extension = self.folder.with_name("extension")
        extension.mkdir()
        (extension / "manifest.json").write_text(json.dumps(EXTENSION))
        (extension / "worker.js").write_text("")
        asked, self.asks = os.pipe()
        self.hears, answers = os.pipe()
        # (as the pipe has it: it reads from 3 and writes to 4)
        joined = f'exec "$@" 3<&{asked} 4>&{answers}'
        words = [*GENTLY, *self.WORDS, f"--load-extension={extension}", f"--user-data-dir={self.folder}", "about:blank"]
        self.process = subprocess.Popen(["bash", "-c", joined, "bash", *words], pass_fds=(asked, answers),
                                        stdin=subprocess.DEVNULL, stdout=subprocess.DEVNULL, stderr=subprocess.DEVNULL)
        atexit.register(self.process.kill)
        os.close(asked)
        os.close(answers)
        self.session = None
        self.worker = self.attach("service_worker")
        self.session = self.attach("page")
        self.call("Page.enable")

    def attach(self, kind):
        """A session with the one target of this kind, once it is there."""
        for _ in range(10 * SECONDS):
            for one in self.call("Target.getTargets")["targetInfos"]:
                if one["type"] == kind:
                    target = {"targetId": one["targetId"], "flatten": True}
                    return self.call("Target.attachToTarget", target)["sessionId"]
            time.sleep(0.1)
        sys.exit(f"Chromium has no {kind}")

    def read(self):
        while b"\0" not in self.rest:
            self.rest += os.read(self.hears, 65536) or sys.exit("Chromium ended the connection")
        one, self.rest = self.rest.split(b"\0", 1)
        return json.loads(one)

    def call(self, method, parameters=None, session=None):
        self.number += 1
        asked = {"id": self.number, "method": method, "params": parameters or {}}
        if session or self.session:
            asked["sessionId"] = session or self.session
        os.write(self.asks, json.dumps(asked).encode() + b"\0")
        while (told := self.read()).get("id") != self.number:
            pass
        if "error" in told:
            raise RuntimeError(f"Chromium, {method}: {told['error']['message']}")
        return told["result"]

    def visit(self, url, transition="link", loads=1):
        """Goes to an address by this core type, and waits until so many pages have been loaded."""
        self.call("Page.navigate", {"url": url, "transitionType": transition})
        while loads:
            loads -= self.read().get("method") == "Page.loadEventFired"

    def go_in_frame(self, path):
        self.evaluate(f"""new Promise(done => {{
            const frame = document.querySelector("iframe");
            frame.onload = done;
            frame.contentWindow.location.href = {json.dumps(path)};
        }}).then(() => 1)""")

    def evaluate(self, expression, session=None):
        told = self.call("Runtime.evaluate", {"expression": expression, "awaitPromise": True}, session)
        if told["result"].get("value") != 1:
            raise RuntimeError(f"Chromium: {told}")

    def add(self, urls):
        """A visit to each, as an extension gives it."""
        add_each = f"for (const url of {json.dumps(urls)}) await chrome.history.addUrl({{url}});"
        self.evaluate(f"(async () => {{ {add_each} return 1; }})()", self.worker)

    def quit(self):
        self.session = None
        self.call("Browser.close")
        self.process.wait(SECONDS)
        return self.folder / "Default/History"
