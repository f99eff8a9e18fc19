"""Browsers that a test drives without a network: Chromium by its pipe for debugging, Firefox by Marionette."""
import base64
import contextlib
import json
import os
import pathlib
import re
import select
import signal
import socket
import subprocess
import tempfile
import time

SECONDS = 60
QUIET = {**dict.fromkeys(("stdin", "stdout", "stderr"), subprocess.DEVNULL), "start_new_session": True}


def ended(process):
    """Ends a browser with the processes that it started."""
    with contextlib.suppress(ProcessLookupError):
        os.killpg(process.pid, signal.SIGKILL)
    process.wait(SECONDS)


class Chromium:
    """A tab of Chromium, and what it has reported: requests, and messages of the console."""

    def __init__(self, *words):
        self.folder = tempfile.TemporaryDirectory(prefix="chromium-", ignore_cleanup_errors=True)
        (theirs, self.to), (self.heard, back) = os.pipe(), os.pipe()
        # (the browser reads descriptor 3, and writes 4)
        command = ["bash", "-c", f'exec "$@" 3<&{theirs} 4>&{back}', "bash", "chromium", "--headless", "--no-sandbox",
                   "--disable-gpu", "--disable-dev-shm-usage", "--hide-scrollbars",
                   f"--user-data-dir={self.folder.name}", *words,
                   "--host-resolver-rules=MAP * ~NOTFOUND", "--remote-debugging-pipe", "about:blank"]
        self.process = subprocess.Popen(command, pass_fds=(theirs, back), **QUIET)
        os.close(theirs)
        os.close(back)
        self.number, self.rest, self.events, self.session = 0, b"", [], None
        self.ask("Browser.setDownloadBehavior", behavior="deny")
        targets = self.ask("Target.getTargets")["targetInfos"]
        target = next(it["targetId"] for it in targets if it["type"] == "page")
        self.session = self.ask("Target.attachToTarget", targetId=target, flatten=True)["sessionId"]
        for domain in "Page", "Runtime", "Network", "Log":
            self.ask(f"{domain}.enable")

    def __enter__(self):
        return self

    def __exit__(self, *_):
        ended(self.process)
        os.close(self.to)
        os.close(self.heard)
        self.folder.cleanup()

    def ask(self, method, **more):
        """The result of a command of the protocol for debugging."""
        self.number += 1
        said = {"id": self.number, "method": method, "params": more}
        if self.session:
            said["sessionId"] = self.session
        os.write(self.to, json.dumps(said).encode() + b"\0")
        while True:
            answer = self.next()
            if answer.get("id") == self.number:
                assert "error" not in answer, (method, answer["error"])
                return answer["result"]

    def next(self):
        """The next answer. Events are kept."""
        until = time.monotonic() + SECONDS
        while b"\0" not in self.rest:
            assert select.select([self.heard], [], [], max(0, until - time.monotonic()))[0], "Chromium does not answer"
            piece = os.read(self.heard, 1 << 20)
            assert piece, "Chromium has ended"
            self.rest += piece
        text, self.rest = self.rest.split(b"\0", 1)
        said = json.loads(text)
        if "method" in said:
            self.events.append(said)
        return said

    def open(self, path, script=""):
        """Opens a file in a new document. The script runs before those of the page."""
        if script:
            self.ask("Page.addScriptToEvaluateOnNewDocument", source=script)
        self.events.clear()
        self.ask("Page.navigate", url=pathlib.Path(path).resolve().as_uri())
        self.until("document.readyState === 'complete' && location.protocol === 'file:'")

    def run(self, script):
        """The value of an expression, for whose promise is waited."""
        found = self.ask("Runtime.evaluate", expression=script, awaitPromise=True, returnByValue=True)
        assert "exceptionDetails" not in found, found["exceptionDetails"]
        return found["result"].get("value")

    def until(self, script, seconds=SECONDS):
        """Waits until an expression is true, and returns its value."""
        until = time.monotonic() + seconds
        while not (value := self.run(script)):
            assert time.monotonic() < until, script
            time.sleep(0.02)
        return value

    def choose(self, path, selector="#file"):
        """Chooses a file, as a user does."""
        root = self.ask("DOM.getDocument")["root"]["nodeId"]
        node = self.ask("DOM.querySelector", nodeId=root, selector=selector)["nodeId"]
        self.ask("DOM.setFileInputFiles", nodeId=node, files=[str(path)])

    def press(self, key, **more):
        """Presses a key."""
        code = {"Tab": 9, "Enter": 13}[key]
        for kind in ("keyDown" if "text" in more else "rawKeyDown", "keyUp"):
            self.ask("Input.dispatchKeyEvent", type=kind, key=key, code=key, windowsVirtualKeyCode=code, **more)

    def sized(self, width, height=1000, dark=False):
        """Has a window of this size, light or dark."""
        self.ask("Emulation.setDeviceMetricsOverride", width=width, height=height, deviceScaleFactor=1, mobile=False)
        feature = {"name": "prefers-color-scheme", "value": "dark" if dark else "light"}
        self.ask("Emulation.setEmulatedMedia", features=[feature])

    def picture(self, path):
        """Writes a picture of the whole page."""
        found = self.ask("Page.captureScreenshot", captureBeyondViewport=True)
        pathlib.Path(path).write_bytes(base64.b64decode(found["data"]))

    def requests(self):
        """The addresses that were asked for since the page was opened, without the page itself and what is in it."""
        asked = [it["params"]["request"]["url"] for it in self.events if it["method"] == "Network.requestWillBeSent"]
        return [it for it in asked[1:] if not it.startswith("blob:")]

    def messages(self):
        """What was written to the console, and each exception."""
        names = "Runtime.consoleAPICalled", "Runtime.exceptionThrown", "Log.entryAdded", "Page.javascriptDialogOpening"
        return [it["params"] for it in self.events if it["method"] in names]


# What Firefox is told: that it says by itself where it listens, keeps downloads in its own folder, and logs to its console.
SETTINGS = """user_pref("marionette.port", 0);
user_pref("browser.download.folderList", 2);
user_pref("browser.download.dir", {folder});
user_pref("browser.startup.page", 0);
"""
# In the browser's own window: notes what is asked for, and forgets what was noted before.
NOTES = """
window.balisecheckAsked ??= (() => {
    const asked = [];
    Services.obs.addObserver((it) => {
        const channel = it.QueryInterface(Ci.nsIChannel), isOwn = channel.loadInfo.triggeringPrincipal.isSystemPrincipal;
        if (!isOwn) asked.push(channel.URI.spec);
    }, "http-on-modify-request");
    return asked;
})();
window.balisecheckAsked.length = 0;
Services.console.reset();
"""
# The errors of the page and of its workers.
ERRORS = """return Services.console.getMessageArray().filter((it) => it instanceof Ci.nsIScriptError)
    .filter((it) => /^(file|blob):/.test(it.sourceName) && !(it.flags & it.warningFlag)).map((it) => it.message);"""
SCHEME = """Services.prefs.setIntPref("layout.css.prefers-color-scheme.content-override", arguments[0] ? 0 : 1);"""
KEYS = {"Tab": "\ue004", "Enter": "\ue007"}


class Firefox:
    """A tab of Firefox, and what it has reported: requests by http, and errors of the console."""

    def __init__(self):
        self.folder = tempfile.TemporaryDirectory(prefix="firefox-", ignore_cleanup_errors=True)
        command = ["firefox-esr", "--headless", "--no-remote", "--marionette", "--remote-allow-system-access", "--profile",
                   self.folder.name]
        text = SETTINGS.format(folder=json.dumps(self.folder.name))
        pathlib.Path(self.folder.name, "user.js").write_text(text, "utf-8")
        self.process = subprocess.Popen(command, **QUIET)
        port = pathlib.Path(self.folder.name, "MarionetteActivePort")
        until = time.monotonic() + SECONDS
        while not (port.exists() and port.read_text().strip()):
            assert time.monotonic() < until, "Firefox does not start"
            time.sleep(0.1)
        self.socket = socket.create_connection(("127.0.0.1", int(port.read_text())), 2 * SECONDS)
        self.rest, self.number = b"", 0
        self.heard()
        self.ask("WebDriver:NewSession", capabilities={"alwaysMatch": {"acceptInsecureCerts": False}})
        self.ask("WebDriver:SetTimeouts", script=1000 * SECONDS, pageLoad=1000 * SECONDS)

    def __enter__(self):
        return self

    def __exit__(self, *_):
        self.socket.close()
        ended(self.process)
        self.folder.cleanup()

    def heard(self):
        """The next packet: its length, a colon, and JSON."""
        while not (head := re.match(rb"(\d+):", self.rest)) or len(self.rest) < head.end() + int(head[1]):
            piece = self.socket.recv(1 << 20)
            assert piece, "Firefox has ended"
            self.rest += piece
        end = head.end() + int(head[1])
        text, self.rest = self.rest[head.end():end], self.rest[end:]
        return json.loads(text)

    def ask(self, name, **more):
        """The result of a command."""
        self.number += 1
        said = json.dumps([0, self.number, name, more]).encode()
        self.socket.sendall(b"%d:%s" % (len(said), said))
        _, _, error, value = self.heard()
        assert error is None, (name, error)
        return value

    def own(self, script, *words):
        """What a script returns in the window of the browser itself."""
        self.ask("Marionette:SetContext", value="chrome")
        try:
            return self.ask("WebDriver:ExecuteScript", script=script, args=words, sandbox=None)["value"]
        finally:
            self.ask("Marionette:SetContext", value="content")

    def open(self, path):
        """Opens a file in a new document."""
        self.own(NOTES)
        self.ask("WebDriver:Navigate", url=pathlib.Path(path).resolve().as_uri())

    def run(self, script):
        """The value of an expression of the page, for whose promise is waited."""
        return self.ask("WebDriver:ExecuteScript", script=f"return ({script});", args=[], sandbox=None)["value"]

    until = Chromium.until

    def choose(self, path, selector="#file"):
        """Chooses a file, as a user does."""
        found = self.ask("WebDriver:FindElement", using="css selector", value=selector)["value"]
        self.ask("WebDriver:ElementSendKeys", id=next(iter(found.values())), text=str(path))

    def press(self, key, **_):
        """Presses a key."""
        keys = [{"type": kind, "value": KEYS[key]} for kind in ("keyDown", "keyUp")]
        self.ask("WebDriver:PerformActions", actions=[{"type": "key", "id": "keys", "actions": keys}])

    def sized(self, width, height=1000, dark=False):
        """Has a page of this size, light or dark. No window is narrower than 500 pixels."""
        self.own(SCHEME, dark)
        edge = self.run("outerWidth - innerWidth")
        self.ask("WebDriver:SetWindowRect", width=width + edge, height=height)
        self.until(f"Math.abs(innerWidth - {max(width, 500)}) < 2", 5)

    def picture(self, path):
        """Writes a picture of the whole page."""
        found = self.ask("WebDriver:TakeScreenshot", full=True)["value"]
        pathlib.Path(path).write_bytes(base64.b64decode(found))

    def requests(self):
        """The addresses that the page asked for by http since it was opened. Those of the browser itself are not counted."""
        return self.own("return window.balisecheckAsked;")

    def messages(self):
        """The errors of the page since it was opened."""
        return self.own(ERRORS)
