"""A headless Chromium, driven by its DevTools protocol over a pair of sockets."""

import json
import os
import shutil
import signal
import socket
import subprocess
import tempfile
import time

# What a page says: messages in the console, and exceptions.
MESSAGES = ("Runtime.consoleAPICalled", "Runtime.exceptionThrown", "Log.entryAdded")
# The longest that an answer may take, in seconds.
LATEST = 60
OPTIONS = ["--headless=new", "--remote-debugging-pipe", "--disable-gpu", "--no-first-run", "--disable-sync",
           "--disable-background-networking", "--disable-component-update", "--disable-extensions",
           "--disable-dev-shm-usage", "--window-size=1200,900"]
# The numbers of the keys that tests press, beside letters.
KEYS = {"Tab": 9, "Enter": 13, "Escape": 27, " ": 32, "End": 35, "Home": 36, "ArrowLeft": 37, "ArrowUp": 38,
        "ArrowRight": 39, "ArrowDown": 40}
# The place of an element's beginning, after it was brought into sight.
PLACE = """(() => { const it = document.querySelector(%s);
it.scrollIntoView({ block: 'nearest', inline: 'nearest' });
const at = it.getClientRects()[0];
return [at.x + Math.min(at.width, 40) / 2, at.y + at.height / 2] })()"""


def browser():
    """The path of a Chromium, or None where none is installed."""
    return shutil.which("chromium") or shutil.which("chromium-browser")


class Chromium:
    """A browser with one page."""

    def __init__(self, program):
        self.profile = tempfile.mkdtemp(prefix="redo-page-")
        self.socket, theirs = socket.socketpair()
        self.socket.settimeout(LATEST)
        self.process = self.started(program, theirs)
        theirs.close()
        self.rest, self.number, self.events = b"", 0, []
        self.session, self.has_scripts = None, True
        targets = self.call("Target.getTargets")["targetInfos"]
        target = next(it["targetId"] for it in targets if it["type"] == "page")
        self.session = self.call("Target.attachToTarget", targetId=target, flatten=True)["sessionId"]
        for domain in ("Page", "Runtime", "Network", "Log"):
            self.call(domain + ".enable")

    def started(self, program, theirs):
        """The process, which reads calls from descriptor 3 and answers on 4."""

        def place():
            end = os.dup(theirs.fileno())
            os.dup2(end, 3)
            os.dup2(end, 4)

        # Chromium refuses to run as root in its sandbox.
        options = ["--no-sandbox"] if os.geteuid() == 0 else []
        command = [program, *options, *OPTIONS, f"--user-data-dir={self.profile}", "about:blank"]
        return subprocess.Popen(command, preexec_fn=place, close_fds=False, start_new_session=True,
                                stdin=subprocess.DEVNULL, stdout=subprocess.DEVNULL, stderr=subprocess.DEVNULL)

    def message(self):
        while b"\0" not in self.rest:
            more = self.socket.recv(1 << 20)
            if not more:
                raise EOFError("Chromium has ended")
            self.rest += more
        first, self.rest = self.rest.split(b"\0", 1)
        return json.loads(first)

    def call(self, method, **params):
        self.number += 1
        message = {"id": self.number, "method": method, "params": params}
        if self.session:
            message["sessionId"] = self.session
        self.socket.sendall(json.dumps(message).encode() + b"\0")
        while True:
            found = self.message()
            if found.get("id") == self.number:
                if "error" in found:
                    raise RuntimeError(f"{method}: {found['error']['message']}")
                return found["result"]
            self.events.append(found)

    def open(self, url):
        """Opens a page anew, and waits until it is loaded and drawn."""
        for address in "about:blank", url:
            self.events.clear()
            self.call("Page.navigate", url=address)
            while not any(it.get("method") == "Page.loadEventFired" for it in self.events):
                self.events.append(self.message())
        self.settle()

    def run(self, script):
        """The value of a JavaScript expression, awaited if it is a promise."""
        found = self.call("Runtime.evaluate", expression=script, awaitPromise=True, returnByValue=True,
                          userGesture=True)
        if "exceptionDetails" in found:
            raise RuntimeError(found["exceptionDetails"].get("exception", {}).get("description", script))
        return found["result"].get("value")

    def settle(self):
        """Waits until two frames are drawn; for a while, if the page may run no script."""
        if not self.has_scripts:
            time.sleep(0.3)
            return
        frame = "new Promise(done => requestAnimationFrame(() => setTimeout(done, 10)))"
        self.run(f"{frame}.then(() => {frame})")

    def said(self):
        """The messages in the console and the log since the page was opened."""
        return [it["params"] for it in self.events if it.get("method") in MESSAGES]

    def requests(self):
        """The addresses asked for since the page was opened."""
        asked = [it["params"]["request"]["url"] for it in self.events
                 if it.get("method") == "Network.requestWillBeSent"]
        return [url for url in asked if url != "about:blank"]

    def allow_scripts(self, are_allowed):
        self.call("Emulation.setScriptExecutionDisabled", value=not are_allowed)
        self.has_scripts = are_allowed

    def key(self, key, text=""):
        """Presses a key, which types a text if it has one."""
        number = KEYS.get(key, 0)
        kind = {"type": "keyDown", "text": text} if text else {"type": "rawKeyDown"}
        self.call("Input.dispatchKeyEvent", key=key, windowsVirtualKeyCode=number, **kind)
        self.call("Input.dispatchKeyEvent", key=key, windowsVirtualKeyCode=number, type="keyUp")

    def type(self, text):
        """Types a text, and waits for as long as the page waits for the next letter."""
        for letter in text:
            self.key(letter, letter)
        self.rest_a_while()

    def rest_a_while(self):
        time.sleep(0.2)
        self.settle()

    def mouse(self, kind, x, y, **more):
        self.call("Input.dispatchMouseEvent", type=kind, x=x, y=y, **{"button": "left", "clickCount": 1, **more})

    def click(self, selector):
        """Clicks near the beginning of an element's first line."""
        x, y = self.run(PLACE % json.dumps(selector))
        for kind in "mousePressed", "mouseReleased":
            self.mouse(kind, x, y)
        self.settle()

    def drag(self, selector, across):
        """Moves the mouse, with its button pressed, from an element's beginning."""
        x, y = self.run(PLACE % json.dumps(selector))
        self.mouse("mousePressed", x, y)
        for step in range(1, 6):
            self.mouse("mouseMoved", x + across * step / 5, y, buttons=1)
        self.mouse("mouseReleased", x + across, y)
        self.settle()

    def wheel(self, selector, down, **more):
        """Turns the wheel over an element's beginning."""
        x, y = self.run(PLACE % json.dumps(selector))
        self.mouse("mouseWheel", x, y, deltaX=0, deltaY=down, **more)
        self.rest_a_while()

    def close(self):
        try:
            self.session = None
            self.call("Browser.close")
        except (OSError, EOFError, RuntimeError):
            pass
        try:
            self.process.wait(10)
        except subprocess.TimeoutExpired:
            os.killpg(self.process.pid, signal.SIGKILL)
            self.process.wait()
        self.socket.close()
        shutil.rmtree(self.profile, ignore_errors=True)
