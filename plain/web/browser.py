"""A headless Chromium with one page, over the DevTools protocol through a pipe. Standard library alone.

As a program it ends with 0 where there is a Chromium.
"""

import json
import os
import select
import shutil
import signal
import subprocess
import sys
import tempfile
import time

PROGRAMS = ("chromium", "chromium-browser", "google-chrome")
WORDS = ["--headless=new", "--disable-gpu", "--no-first-run", "--no-default-browser-check", "--disable-extensions", "--disable-dev-shm-usage",
         "--disable-background-networking", "--remote-debugging-pipe"]


def program():
    """The path of a Chromium, or None."""
    return next((path for path in map(shutil.which, PROGRAMS) if path), None)


class Browser:
    """A Chromium that shows one page. What it says of itself is kept: exceptions, dialogs, and what was to be loaded."""

    def __init__(self, url):
        self.room = tempfile.mkdtemp(prefix="spiffs-page-")
        self.downloads = os.path.join(self.room, "downloads")
        os.mkdir(self.downloads)
        self.exceptions, self.dialogs, self.loads = [], [], []
        # Files that are being saved, their names by their numbers, and the numbers of those that are there.
        self.begun, self.saved = {}, []
        self.number, self.left, self.session = 0, b"", None
        self.start()
        target = self.ask("Target.createTarget", url="about:blank")["targetId"]
        self.session = self.ask("Target.attachToTarget", targetId=target, flatten=True)["sessionId"]
        for domain in ("Page", "Runtime", "DOM", "Network", "Log"):
            self.ask(f"{domain}.enable")
        self.ask("Emulation.setDeviceMetricsOverride", width=1200, height=4000, deviceScaleFactor=1, mobile=False)
        self.ask("Browser.setDownloadBehavior", behavior="allowAndName", downloadPath=self.downloads, eventsEnabled=True)
        self.ask("Page.navigate", url=url)
        self.wait("document.readyState === 'complete'")

    def start(self):
        in_read, self.into = os.pipe()
        self.out, out_write = os.pipe()
        words = [program(), *WORDS, f"--user-data-dir={self.room}/profile"]
        if os.getuid() == 0:
            words.append("--no-sandbox")

        def place():
            # (the protocol is spoken on descriptors 3 and 4)
            os.dup2(os.dup(in_read), 3)
            os.dup2(out_write, 4)

        with open(f"{self.room}/log", "w", encoding="utf-8") as log:
            # (a group of its own, to be ended as one)
            self.process = subprocess.Popen(words, stdin=subprocess.DEVNULL, stdout=log, stderr=log, close_fds=False, preexec_fn=place,
                                            start_new_session=True)
        os.close(in_read)
        os.close(out_write)

    def end(self):
        try:
            os.killpg(self.process.pid, signal.SIGKILL)
        except ProcessLookupError:
            pass
        self.process.wait()
        os.close(self.into)
        os.close(self.out)
        shutil.rmtree(self.room, ignore_errors=True)

    def messages(self, until):
        """The next messages, as long as there is time."""
        while b"\0" not in self.left:
            if not select.select([self.out], [], [], max(0, until - time.monotonic()))[0]:
                raise TimeoutError("Chromium doesn't answer")
            piece = os.read(self.out, 1 << 20)
            if not piece:
                raise EOFError("Chromium has ended")
            self.left += piece
        *whole, self.left = self.left.split(b"\0")
        return [json.loads(it) for it in whole]

    def note(self, told):
        what, of = told.get("method"), told.get("params", {})
        if what == "Runtime.exceptionThrown":
            self.exceptions.append(of["exceptionDetails"])
        elif what == "Page.javascriptDialogOpening":
            self.dialogs.append(of["message"])
        elif what == "Network.requestWillBeSent":
            self.loads.append(of["request"]["url"])
        elif what == "Browser.downloadWillBegin":
            self.begun[of["guid"]] = of["suggestedFilename"]
        elif what == "Browser.downloadProgress" and of["state"] == "completed":
            self.saved.append(of["guid"])
        elif what == "Log.entryAdded" and of["entry"]["level"] == "error":
            self.exceptions.append(of["entry"]["text"])

    def ask(self, method, seconds=300, **params):
        """The answer to a call of the protocol."""
        self.number += 1
        call = {"id": self.number, "method": method, "params": params}
        if self.session and not method.startswith(("Target.", "Browser.")):
            call["sessionId"] = self.session
        data = json.dumps(call).encode() + b"\0"
        while data:
            data = data[os.write(self.into, data):]
        answer = None
        until = time.monotonic() + seconds
        while answer is None:
            for told in self.messages(until):
                if told.get("id") == self.number:
                    answer = told
                else:
                    self.note(told)
        if "error" in answer:
            raise RuntimeError(f"{method}: {answer['error']}")
        return answer["result"]

    def value(self, script):
        """What an expression of the page gives."""
        told = self.ask("Runtime.evaluate", expression=script, returnByValue=True, awaitPromise=True)
        if "exceptionDetails" in told:
            raise RuntimeError(told["exceptionDetails"])
        return told["result"].get("value")

    def wait(self, script, seconds=300):
        """Waits until an expression of the page is true."""
        until = time.monotonic() + seconds
        while not self.value(script):
            if time.monotonic() > until:
                raise TimeoutError(f"not within {seconds} s: {script}")
            time.sleep(0.02)

    def node(self, selector):
        return self.ask("DOM.querySelector", nodeId=self.ask("DOM.getDocument")["root"]["nodeId"], selector=selector)["nodeId"]

    def choose(self, selector, path):
        """Chooses a file in a field, also the one that was chosen before."""
        self.value(f"void (document.querySelector('{selector}').value = '')")
        self.ask("DOM.setFileInputFiles", nodeId=self.node(selector), files=[path])

    def drop(self, selector, path):
        """Drops a file onto an element."""
        corners = self.ask("DOM.getBoxModel", nodeId=self.node(selector))["model"]["content"]
        x, y = (corners[0] + corners[4]) / 2, (corners[1] + corners[5]) / 2
        data = {"items": [], "files": [path], "dragOperationsMask": 1}
        for kind in ("dragEnter", "dragOver", "drop"):
            self.ask("Input.dispatchDragEvent", type=kind, x=x, y=y, data=data)

    def workers(self, wanted, seconds=30):
        """How many workers there are, once they are as many as wanted or the time is over: one that is ended is there for a while."""
        until = time.monotonic() + seconds
        while True:
            found = sum(it["type"] == "worker" for it in self.ask("Target.getTargets")["targetInfos"])
            if found == wanted or time.monotonic() > until:
                return found
            time.sleep(0.05)

    def downloaded(self, seconds=120):
        """The name and the bytes of the next file that is saved."""
        # (Chromium saves ten files of a page within a second, and passes over the others)
        time.sleep(0.12)
        until = time.monotonic() + seconds
        while not self.saved:
            if time.monotonic() > until:
                raise TimeoutError(f"no file was saved, of {self.begun}")
            # (events come with an answer)
            self.ask("Browser.getVersion")
            time.sleep(0.02)
        number = self.saved.pop(0)
        path = os.path.join(self.downloads, number)
        with open(path, "rb") as file:
            data = file.read()
        os.remove(path)
        return self.begun.pop(number), data

    def point(self, x, y):
        """Moves the mouse to a place of the page."""
        self.ask("Input.dispatchMouseEvent", type="mouseMoved", x=x, y=y)

    def memory(self):
        """Bytes that the processes of this browser hold, without what they share."""
        total = 0
        for name in os.listdir("/proc"):
            try:
                if name.isdigit() and os.getpgid(int(name)) == self.process.pid:
                    with open(f"/proc/{name}/statm", encoding="utf-8") as file:
                        size = list(map(int, file.read().split()))
                        total += (size[1] - size[2]) * 4096
            except (OSError, ProcessLookupError):
                pass
        return total


if __name__ == "__main__":
    sys.exit(0 if program() else 1)
