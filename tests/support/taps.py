"""A headless browser whose tabs are phones: 360 pixels wide, with scripts off, by taps or by keys. It is driven by its own protocol (Chrome DevTools
Protocol) through a pipe, so that no package is needed.
"""
import itertools
import json
import os
import queue
import shutil
import signal
import subprocess
import threading
import time

from tests.support.waiting import PATIENCE

WIDTH, HEIGHT = 360, 640
# why a page gives way to the next one if somebody has tapped, and not because it loads itself again
TAPPED = ("anchorClick", "formSubmissionGet", "formSubmissionPost")


class Browser:
    def __init__(self, program, room):
        self.profile = f"{room}/browser"
        to_browser, self.to_browser = os.pipe()
        self.from_browser, from_browser = os.pipe()
        words = [
            program,
            "--headless",
            "--no-sandbox",
            "--disable-gpu",
            "--hide-scrollbars",
            f"--user-data-dir={self.profile}",
            "--remote-debugging-pipe",
            "about:blank",
        ]
        # the browser reads at 3 and writes at 4; other shells know no number of two digits
        line = ["bash", "-c", f'exec "$@" 3<&{to_browser} 4>&{from_browser}', "bash", *words]
        self.process = subprocess.Popen(
            line,
            stdin=subprocess.DEVNULL,
            stdout=subprocess.DEVNULL,
            stderr=subprocess.DEVNULL,
            pass_fds=(to_browser, from_browser),
            start_new_session=True,
        )
        os.close(to_browser)
        os.close(from_browser)
        self.numbers, self.lock = itertools.count(1), threading.Lock()
        self.answers, self.events = {}, {}
        threading.Thread(target=self.listen, daemon=True).start()

    def __enter__(self):
        return self

    def __exit__(self, *_):
        os.killpg(self.process.pid, signal.SIGKILL)
        self.process.wait()
        os.close(self.to_browser)
        # what it began goes on for a moment, and may still write there
        begun = time.monotonic()
        while os.path.isdir(self.profile) and time.monotonic() < begun + PATIENCE:
            shutil.rmtree(self.profile, ignore_errors=True)

    def listen(self):
        kept = b""
        while True:
            more = os.read(self.from_browser, 1 << 20)
            if not more:
                return
            *whole, kept = (kept + more).split(b"\0")
            for message in map(json.loads, whole):
                if "id" in message:
                    self.answers[message["id"]].put(message)
                elif message.get("sessionId") in self.events:
                    self.events[message["sessionId"]].put(message)

    def send(self, method, session=None, **words):
        number = next(self.numbers)
        answer = self.answers[number] = queue.Queue()
        message = {
            "id": number,
            "method": method,
            "params": words,
            **({"sessionId": session} if session else {}),
        }
        with self.lock:
            os.write(self.to_browser, json.dumps(message).encode() + b"\0")
        told = answer.get(timeout=PATIENCE)
        del self.answers[number]
        if "error" in told:
            raise OSError(f"{method}: {told['error']}")
        return told["result"]


class Phone:
    """A tab."""

    def __init__(self, browser, width=WIDTH, height=HEIGHT, is_dark=False, language="en"):
        self.browser = browser
        target = browser.send("Target.createTarget", url="about:blank", newWindow=True)["targetId"]
        self.session = browser.send("Target.attachToTarget", targetId=target, flatten=True)["sessionId"]
        self.events = browser.events[self.session] = queue.Queue()
        self.send("Page.enable")
        self.send("Page.setLifecycleEventsEnabled", enabled=True)
        self.send(
            "Emulation.setDeviceMetricsOverride", width=width, height=height, deviceScaleFactor=1, mobile=True
        )
        self.send("Emulation.setTouchEmulationEnabled", enabled=True)
        self.send("Emulation.setScriptExecutionDisabled", value=True)
        self.send(
            "Emulation.setEmulatedMedia",
            features=[{"name": "prefers-color-scheme", "value": "dark" if is_dark else "light"}],
        )
        self.send("Network.enable")
        self.send("Network.setExtraHTTPHeaders", headers={"Accept-Language": language})

    def send(self, method, **words):
        return self.browser.send(method, self.session, **words)

    def passed(self, is_it):
        """Waits for this event."""
        while not is_it(self.events.get(timeout=PATIENCE)):
            pass

    def loaded(self):
        """Waits until the page is there that was tapped for. A page that loads itself again meanwhile is another one."""
        self.passed(
            lambda it: it["method"] == "Page.frameRequestedNavigation" and it["params"]["reason"] in TAPPED
        )
        self.passed(lambda it: it["method"] == "Page.loadEventFired")

    def go(self, url):
        loader = self.send("Page.navigate", url=url)["loaderId"]
        whole = {"name": "load", "loaderId": loader}
        self.passed(
            lambda it: it["method"] == "Page.lifecycleEvent" and whole.items() <= it["params"].items()
        )

    def value(self, expression):
        told = self.send("Runtime.evaluate", expression=expression, returnByValue=True)
        if "exceptionDetails" in told:
            raise ValueError(f"{expression}: {told['exceptionDetails']}")
        return told["result"].get("value")

    def text(self):
        return self.value("document.querySelector('main').innerText")

    def tap(self, what, leads_on=True):
        """Taps in the middle of what a selector finds first."""
        quoted = json.dumps(what)
        self.value(f"document.querySelector({quoted}).scrollIntoView({{block: 'center'}})")
        x, y = self.value(
            f"(() => {{ const it = document.querySelector({quoted}).getBoundingClientRect(); return [it.x + it.width / 2, it.y + it.height / 2]; }})()"
        )
        while not self.events.empty():
            self.events.get()
        self.send("Input.dispatchTouchEvent", type="touchStart", touchPoints=[{"x": x, "y": y}])
        self.send("Input.dispatchTouchEvent", type="touchEnd", touchPoints=[])
        if leads_on:
            self.loaded()

    def key(self, name, code, text="", leads_on=False):
        while leads_on and not self.events.empty():
            self.events.get()
        words = {"key": name, "code": name, "windowsVirtualKeyCode": code}
        self.send("Input.dispatchKeyEvent", type="keyDown", **words, **({"text": text} if text else {}))
        self.send("Input.dispatchKeyEvent", type="keyUp", **words)
        if leads_on:
            self.loaded()
