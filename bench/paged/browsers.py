"""Drives headless Chromium and Firefox of Debian, with no package: the one by a pair of pipes and its DevTools protocol,
the other by a socket and Marionette. Both have the same methods."""

import base64
import json
import os
import shutil
import socket
import subprocess
import sys
import tempfile
import time
from pathlib import Path

# Keys by name, with their codes in Chromium and their characters in WebDriver
KEYS = {"Tab": (9, "\ue004"), "Enter": (13, "\ue007"), "ArrowRight": (39, "\ue014"), "ArrowLeft": (37, "\ue012"),
        "Home": (36, "\ue011"), "End": (35, "\ue010"), "Space": (32, " ")}
CENTRE = """(() => { const it = document.querySelector(%s); it.scrollIntoView({block: 'center'});
const {left, top, width, height} = it.getBoundingClientRect(); return [left + width / 2, top + height / 2]; })()"""


class Browser:
    """What both have: a profile of its own, and what is done in terms of `run`."""

    def __init__(self):
        self.profile = tempfile.mkdtemp()

    def wait(self, condition, most=60):
        """Waits until an expression of the page holds, and says how long that took."""
        began = time.time()
        while not self.run(condition):
            if time.time() - began > most:
                raise TimeoutError(condition)
            time.sleep(0.05)
        return time.time() - began

    def fill(self, selector, text):
        self.run(f"void (document.querySelector({json.dumps(selector)}).value = {json.dumps(text)})")

    def text(self, selector):
        return self.run(f"document.querySelector({json.dumps(selector)})?.innerText ?? ''")

    def ended(self):
        self.process.terminate()
        self.process.wait(20)
        shutil.rmtree(self.profile, ignore_errors=True)


class Chromium(Browser):
    name = "Chromium"

    def __init__(self):
        super().__init__()
        commands, answers = os.pipe(), os.pipe()
        words = ["chromium", "--headless=new", "--no-sandbox", "--disable-gpu", "--no-first-run"]
        words += ["--disable-dev-shm-usage", f"--user-data-dir={self.profile}", "--remote-debugging-pipe", "about:blank"]

        def ends():
            first, second = os.dup(commands[0]), os.dup(answers[1])
            os.dup2(first, 3), os.dup2(second, 4)

        quiet = {"stdout": subprocess.DEVNULL, "stderr": subprocess.DEVNULL}
        self.process = subprocess.Popen(words, preexec_fn=ends, close_fds=False, **quiet)
        os.close(commands[0]), os.close(answers[1])
        self.out, self.into, self.number, self.rest = commands[1], answers[0], 0, b""
        self.session, self.events = None, []
        target = next(it for it in self.ask("Target.getTargets")["targetInfos"] if it["type"] == "page")
        self.session = self.ask("Target.attachToTarget", targetId=target["targetId"], flatten=True)["sessionId"]
        for it in ("Page", "Runtime", "Log"):
            self.ask(f"{it}.enable")

    def hear(self):
        while b"\0" not in self.rest:
            self.rest += os.read(self.into, 1 << 20)
        message, self.rest = self.rest.split(b"\0", 1)
        return json.loads(message)

    def ask(self, method, **params):
        self.number += 1
        message = {"id": self.number, "method": method, "params": params}
        if self.session:
            message["sessionId"] = self.session
        os.write(self.out, json.dumps(message).encode() + b"\0") if len(str(message)) < 60000 else self.write(message)
        while (answer := self.hear()).get("id") != self.number:
            self.events.append(answer)
        if "error" in answer:
            raise RuntimeError(answer["error"])
        return answer["result"]

    def write(self, message):
        data = json.dumps(message).encode() + b"\0"
        while data:
            data = data[os.write(self.out, data):]

    def open(self, url):
        self.ask("Page.navigate", url=url)
        self.wait("document.readyState === 'complete'")

    def run(self, code):
        """The value of an expression of the page, or that of its promise."""
        got = self.ask("Runtime.evaluate", expression=code, awaitPromise=True, returnByValue=True)
        if "exceptionDetails" in got:
            raise RuntimeError(got["exceptionDetails"])
        return got["result"].get("value")

    def key(self, name, ctrl=False):
        code, text = KEYS[name]
        words = {"key": " " if name == "Space" else name, "code": name, "windowsVirtualKeyCode": code, "modifiers": 2 * ctrl}
        typed = {"text": "\r" if name == "Enter" else " "} if name in ("Enter", "Space") else {}
        self.ask("Input.dispatchKeyEvent", type="keyDown", **words, **typed)
        self.ask("Input.dispatchKeyEvent", type="keyUp", **words)

    def click(self, selector):
        x, y = self.run(CENTRE % json.dumps(selector))
        for it in ("mousePressed", "mouseReleased"):
            self.ask("Input.dispatchMouseEvent", type=it, x=x, y=y, button="left", clickCount=1)

    def look(self, width, dark):
        self.ask("Emulation.setDeviceMetricsOverride", width=width, height=900, deviceScaleFactor=1, mobile=False)
        feature = {"name": "prefers-color-scheme", "value": "dark" if dark else "light"}
        self.ask("Emulation.setEmulatedMedia", features=[feature])

    def shot(self, file, height=8000, scale=1):
        size = self.ask("Page.getLayoutMetrics")["cssContentSize"]
        clip = {**size, "height": min(size["height"], height), "scale": scale}
        data = self.ask("Page.captureScreenshot", format="png", captureBeyondViewport=True, clip=clip)["data"]
        Path(file).write_bytes(base64.b64decode(data))

    def attach(self, selector, *files):
        node = self.ask("DOM.getDocument")["root"]["nodeId"]
        found = self.ask("DOM.querySelector", nodeId=node, selector=selector)["nodeId"]
        self.ask("DOM.setFileInputFiles", nodeId=found, files=[str(it) for it in files])

    def complaints(self):
        """What the browser wrote into its console of its own: errors, and breaches of the page's policy."""
        self.run("0")
        told = ("Log.entryAdded", "Runtime.exceptionThrown")
        return [str(it["params"]) for it in self.events if it.get("method") in told]

    def close(self):
        try:
            self.ask("Browser.close")
        except OSError:
            pass
        self.ended()


class Firefox(Browser):
    name = "Firefox"

    def __init__(self, preferences=None):
        super().__init__()
        told = {"marionette.port": 0, "browser.shell.checkDefaultBrowser": False, "browser.aboutwelcome.enabled": False,
                "datareporting.policy.dataSubmissionEnabled": False, "network.captive-portal-service.enabled": False,
                "network.connectivity-service.enabled": False, "app.update.enabled": False,
                "browser.startup.homepage_override.mstone": "ignore", **(preferences or {})}
        lines = [f"user_pref({json.dumps(name)}, {json.dumps(value)});\n" for name, value in told.items()]
        Path(self.profile, "user.js").write_text("".join(lines))
        words = ["firefox-esr", "--headless", "--marionette", "--remote-allow-system-access", "--no-remote"]
        words += ["--profile", self.profile, "about:blank"]
        quiet = {"stdout": subprocess.DEVNULL, "stderr": subprocess.DEVNULL}
        self.process = subprocess.Popen(words, env={**os.environ, "HOME": self.profile}, **quiet)
        port = Path(self.profile, "MarionetteActivePort")
        for _ in range(600):
            if port.exists() and port.read_text().strip():
                break
            time.sleep(0.1)
        self.socket, self.number = socket.create_connection(("127.0.0.1", int(port.read_text()))), 0
        self.rest = b""
        self.hear()
        self.ask("WebDriver:NewSession", acceptInsecureCerts=True)
        self.ask("WebDriver:SetTimeouts", script=600000, pageLoad=60000)

    def hear(self):
        while b":" not in self.rest:
            self.rest += self.more()
        size, self.rest = self.rest.split(b":", 1)
        while len(self.rest) < int(size):
            self.rest += self.more()
        message, self.rest = self.rest[: int(size)], self.rest[int(size):]
        return json.loads(message)

    def more(self):
        return self.socket.recv(1 << 20) or (_ for _ in ()).throw(ConnectionError("Firefox ended"))

    def ask(self, command, **params):
        self.number += 1
        message = json.dumps([0, self.number, command, params]).encode()
        self.socket.sendall(b"%d:%s" % (len(message), message))
        _, _, error, result = self.hear()
        if error:
            raise RuntimeError(error)
        return result

    def open(self, url):
        self.ask("WebDriver:Navigate", url=url)

    def run(self, code):
        script = (
            "const done = arguments[arguments.length - 1];"
            f"Promise.resolve().then(() => ({code})).then(it => done([it]), no => done([null, String(no)]));"
        )
        told = {"script": script, "args": [], "sandbox": None, "newSandbox": False}
        value, *wrong = self.ask("WebDriver:ExecuteAsyncScript", **told)["value"]
        if wrong:
            raise RuntimeError(wrong)
        return value

    def act(self, kind, actions, **more):
        self.ask("WebDriver:PerformActions", actions=[{"type": kind, "id": kind, "actions": actions, **more}])

    def key(self, name, ctrl=False):
        keys = ["\ue009"] * ctrl + [KEYS[name][1]]
        self.act("key", [{"type": it, "value": key} for it in ("keyDown", "keyUp") for key in keys])

    def click(self, selector):
        x, y = (int(it) for it in self.run(CENTRE % json.dumps(selector)))
        moves = [{"type": "pointerMove", "x": x, "y": y}]
        moves += [{"type": it, "button": 0} for it in ("pointerDown", "pointerUp")]
        self.act("pointer", moves, parameters={"pointerType": "mouse"})

    def look(self, width, dark):
        self.ask("Marionette:SetContext", value="chrome")
        scheme = f"Services.prefs.setIntPref('layout.css.prefers-color-scheme.content-override', {0 if dark else 1})"
        self.ask("WebDriver:ExecuteScript", script=scheme, args=[])
        self.ask("Marionette:SetContext", value="content")
        self.ask("WebDriver:SetWindowRect", width=width, height=900)

    def shot(self, file):
        data = self.ask("WebDriver:TakeScreenshot", full=True)["value"]
        Path(file).write_bytes(base64.b64decode(data))

    def attach(self, selector, *files):
        found = self.ask("WebDriver:FindElement", using="css selector", value=selector)["value"]
        self.ask("WebDriver:ElementSendKeys", id=next(iter(found.values())), text="\n".join(str(it) for it in files))

    def complaints(self):
        return []

    def close(self):
        self.socket.close()
        self.ended()


def needs(program):
    return lambda: None if shutil.which(program) else program


NEEDS = {"Chromium": needs("chromium"), "Firefox": needs("firefox-esr")}
PAGE = Path(os.environ.get("PAGE") or Path(__file__).resolve().parents[2] / "dist/guidecerise.html").resolve()

