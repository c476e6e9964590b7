"""A small client of headless Chromium: commands and events over two pipes."""

import base64
import json
import os
import select
import subprocess
import time

PATIENCE = 60  # seconds for one reply


class Chromium:
    """A running browser with one page. Chromium reads from 3 and writes to 4, NUL after each text."""

    def __init__(self, program, profile):
        command_out, self.commands = os.pipe()
        self.replies, reply_in = os.pipe()
        os.set_inheritable(command_out, True)
        os.set_inheritable(reply_in, True)
        options = [
            "--headless=new", "--remote-debugging-pipe", "--no-first-run", "--disable-gpu",
            "--hide-scrollbars", "--force-color-profile=srgb", "--disable-background-networking",
            "--disable-component-update", "--disable-dev-shm-usage", f"--user-data-dir={profile}",
        ]
        if os.getuid() == 0:
            options.append("--no-sandbox")  # the sandbox does not start for root
        # The shell puts the pipes where Chromium looks for them.
        shell = f'exec "$0" "$@" 3<&{command_out} 4>&{reply_in}'
        self.process = subprocess.Popen(
            ["bash", "-c", shell, program, *options, "about:blank"],
            pass_fds=(command_out, reply_in),
            stdin=subprocess.DEVNULL, stdout=subprocess.DEVNULL, stderr=subprocess.DEVNULL,
        )
        os.close(command_out)
        os.close(reply_in)
        self.received = b""
        self.count = 0
        self.events = []
        self.session = None
        targets = self.send("Target.getTargets")["targetInfos"]
        page = next(target for target in targets if target["type"] == "page")
        attached = self.send("Target.attachToTarget", targetId=page["targetId"], flatten=True)
        self.session = attached["sessionId"]
        for domain in ["Page", "Runtime", "Network", "Log"]:
            self.send(f"{domain}.enable")
        self.send("Page.setLifecycleEventsEnabled", enabled=True)

    def close(self):
        try:
            self.session = None
            self.send("Browser.close")
            self.process.wait(timeout=10)
        except (OSError, EOFError, TimeoutError, subprocess.TimeoutExpired):
            self.process.kill()
            self.process.wait()

    def send(self, method, **params):
        """Sends a command and gives its result; events that come in between are kept."""
        self.count += 1
        message = {"id": self.count, "method": method, "params": params}
        if self.session:
            message["sessionId"] = self.session
        os.write(self.commands, json.dumps(message).encode() + b"\0")
        until = time.monotonic() + PATIENCE
        while True:
            reply = self.receive(until)
            if reply.get("id") != self.count:
                self.events.append(reply)
            elif "error" in reply:
                raise RuntimeError(f"{method}: {reply['error']['message']}")
            else:
                return reply["result"]

    def receive(self, until):
        while b"\0" not in self.received:
            ready, _, _ = select.select([self.replies], [], [], max(0, until - time.monotonic()))
            if not ready:
                raise TimeoutError("Chromium does not answer")
            piece = os.read(self.replies, 1 << 16)
            if not piece:
                raise EOFError("Chromium has gone")
            self.received += piece
        text, self.received = self.received.split(b"\0", 1)
        return json.loads(text)

    def open(self, address):
        """Loads a page anew and waits until it is there; keeps only the events of that page."""
        self.load("about:blank")
        self.events.clear()
        self.load(address)

    def load(self, address):
        loader = self.send("Page.navigate", url=address)["loaderId"]
        until = time.monotonic() + PATIENCE
        while not any(event.get("method") == "Page.lifecycleEvent"
                      and event["params"]["loaderId"] == loader
                      and event["params"]["name"] == "load" for event in self.events):
            self.events.append(self.receive(until))

    def value(self, expression, wait=False):
        """What an expression gives in the page, or what its promise does."""
        reply = self.send("Runtime.evaluate", expression=expression, returnByValue=True, awaitPromise=wait)
        if "exceptionDetails" in reply:
            raise RuntimeError(f"{expression}: {reply['exceptionDetails']}")
        return reply["result"].get("value")

    def click(self, selector):
        """Clicks the middle of an element with the mouse, after bringing it into view."""
        quoted = json.dumps(selector)
        self.value(f"document.querySelector({quoted}).scrollIntoView({{block: 'nearest', inline: 'nearest'}})")
        x, y = self.value(
            f"(() => {{ const r = document.querySelector({quoted}).getBoundingClientRect();"
            " return [r.x + r.width / 2, r.y + r.height / 2]; })()")
        for kind in ["mouseMoved", "mousePressed", "mouseReleased"]:
            self.send("Input.dispatchMouseEvent", type=kind, x=x, y=y, clickCount=1,
                      button="none" if kind == "mouseMoved" else "left")

    def press(self, key, code, text=""):
        """Presses a key and lets it go."""
        self.send("Input.dispatchKeyEvent", type="keyDown" if text else "rawKeyDown", key=key,
                  windowsVirtualKeyCode=code, text=text)
        self.send("Input.dispatchKeyEvent", type="keyUp", key=key, windowsVirtualKeyCode=code)

    def window(self, width, height, scheme="light", medium=""):
        self.send("Emulation.setDeviceMetricsOverride", width=width, height=height,
                  deviceScaleFactor=1, mobile=False)
        self.send("Emulation.setEmulatedMedia", media=medium,
                  features=[{"name": "prefers-color-scheme", "value": scheme}])

    def scripts(self, on):
        self.send("Emulation.setScriptExecutionDisabled", value=not on)

    def picture(self, path):
        data = self.send("Page.captureScreenshot", format="png")["data"]
        with open(path, "wb") as file:
            file.write(base64.b64decode(data))

    def pdf(self, path, landscape=False):
        data = self.send("Page.printToPDF", printBackground=True, preferCSSPageSize=True,
                         landscape=landscape, paperWidth=8.27, paperHeight=11.69)["data"]
        with open(path, "wb") as file:
            file.write(base64.b64decode(data))
