"""For the test: headless Chromium, spoken to by its debugging protocol over two pipes."""
import base64
import json
import os
import shutil
import subprocess
import tempfile
import time

KEYS = {" ": 32, "End": 35, "Home": 36, "ArrowLeft": 37, "ArrowRight": 39, "Tab": 9}


class Browser:
    def __init__(self, program):
        self.profile = tempfile.mkdtemp()
        (theirs_in, self.out), (self.inward, theirs_out) = os.pipe(), os.pipe()

        def hand_over():
            ends = os.dup(theirs_in), os.dup(theirs_out)
            os.dup2(ends[0], 3)
            os.dup2(ends[1], 4)

        options = ["--headless=new", "--disable-gpu", "--hide-scrollbars", "--remote-debugging-pipe", "--user-data-dir=" + self.profile]
        if os.getuid() == 0:
            options.append("--no-sandbox")
        self.process = subprocess.Popen([program, *options], preexec_fn=hand_over, close_fds=False, stderr=subprocess.DEVNULL)
        self.buffer, self.count, self.session, self.events = b"", 0, None, []
        target = self.call("Target.createTarget", url="about:blank")["targetId"]
        self.session = self.call("Target.attachToTarget", targetId=target, flatten=True)["sessionId"]
        for domain in ("Page", "Runtime", "Log", "Network"):
            self.call(domain + ".enable")
        # nothing moves by itself, so that what is seen is what is shown
        self.call("Emulation.setEmulatedMedia", features=[{"name": "prefers-reduced-motion", "value": "reduce"}])
        with open(os.path.join(os.path.dirname(os.path.abspath(__file__)), "record.js")) as script:
            self.call("Page.addScriptToEvaluateOnNewDocument", source=script.read())

    def receive(self):
        while b"\0" not in self.buffer:
            piece = os.read(self.inward, 1 << 20)
            if not piece:
                raise SystemExit("the browser has ended")
            self.buffer += piece
        message, _, self.buffer = self.buffer.partition(b"\0")
        return json.loads(message)

    def call(self, method, **params):
        self.count += 1
        message = {"id": self.count, "method": method, "params": params}
        if self.session:
            message["sessionId"] = self.session
        os.write(self.out, json.dumps(message).encode() + b"\0")
        while True:
            answer = self.receive()
            if answer.get("id") == self.count:
                if "error" in answer:
                    raise SystemExit(f"{method}: {answer['error']}")
                return answer["result"]
            self.events.append(answer)

    def open(self, path):
        """Opens a page, and tells how many seconds it took until it stood there."""
        self.events = []
        start = time.monotonic()
        self.call("Page.navigate", url="file://" + path)
        while not any(e.get("method") == "Page.loadEventFired" for e in self.events):
            self.events.append(self.receive())
        self.run("new Promise(done => requestAnimationFrame(() => requestAnimationFrame(done)))")
        return time.monotonic() - start

    def run(self, script):
        answer = self.call("Runtime.evaluate", expression=script, returnByValue=True, awaitPromise=True)
        if "exceptionDetails" in answer:
            raise SystemExit(f"{script[:60]}: {answer['exceptionDetails']}")
        return answer["result"].get("value")

    def text(self, element):
        return self.run(f"document.getElementById('{element}').textContent")

    def key(self, key, modifiers=0):
        names = {"key": key, "code": "Space" if key == " " else key, "windowsVirtualKeyCode": KEYS[key], "modifiers": modifiers}
        self.call("Input.dispatchKeyEvent", type="keyDown", text=key if key == " " else "", **names)
        self.call("Input.dispatchKeyEvent", type="keyUp", **names)

    def click(self, selector, across=0.5, down=0.5):
        """A press of the mouse at a place in an element, in shares of its width and height."""
        self.run(f"document.querySelector('{selector}').scrollIntoView({{ block: 'center' }})")
        box = self.run(f"document.querySelector('{selector}').getBoundingClientRect().toJSON()")
        spot = {"x": box["x"] + box["width"] * across, "y": box["y"] + box["height"] * down, "button": "left", "clickCount": 1}
        self.call("Input.dispatchMouseEvent", type="mousePressed", **spot)
        self.call("Input.dispatchMouseEvent", type="mouseReleased", **spot)
        self.run("new Promise(done => setTimeout(done, 20))")

    def point(self, x, y):
        self.call("Input.dispatchMouseEvent", type="mouseMoved", x=x, y=y)

    def complaints(self, path):
        """Errors and warnings of the console, dialogs, and whatever was asked of anything but the page itself."""
        found = []
        for event in self.events:
            method, params = event.get("method"), event.get("params", {})
            if "willReadFrequently" in json.dumps(params):  # what the test does itself, when it looks at pixels
                continue
            if method in ("Runtime.exceptionThrown", "Page.javascriptDialogOpening"):
                found.append(str(params)[:300])
            elif method == "Runtime.consoleAPICalled" and params["type"] in ("error", "warning", "assert"):
                found.append(str(params["args"])[:300])
            elif method == "Log.entryAdded" and params["entry"]["level"] in ("error", "warning"):
                found.append(params["entry"]["text"])
            elif method == "Network.requestWillBeSent" and params["request"]["url"] not in ("file://" + path, "data:,"):
                found.append("asked for " + params["request"]["url"])
        return found

    def window(self, metrics, height=None):
        self.call("Emulation.setDeviceMetricsOverride", **{**metrics, "height": height or metrics["height"]})
        time.sleep(0.3)

    def picture(self, path):
        data = self.call("Page.captureScreenshot", format="png")["data"]
        with open(path, "wb") as file:
            file.write(base64.b64decode(data))

    def end(self):
        self.process.kill()
        self.process.wait()
        shutil.rmtree(self.profile, ignore_errors=True)
