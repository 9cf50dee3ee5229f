"""A headless Chromium for page_seen.py: pages are opened in it, clicked and looked at, over the pipes of
its remote debugging, so that nothing but Python's standard library is needed."""
import base64
import json
import os
import pathlib
import subprocess
import tempfile
import time

PROGRAMS = ("chromium", "chromium-browser", "google-chrome")


class Browser:
    def __init__(self, program):
        to_browser, self.out = os.pipe()
        self.into, from_browser = os.pipe()
        ends = os.dup(to_browser), os.dup(from_browser)     # not 3 and 4 themselves

        def give():
            os.dup2(ends[0], 3)
            os.dup2(ends[1], 4)

        self.home = tempfile.TemporaryDirectory()
        words = [program, "--headless", "--no-sandbox", "--disable-gpu", "--remote-debugging-pipe",
                 "--user-data-dir=" + self.home.name, "--hide-scrollbars", "about:blank"]
        self.process = subprocess.Popen(words, preexec_fn=give, close_fds=False,
                                        stdin=subprocess.DEVNULL, stderr=subprocess.DEVNULL)
        for end in (to_browser, from_browser, *ends):
            os.close(end)
        self.rest, self.number, self.session, self.faults = b"", 0, None, []
        target = self.call("Target.createTarget", url="about:blank")["targetId"]
        self.session = self.call("Target.attachToTarget", targetId=target, flatten=True)["sessionId"]
        for domain in ("Page", "Runtime"):
            self.call(domain + ".enable")

    def call(self, method, **words):
        self.number += 1
        message = {"id": self.number, "method": method, "params": words}
        if self.session:
            message["sessionId"] = self.session
        os.write(self.out, json.dumps(message).encode() + b"\0")
        while True:
            answer = self.message()
            if answer.get("id") == self.number:
                if "error" in answer:
                    raise RuntimeError("%s: %s" % (method, answer["error"]))
                return answer["result"]
            if answer.get("method") in ("Runtime.exceptionThrown", "Page.javascriptDialogOpening"):
                self.faults.append(json.dumps(answer["params"])[:500])

    def message(self):
        while b"\0" not in self.rest:
            read = os.read(self.into, 1 << 16)
            if not read:
                raise RuntimeError("the browser ended")
            self.rest += read
        text, _, self.rest = self.rest.partition(b"\0")
        return json.loads(text)

    def size(self, width, height):
        self.call("Emulation.setDeviceMetricsOverride", width=width, height=height, deviceScaleFactor=1,
                  mobile=False)

    def open(self, path):
        url = pathlib.Path(path).absolute().as_uri()
        self.call("Page.navigate", url=url)
        for _ in range(200):
            if self.ask("document.readyState === 'complete' && location.href") == url:
                return
            time.sleep(0.05)
        raise RuntimeError("the page didn't load: " + path)

    def ask(self, script):
        """The value of a script in the page."""
        result = self.call("Runtime.evaluate", expression=script, returnByValue=True)
        if "exceptionDetails" in result:
            self.faults.append(json.dumps(result["exceptionDetails"])[:500])
        return result["result"].get("value")

    def click(self, x, y, keys=0):
        for kind in ("mousePressed", "mouseReleased"):
            self.call("Input.dispatchMouseEvent", type=kind, x=x, y=y, button="left", clickCount=1,
                      modifiers=keys)

    def drag(self, start, end, y):
        self.call("Input.dispatchMouseEvent", type="mousePressed", x=start, y=y, button="left", clickCount=1)
        for x in (start + (end - start) / 2, end):
            self.call("Input.dispatchMouseEvent", type="mouseMoved", x=x, y=y, button="left", buttons=1)
        self.call("Input.dispatchMouseEvent", type="mouseReleased", x=end, y=y, button="left", clickCount=1)

    def wheel(self, x, y, by):
        self.call("Input.dispatchMouseEvent", type="mouseWheel", x=x, y=y, deltaX=0, deltaY=by)

    def picture(self, path):
        with open(path, "wb") as file:
            file.write(base64.b64decode(self.call("Page.captureScreenshot")["data"]))

    def close(self):
        self.process.kill()
        self.process.wait()
        self.home.cleanup()
