"""A browser without a window, driven over the pipe of Chromium's DevTools protocol, and the pixels of its pictures."""

import base64
import json
import os
import select
import shutil
import struct
import subprocess
import tempfile
import time
import zlib

NAMES = ("chromium", "chromium-browser", "google-chrome", "google-chrome-stable")

# What the browser may take to answer.
SECONDS = 60

WORDS = ("--headless=new", "--no-sandbox", "--disable-gpu", "--disable-dev-shm-usage", "--hide-scrollbars",
         "--no-first-run", "--disable-background-networking", "--disable-extensions", "--remote-debugging-pipe")


def installed():
    """The browser of this machine, None where there is none."""
    return next(filter(None, map(shutil.which, NAMES)), None)


class Browser:
    """One browser with one page. `problems` has what the page said on its console, and what it threw."""

    def __init__(self, program):
        self.folder = tempfile.TemporaryDirectory(ignore_cleanup_errors=True)
        to_read, self.out = os.pipe()
        self.answers, to_write = os.pipe()

        # The browser reads what it is asked from the file of number 3, and answers on that of number 4.
        def prepare():
            high = [os.dup(to_read), os.dup(to_write)]
            os.dup2(high[0], 3)
            os.dup2(high[1], 4)

        self.process = subprocess.Popen(
            [program, *WORDS, f"--user-data-dir={self.folder.name}", "about:blank"], stdin=subprocess.DEVNULL,
            stdout=subprocess.DEVNULL, stderr=subprocess.DEVNULL, close_fds=False, preexec_fn=prepare)
        os.close(to_read)
        os.close(to_write)
        self.asked = 0
        self.rest = b""
        self.session = None
        self.problems = []
        self.requests = []
        self.attach()

    def __enter__(self):
        return self

    def __exit__(self, *_):
        try:
            self.ask("Browser.close")
        except (OSError, TimeoutError):
            self.process.kill()
        self.process.wait(SECONDS)
        os.close(self.out)
        os.close(self.answers)
        self.folder.cleanup()

    def attach(self):
        pages = self.ask("Target.getTargets")["targetInfos"]
        page = next(info["targetId"] for info in pages if info["type"] == "page")
        self.session = self.ask("Target.attachToTarget", targetId=page, flatten=True)["sessionId"]
        for domain in ("Page", "Runtime", "Log", "Network"):
            self.ask(f"{domain}.enable")

    def ask(self, method, **values):
        """Calls a method, and answers its result."""
        self.asked += 1
        message = {"id": self.asked, "method": method, "params": values}
        if self.session and not method.startswith(("Target.", "Browser.")):
            message["sessionId"] = self.session
        os.write(self.out, json.dumps(message).encode() + b"\0")
        return self.until(lambda told: told.get("id") == self.asked, method)

    def until(self, is_wanted, what):
        """Reads what the browser tells until this comes, and answers it."""
        end = time.monotonic() + SECONDS
        while True:
            told = self.read(end, what)
            self.note(told)
            if is_wanted(told):
                if "error" in told:
                    raise OSError(f"{what}: {told['error']['message']}")
                return told.get("result", told.get("params"))

    def read(self, end, what):
        while b"\0" not in self.rest:
            if not select.select([self.answers], [], [], max(end - time.monotonic(), 0))[0]:
                raise TimeoutError(f"no answer to {what} after {SECONDS} seconds")
            part = os.read(self.answers, 1 << 20)
            if not part:
                raise OSError(f"the browser ended before it answered {what}")
            self.rest += part
        told, _, self.rest = self.rest.partition(b"\0")
        return json.loads(told)

    def note(self, told):
        method, values = told.get("method"), told.get("params", {})
        if method == "Runtime.exceptionThrown":
            details = values["exceptionDetails"]
            self.problems.append(details.get("exception", {}).get("description", details["text"]))
        elif method == "Runtime.consoleAPICalled":
            self.problems.append(f"console.{values['type']}: {values['args']}")
        elif method == "Log.entryAdded":
            self.problems.append(values["entry"]["text"])
        elif method == "Network.requestWillBeSent":
            self.requests.append(values["request"]["url"])

    def resize(self, width, height, is_phone=False):
        self.ask("Emulation.setDeviceMetricsOverride", width=width, height=height,
                 deviceScaleFactor=2 if is_phone else 1, mobile=is_phone)

    def prefer(self, scheme, motion="no-preference"):
        """Prefers light or dark pages, and much motion or little."""
        wishes = {"prefers-color-scheme": scheme, "prefers-reduced-motion": motion}
        self.ask("Emulation.setEmulatedMedia", features=[{"name": name, "value": wishes[name]} for name in wishes])

    def open(self, address):
        """Opens a page, and waits until it is loaded."""
        self.ask("Page.navigate", url="about:blank")
        self.problems.clear()
        self.requests.clear()
        self.ask("Page.navigate", url=address)
        self.until(lambda told: told.get("method") == "Page.loadEventFired", address)
        self.settle()

    def settle(self):
        """Waits until two frames are drawn."""
        self.value("new Promise(end => requestAnimationFrame(() => requestAnimationFrame(() => end(true))))")

    def value(self, script):
        """What a script in the page answers."""
        found = self.ask("Runtime.evaluate", expression=script, returnByValue=True, awaitPromise=True)
        if "exceptionDetails" in found:
            raise OSError(f"{script}: {found['exceptionDetails']}")
        return found["result"].get("value")

    def press(self, key, code=None):
        text = {"text": "\r" if key == "Enter" else key} if len(key) == 1 or key == "Enter" else {}
        self.ask("Input.dispatchKeyEvent", type="keyDown", key=key, code=code or key, **text)
        self.ask("Input.dispatchKeyEvent", type="keyUp", key=key, code=code or key)
        self.settle()

    def tab(self):
        """Goes on to the next control."""
        self.control("Tab", 9)

    def enter(self):
        """Presses the control that has the focus."""
        self.control("Enter", 13, text="\r")

    def control(self, key, number, **text):
        """Presses a key by which a browser itself acts. It knows it by its number."""
        for kind, more in (("keyDown", text), ("keyUp", {})):
            self.ask("Input.dispatchKeyEvent", type=kind, key=key, code=key, windowsVirtualKeyCode=number, **more)
        self.settle()

    def mouse(self, kind, x, y, **values):
        self.ask("Input.dispatchMouseEvent", type=kind, x=x, y=y, **values)

    def click(self, x, y):
        for kind in ("mousePressed", "mouseReleased"):
            self.mouse(kind, x, y, button="left", clickCount=1)
        self.settle()

    def click_on(self, place):
        """Clicks on the element of this selector, which is brought into sight."""
        found = f"document.querySelector({json.dumps(place)})"
        self.value(f"{found}.scrollIntoView({{ block: 'nearest' }})")
        self.click(*self.value(
            f"(box => [box.left + box.width / 2, box.top + box.height / 2])({found}.getBoundingClientRect())"))

    def choose(self, place, files):
        """Chooses files in the field of this selector."""
        root = self.ask("DOM.getDocument")["root"]["nodeId"]
        node = self.ask("DOM.querySelector", nodeId=root, selector=place)["nodeId"]
        self.ask("DOM.setFileInputFiles", nodeId=node, files=list(map(str, files)))
        self.settle()

    def drop(self, files, x, y):
        """Drops files, or folders, on a point of the page."""
        data = {"items": [], "files": list(map(str, files)), "dragOperationsMask": 1}
        for kind in ("dragEnter", "dragOver", "drop"):
            self.ask("Input.dispatchDragEvent", type=kind, x=x, y=y, data=data)
        self.settle()

    def png(self):
        self.settle()
        return base64.b64decode(self.ask("Page.captureScreenshot", format="png")["data"])

    def picture(self):
        return Picture(self.png())


class Picture:
    """The pixels of a PNG as the browser makes it, of 8 bits a part and not interlaced."""

    def __init__(self, png):
        self.width, self.height, _, kind, *_ = struct.unpack(">IIBBBBB", png[16:29])
        self.parts = {2: 3, 6: 4}[kind]
        self.rows = unfiltered(zlib.decompress(pixel_data(png)), self.width * self.parts, self.parts)

    def at(self, x, y):
        """The colour of a pixel as '#rrggbb'."""
        begin = round(x) * self.parts
        return "#" + self.rows[round(y)][begin:begin + 3].hex()


def pixel_data(png):
    place, data = 8, b""
    while place < len(png):
        length, kind = struct.unpack(">I4s", png[place:place + 8])
        if kind == b"IDAT":
            data += png[place + 8:place + 8 + length]
        place += length + 12
    return data


def unfiltered(data, length, parts):
    rows, before = [], bytearray(length)
    for place in range(0, len(data), length + 1):
        before = unfiltered_row(data[place], bytearray(data[place + 1:place + 1 + length]), before, parts)
        rows.append(before)
    return rows


def unfiltered_row(kind, row, above, parts):
    """A row of bytes by the five filters of the format: none, left, above, their mean, and Paeth's."""
    if kind == 2:
        return bytearray((one + other) & 255 for one, other in zip(row, above))
    for at in range(len(row) if kind else 0):
        left = row[at - parts] if at >= parts else 0
        corner = above[at - parts] if at >= parts else 0
        guess = {1: left, 3: (left + above[at]) >> 1, 4: paeth(left, above[at], corner)}[kind]
        row[at] = (row[at] + guess) & 255
    return row


def paeth(left, above, corner):
    guess = left + above - corner
    return min((left, above, corner), key=lambda part: abs(guess - part))
