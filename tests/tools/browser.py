"""Drives a headless Chromium over a pipe, with the DevTools protocol: opens pages, evaluates, clicks, types and takes
pictures. WebDriver has no timed touches, no composed characters, and no browser that is killed and opened again.
Browser, page and pipe know each other, so this is one module of more than 400 lines.
"""

import base64
import json
import os
import select
import statistics
import subprocess
import tempfile
import time
from collections.abc import Iterator, Sequence
from contextlib import contextmanager
from dataclasses import dataclass
from pathlib import Path
from typing import IO, Any

FLAGS = (
    "--headless=new",
    "--no-sandbox",
    "--disable-gpu",
    "--hide-scrollbars",
    "--no-first-run",
    "--disable-extensions",
    "--disable-background-networking",
    "--host-resolver-rules=MAP * ~NOTFOUND, EXCLUDE 127.0.0.1",
    "--force-device-scale-factor=1",
)

# The numbers of keys that do something in a page.
NUMBERS = {"Backspace": 8, "Tab": 9, "Enter": 13, " ": 32, "ArrowUp": 38, "ArrowDown": 40, "Delete": 46}

# What a test sees of a page by its elements.
SEEN = Path(__file__).with_name("seen.js").read_text()

# Seconds that a wait takes at most. They are many, since a wait ends when what it waits for is there.
PATIENCE = 120

# What the browser traces, so that it is known how long tasks take, and the threads of a page and of its workers.
TRACED = {"includedCategories": ["disabled-by-default-devtools.timeline"], "excludedCategories": ["*"]}
TASK, MAIN_THREAD, WORKER_THREAD = "RunTask", "CrRendererMain", "DedicatedWorker thread"

# A piece of a page's work, and the milliseconds of a processor that it takes on the machine for which limits of such milliseconds are given.
PIECE = """
(() => {
  const box = document.body.appendChild(document.createElement('div'));
  for (let at = 0; at < 3000; at++) box.appendChild(document.createElement('span')).textContent = `row ${at}`;
  const height = box.offsetHeight;
  box.remove();
  return height + JSON.stringify(Array.from({ length: 20000 }, (_, at) => ({ at, text: `row ${at}` }))).length;
})()
"""
PIECE_MS = 20

# Seconds that a page whose test failed has to show itself once more.
LAST_PATIENCE = 20


class Tasks(list[float]):
    """The milliseconds that each task of pages' own threads took of a processor. `workers` has those of the tasks of their workers."""

    def __init__(self) -> None:
        super().__init__()
        self.workers: list[float] = []

    def take(self, traced: list[dict[str, Any]]) -> None:
        """Takes what the browser traced."""
        named = {(it["pid"], it["tid"]): it["args"]["name"] for it in traced if it["name"] == "thread_name"}
        for it in traced:
            if it["name"] == TASK and "tdur" in it:
                thread, ms = named.get((it["pid"], it["tid"])), it["tdur"] / 1000
                if thread == MAIN_THREAD:
                    self.append(ms)
                elif thread == WORKER_THREAD:
                    self.workers.append(ms)


class Pipe:
    """The pipe to a browser: what it is asked, and what it tells."""

    def __init__(self, to_browser: int, from_browser: int, errors: IO[bytes]) -> None:
        self._to = to_browser
        self._from = from_browser
        self._errors = errors
        self._rest = b""
        self._asked = 0
        # The pages that are open, and the seconds for which a browser may say nothing while something is asked.
        self.pages: list[Page] = []
        self.limit = 3 * PATIENCE
        # The files that pages began to save, by the browser's names for the downloads: their own names, and which of them are whole.
        self.begun: dict[str, str] = {}
        self.whole: set[str] = set()

    def send(self, message: dict[str, Any]) -> int:
        """Asks something, and gives the number by which the answer will be known."""
        self._asked += 1
        rest = json.dumps({"id": self._asked, **message}).encode() + b"\0"
        try:
            while rest:
                rest = rest[os.write(self._to, rest) :]
        except BrokenPipeError as error:
            raise RuntimeError(f"the browser ended; it said: {self._said()}") from error
        return self._asked

    def receive(self) -> dict[str, Any]:
        """Returns the next thing that is told."""
        while b"\0" not in self._rest:
            if not select.select([self._from], [], [], self.limit)[0]:
                raise RuntimeError(f"the browser says nothing for {self.limit} seconds")
            more = os.read(self._from, 1 << 20)
            if not more:
                raise RuntimeError(f"the browser ended; it said: {self._said()}")
            self._rest += more
        message, _, self._rest = self._rest.partition(b"\0")
        told: dict[str, Any] = json.loads(message)
        return told

    def _said(self) -> str:
        self._errors.seek(0)
        return self._errors.read()[-2000:].decode(errors="replace")


class Page:
    """A page that is open, and what its console and its network told."""

    def __init__(self, pipe: Pipe, path: Path, context: str = "") -> None:
        self._pipe = pipe
        self._context = {"browserContextId": context} if context else {}
        self._session = ""
        self._chooser = 0
        self.errors: list[str] = []
        self.requests: list[str] = []
        # The kinds of the windows that the page or the browser opened to ask something; each is answered with yes, or with no.
        self.dialogs: list[str] = []
        self._says_yes = True
        self._is_gone = False
        self._is_timed = False
        # The workers that the driver is attached to; what the browser traced, and whether it told all of it.
        self._workers: list[str] = []
        self._traced: list[dict[str, Any]] = []
        self._is_traced = True
        self._target = self._ask("Target.createTarget", url="about:blank", **self._context)["targetId"]
        self._session = self._ask("Target.attachToTarget", targetId=self._target, flatten=True)["sessionId"]
        for domain in ("Page", "Runtime", "Log", "Network", "Inspector"):
            self._ask(f"{domain}.enable")
        self._ask("Page.addScriptToEvaluateOnNewDocument", source=SEEN)
        self.url = path.resolve().as_uri()
        self._ask("Page.navigate", url=self.url)
        self._wait_for_load()
        pipe.pages.append(self)

    def answer(self, expression: str) -> Any:
        """Returns the value of an expression of JavaScript in the page; promises are waited for."""
        told = self._ask("Runtime.evaluate", expression=expression, awaitPromise=True, returnByValue=True)
        if "exceptionDetails" in told:
            raise RuntimeError(told["exceptionDetails"])
        return told["result"].get("value")

    def resize(self, width: int, height: int) -> None:
        """Gives the window a size."""
        self._ask("Emulation.setDeviceMetricsOverride", width=width, height=height, deviceScaleFactor=1, mobile=False)

    def prefer(self, scheme: str) -> None:
        """Lets the reader prefer a color scheme: light or dark."""
        self._ask("Emulation.setEmulatedMedia", features=[{"name": "prefers-color-scheme", "value": scheme}])

    def screenshot(self, width: int, height: int) -> bytes:
        """Returns a picture of the page in a window of this size, as PNG."""
        self.resize(width, height)
        self.answer("Promise.all([...document.images].map(it => it.decode()))")
        return base64.b64decode(self._ask("Page.captureScreenshot", format="png")["data"])

    def leave(self, path: Path) -> None:
        """Writes the whole page as it is seen to PATH.png, and what its console said to PATH.txt."""
        path.with_suffix(".txt").write_text("".join(f"{line}\n" for line in (self.url, *self.errors)))
        clip = {**self._ask("Page.getLayoutMetrics")["cssContentSize"], "scale": 1}
        picture = self._ask("Page.captureScreenshot", format="png", captureBeyondViewport=True, clip=clip)["data"]
        path.with_suffix(".png").write_bytes(base64.b64decode(picture))

    def wait(self, expression: str, moving: str = "0") -> None:
        """Waits until an expression is true. The patience is for a machine that does much else: it ends where for two minutes neither the
        expression became true nor the value of `moving` another."""
        seen: object = None
        end = time.monotonic() + PATIENCE
        while not self.answer(f"Boolean({expression})"):
            if (now := self.answer(moving)) != seen:
                seen, end = now, time.monotonic() + PATIENCE
            if time.monotonic() > end:
                raise RuntimeError(f"after {PATIENCE} seconds it is not so that {expression}")
            time.sleep(0.03)

    def choose(self, selector: str, path: Path) -> None:
        """Chooses a file in the file input of a selector."""
        root = self._ask("DOM.getDocument")["root"]["nodeId"]
        node = self._ask("DOM.querySelector", nodeId=root, selector=selector)["nodeId"]
        self._ask("DOM.setFileInputFiles", nodeId=node, files=[str(path.resolve())])

    def drop(self, paths: Sequence[Path], x: float, y: float) -> None:
        """Drags files over a place, and drops them there."""
        data = {"items": [], "files": [str(path.resolve()) for path in paths], "dragOperationsMask": 1}
        for kind in ("dragEnter", "dragOver", "drop"):
            self._ask("Input.dispatchDragEvent", type=kind, x=x, y=y, data=data)

    def point(self, kind: str, x: float, y: float, buttons: int = 0) -> None:
        """Moves the mouse (`mouseMoved`), or presses or releases its left key (`mousePressed`, `mouseReleased`)."""
        button: dict[str, object] = {"button": "none"} if kind == "mouseMoved" else {"button": "left", "clickCount": 1}
        self._ask("Input.dispatchMouseEvent", type=kind, x=x, y=y, buttons=buttons, **button)

    def point_with(self, kind: str, x: float, y: float, buttons: int, modifiers: int, clicks: int = 1) -> None:
        """Does as `point` does, with keys such as Shift held down, as a part of the first or a later one of several clicks."""
        button: dict[str, object] = {
            "button": "none" if kind == "mouseMoved" and not buttons else "left",
            "clickCount": 0 if kind == "mouseMoved" else clicks,
        }
        self._ask("Input.dispatchMouseEvent", type=kind, x=x, y=y, buttons=buttons, modifiers=modifiers, **button)

    def turn_wheel(self, x: float, y: float, down: float, ctrl: bool = False) -> None:
        """Turns the wheel of the mouse over a place, with Ctrl held down or not."""
        self._ask("Input.dispatchMouseEvent", type="mouseWheel", x=x, y=y, deltaX=0, deltaY=down, modifiers=2 if ctrl else 0)

    def send_mouse(self, kind: str, x: float, y: float, at: float, buttons: int = 0) -> None:
        """Does as `point` does, at a time in seconds since 1970, and does not wait until the page has seen it."""
        button = {"button": "none"} if kind == "mouseMoved" and not buttons else {"button": "left"}
        clicks = {} if kind == "mouseMoved" else {"clickCount": 1}
        parameters = {"type": kind, "x": x, "y": y, "buttons": buttons, "timestamp": at, **button, **clicks}
        self._pipe.send({"method": "Input.dispatchMouseEvent", "params": parameters, "sessionId": self._session})

    def use_touch(self, is_on: bool) -> None:
        """Gives the window a touch screen for two fingers, or takes it away."""
        self._ask("Emulation.setTouchEmulationEnabled", enabled=is_on, maxTouchPoints=2)

    def touch(self, kind: str, *fingers: tuple[float, float]) -> None:
        """Puts fingers down (`touchStart`), moves those that are down (`touchMove`), or lifts all (`touchEnd`): each has an x and a y."""
        points = [{"x": x, "y": y, "id": number} for number, (x, y) in enumerate(fingers)]
        self._ask("Input.dispatchTouchEvent", type=kind, touchPoints=points)

    def tap(self, x: float, y: float) -> None:
        """Taps on a place: for a twentieth of a second, however long the browser takes to see it."""
        now = time.time()
        for kind, points, at in (("touchStart", [{"x": x, "y": y, "id": 0}], now), ("touchEnd", [], now + 0.05)):
            parameters = {"type": kind, "touchPoints": points, "timestamp": at}
            self._pipe.send({"method": "Input.dispatchTouchEvent", "params": parameters, "sessionId": self._session})

    def insert(self, text: str) -> None:
        """Inserts a text where the focus is, as pasting and input methods do."""
        self._ask("Input.insertText", text=text)

    def compose(self, begun: str, text: str) -> None:
        """Composes a text where the focus is, as a dead key and the key after it do."""
        self._ask("Input.imeSetComposition", text=begun, selectionStart=len(begun), selectionEnd=len(begun))
        self._ask("Input.insertText", text=text)

    def press(self, key: str, code: str = "", modifiers: int = 0, number: int = 0, commands: Sequence[str] = ()) -> None:
        """Presses and releases a key; one character is its text. What a key edits in a browser is a command, such as `selectAll`."""
        text = {"text": "\r" if key == "Enter" else key} if len(key) == 1 or key == "Enter" else {}
        common = {"key": key, "code": code or key, "modifiers": modifiers, "windowsVirtualKeyCode": number or NUMBERS.get(key, 0)}
        self._ask("Input.dispatchKeyEvent", type="keyDown" if text else "rawKeyDown", **common, **text, commands=[*commands])
        self._ask("Input.dispatchKeyEvent", type="keyUp", **common)

    def focused(self) -> tuple[str, str]:
        """Returns what has the focus: its role and its name, as the browser tells them to a screen reader."""
        held = self._ask("Runtime.evaluate", expression="document.activeElement")["result"]["objectId"]
        node = self._ask("Accessibility.getPartialAXTree", objectId=held, fetchRelatives=False)["nodes"][0]
        return node["role"]["value"], node.get("name", {}).get("value", "")

    def choose_by_key(self, path: Path) -> None:
        """Presses Enter on a file input, and chooses a file in the window that it opens."""
        self._ask("Page.setInterceptFileChooserDialog", enabled=True)
        self._chooser = 0
        self.press("Enter")
        while not self._chooser:
            self._read()
        self._ask("DOM.setFileInputFiles", backendNodeId=self._chooser, files=[str(path.resolve())])
        self._ask("Page.setInterceptFileChooserDialog", enabled=False)

    def beside(self, path: Path) -> "Page":
        """Returns a file, opened as another page of the same profile."""
        return Page(self._pipe, path, self._context.get("browserContextId", ""))

    def save_into(self, folder: Path) -> None:
        """Has files that the page saves go to a folder."""
        there = {"behavior": "allow", "downloadPath": str(folder.resolve()), "eventsEnabled": True}
        self._ask("Browser.setDownloadBehavior", **there, **self._context)

    def has_saved(self, name: str) -> bool:
        """Returns whether a file of this name is saved, and whole; it is said of each file once. The browser reserves a name with
        an empty file, so that the name is there says nothing."""
        self.answer("0")  # so that what the browser told meanwhile is read
        for download in self._pipe.whole & {it for it, other in self._pipe.begun.items() if other == name}:
            self._pipe.whole.remove(download)
            return True
        return False

    def reload(self) -> None:
        """Loads the page anew."""
        self._ask("Page.reload")
        self._wait_for_load()

    def begin_with(self, script: str) -> None:
        """Runs a script before all others in what the page loads from here on."""
        self._ask("Page.addScriptToEvaluateOnNewDocument", source=script)

    def show(self) -> None:
        """Puts the page in front of the other tabs, which are hidden."""
        self._ask("Page.bringToFront")

    def crash(self) -> None:
        """Ends the page's process, which has no time to do anything more."""
        self._pipe.send({"method": "Page.crash", "params": {}, "sessionId": self._session})
        while self._pipe.receive().get("method") != "Inspector.targetCrashed":
            pass
        self._pipe.pages.remove(self)

    def is_kept_open(self) -> bool:
        """Loads the page anew, and answers no if the browser asks. Returns whether it asked, so that the page is still open."""
        asked, self._says_yes = len(self.dialogs), False
        self._pipe.send({"method": "Page.reload", "params": {}, "sessionId": self._session})
        while len(self.dialogs) == asked:
            if self._read().get("method") == "Page.loadEventFired":
                break
        self._says_yes = True
        return len(self.dialogs) > asked

    def limit_storage(self, most: int | None = None) -> None:
        """Gives what the page stores at most `most` bytes, or as many as before."""
        limit = {} if most is None else {"quotaSize": most}
        self._ask("Storage.overrideQuotaForOrigin", origin="file://", **limit)

    def clear_storage(self) -> None:
        """Deletes all that pages from disk keep."""
        self._ask("Storage.clearDataForOrigin", origin="file://", storageTypes="all")

    def _wait_for_load(self) -> None:
        """Waits until the page is loaded."""
        while self._read().get("method") != "Page.loadEventFired":
            pass

    def leave_for(self, url: str) -> None:
        """Goes to another page."""
        self._ask("Page.navigate", url=url)
        self._wait_for_load()

    def heap(self) -> float:
        """Returns the bytes of the page's own script that are in use, garbage left out."""
        self._ask("HeapProfiler.collectGarbage")
        used: float = self._ask("Runtime.getHeapUsage")["usedSize"]
        return used

    def task_seconds(self) -> float:
        """Returns the processor time that the tasks of the page's own thread took, from the first call on."""
        if not self._is_timed:
            self._ask("Performance.enable", timeDomain="threadTicks")
            self._is_timed = True
        found = {one["name"]: one["value"] for one in self._ask("Performance.getMetrics")["metrics"]}
        seconds: float = found["TaskDuration"]
        return seconds

    def allowed(self, ms: float) -> float:
        """Returns how many milliseconds of a processor that may take, here and now, which may take `ms` elsewhere: more by as much as a piece of
        work takes longer."""
        took = []
        for _ in range(5):
            before = self.task_seconds()
            self.answer(PIECE)
            took.append(1000 * (self.task_seconds() - before))
        return ms * max(1, statistics.median(took) / PIECE_MS)

    @contextmanager
    def measuring(self) -> Iterator[Tasks]:
        """Measures the tasks of pages' own threads: once the block is over the list has the milliseconds that each one took of a processor, which
        are hardly more where much else runs."""
        found = Tasks()
        self._traced, self._is_traced = [], False
        self._ask("Tracing.start", transferMode="ReportEvents", traceConfig=TRACED)
        yield found
        # The end of a task is reported, and its answer comes before that.
        for _ in range(2):
            self.answer("new Promise((done) => setTimeout(done))")
        self._ask("Tracing.end")
        while not self._is_traced:
            self._read()
        found.take(self._traced)

    def close(self) -> None:
        """Closes the page. What the browser asks first is answered."""
        self._ask("Page.close")
        while not self._is_gone:
            self._read()
        self._pipe.pages.remove(self)

    def _ask(self, method: str, **parameters: object) -> dict[str, Any]:
        return self._ask_in(self._session, method, **parameters)

    def _ask_in(self, session: str, method: str, **parameters: object) -> dict[str, Any]:
        asked = self._pipe.send({"method": method, "params": parameters, **({"sessionId": session} if session else {})})
        while (told := self._read()).get("id") != asked:
            pass
        if "error" in told:
            raise RuntimeError(told["error"])
        result: dict[str, Any] = told["result"]
        return result

    def _read(self) -> dict[str, Any]:
        told = self._pipe.receive()
        self._note(told.get("method"), told.get("params", {}))
        return told

    def _note(self, method: str | None, told: dict[str, Any]) -> None:
        if method == "Runtime.exceptionThrown":
            self.errors.append(told["exceptionDetails"]["text"])
        elif method == "Runtime.consoleAPICalled":
            self.errors.append(str(told["args"]))
        elif method == "Log.entryAdded":
            self.errors.append(told["entry"]["text"])
        elif method == "Target.attachedToTarget" and told["targetInfo"]["type"] == "worker":
            self._workers.append(told["sessionId"])
        elif method == "Target.detachedFromTarget":
            self._is_gone |= told["sessionId"] == self._session
        elif method == "Page.javascriptDialogOpening":
            self.dialogs.append(told["type"])
            self._pipe.send(
                {"method": "Page.handleJavaScriptDialog", "params": {"accept": self._says_yes}, "sessionId": self._session}
            )
        elif method == "Page.fileChooserOpened":
            self._chooser = told["backendNodeId"]
        elif method == "Inspector.targetCrashed":
            raise RuntimeError("the page crashed")
        elif method == "Network.requestWillBeSent":
            self.requests.append(told["request"]["url"])
        elif method == "Tracing.dataCollected":
            self._traced += [it for it in told["value"] if it["name"] in ("thread_name", TASK)]
        elif method == "Tracing.tracingComplete":
            self._is_traced = True
        elif method == "Browser.downloadWillBegin":
            self._pipe.begun[told["guid"]] = told["suggestedFilename"]
        elif method == "Browser.downloadProgress" and told["state"] == "completed":
            self._pipe.whole.add(told["guid"])


@dataclass(frozen=True)
class Browser:
    """A browser that runs."""

    pipe: Pipe
    process: subprocess.Popen[bytes]

    def kill(self) -> None:
        """Ends the browser at once, with no time to do anything more."""
        self.process.kill()
        self.process.wait()

    @contextmanager
    def page(self, path: Path) -> Iterator[Page]:
        """A file, opened as a page."""
        opened = Page(self.pipe, path)
        yield opened
        opened.close()

    @contextmanager
    def fresh(self, path: Path) -> Iterator[Page]:
        """A file, opened as a page in a profile of its own, of which nothing stays."""
        context = self.ask("Target.createBrowserContext")["browserContextId"]
        yield Page(self.pipe, path, context)
        self.ask("Target.disposeBrowserContext", browserContextId=context)
        self.pipe.pages.clear()

    def ask(self, method: str, **parameters: object) -> dict[str, Any]:
        """Asks the browser itself, and returns its answer."""
        asked = self.pipe.send({"method": method, "params": parameters})
        while (told := self.pipe.receive()).get("id") != asked:
            pass
        result: dict[str, Any] = told["result"]
        return result

    def leave(self) -> None:
        """Leaves a picture of each page that is open and what its console said in a new folder, and prints where that is."""
        folder = Path(tempfile.mkdtemp(prefix="galluspa-page-"))
        self.pipe.limit = LAST_PATIENCE
        print(f"what the pages showed, and what their consoles said: {folder}")
        for number, page in enumerate(self.pipe.pages):
            try:
                page.leave(folder / f"page-{number}")
            except (OSError, RuntimeError) as error:
                print(f"page {number} shows nothing: {error}")


@contextmanager
def browser(profile: Path | None = None) -> Iterator[Browser]:
    """A browser of its own, with a folder for what it keeps that is there before and stays, or with a new one."""
    to_browser, from_us = os.pipe()[::-1]
    to_us, from_browser = os.pipe()[::-1]

    def place_pipes() -> None:
        read, write = os.dup(from_us), os.dup(to_us)
        os.dup2(read, 3)
        os.dup2(write, 4)

    with tempfile.TemporaryDirectory(ignore_cleanup_errors=True) as folder, tempfile.TemporaryFile() as errors:
        command = ["chromium", *FLAGS, f"--user-data-dir={profile or folder}", "--remote-debugging-pipe"]
        running = subprocess.Popen(
            command, preexec_fn=place_pipes, close_fds=False, stdin=subprocess.DEVNULL, stdout=subprocess.DEVNULL, stderr=errors
        )
        os.close(from_us)
        os.close(to_us)
        found = Browser(Pipe(to_browser, from_browser, errors), running)
        try:
            yield found
        except Exception:
            found.leave()
            raise
        finally:
            os.close(to_browser)
            os.close(from_browser)
            running.terminate()
            running.wait()
