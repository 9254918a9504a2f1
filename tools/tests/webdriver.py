"""A headless Chromium of Debian's chromium and chromium-driver, over the WebDriver protocol."""

import base64
import json
import subprocess
import time
from contextlib import contextmanager
from typing import Any, Callable, Iterator
from urllib.error import HTTPError
from urllib.request import ProxyHandler, Request, build_opener

from codenav.faults import Failed
from codenav.program import free_port
from tests.servers import ended

OPTIONS = [
    "--headless=new",
    "--no-sandbox",
    "--disable-gpu",
    "--disable-dev-shm-usage",
    "--window-size=1200,760",
    "--force-prefers-reduced-motion",
]
WAIT = 60
KEYS = {
    "Enter": "\ue007",
    "Escape": "\ue00c",
    "ArrowRight": "\ue014",
    "ArrowDown": "\ue015",
    "ArrowUp": "\ue013",
    "Tab": "\ue004",
    "Control": "\ue009",
}
OPENER = build_opener(ProxyHandler({}))


class Page:
    """A window of a browser."""

    def __init__(self, url: str) -> None:
        self.url = url

    def call(self, method: str, path: str, **members: Any) -> Any:
        """A command of WebDriver."""
        body = json.dumps(members).encode() if method == "POST" else None
        try:
            with OPENER.open(
                Request(self.url + path, body, {"Content-Type": "application/json"}, method=method),
                timeout=60,
            ) as reply:
                return json.load(reply)["value"]
        except HTTPError as fault:
            raise Failed(f"{path}: {json.load(fault)['value']['message']}") from None

    def run(self, script: str) -> Any:
        """What an expression of the page is."""
        return self.call("POST", "/execute/sync", script=f"return {script};", args=[])

    def open(self, address: str) -> None:
        """Goes to an address."""
        self.call("POST", "/url", url=address)

    def back(self) -> None:
        """Goes back."""
        self.call("POST", "/back")

    def press(self, *keys: str) -> None:
        """Presses keys, one after the other."""
        strokes = [
            {"type": kind, "value": KEYS.get(key, key)}
            for key in keys
            for kind in ("keyDown", "keyUp")
        ]
        self.call(
            "POST", "/actions", actions=[{"type": "key", "id": "keyboard", "actions": strokes}]
        )

    def point(
        self, box: dict[str, float], click: bool, kind: str = "mouse", button: int = 0
    ) -> None:
        """Moves the mouse, or with `touch` a finger, to the middle of a box, and clicks there."""
        to = {
            "type": "pointerMove",
            "duration": 0,
            "origin": "viewport",
            "x": round(box["x"] + box["width"] / 2),
            "y": round(box["y"] + box["height"] / 2),
        }
        presses = [{"type": name, "button": button} for name in ("pointerDown", "pointerUp")]
        pointer = {
            "type": "pointer",
            "id": kind,
            "parameters": {"pointerType": kind},
            "actions": [to, *(presses if click else [])],
        }
        self.call("POST", "/actions", actions=[pointer])

    def hold(self, key: str, is_down: bool) -> None:
        """Presses a key and holds it, or lets go of it."""
        action = {"type": "keyDown" if is_down else "keyUp", "value": KEYS[key]}
        self.call("POST", "/actions", actions=[{"type": "key", "id": "held", "actions": [action]}])

    def until(self, script: str, wanted: Callable[[Any], bool], what: str) -> Any:
        """What an expression is once it's as wanted."""
        end, value = time.monotonic() + WAIT, None
        while time.monotonic() < end:
            value = self.run(script)
            if wanted(value):
                return value
            time.sleep(0.02)
        raise Failed(f"{what}: {value!r}")

    def wait(self, is_so: Callable[[], bool], what: str) -> None:
        """Waits until something is so."""
        end = time.monotonic() + WAIT
        while not is_so():
            if time.monotonic() > end:
                raise Failed(what)
            time.sleep(0.02)

    def cdp(self, command: str, **members: Any) -> Any:
        """A command of the Chrome DevTools Protocol."""
        return self.call("POST", "/goog/cdp/execute", cmd=command, params=members)

    def scheme(self, name: str) -> None:
        """Has pages shown in `dark` or `light`."""
        self.cdp(
            "Emulation.setEmulatedMedia", features=[{"name": "prefers-color-scheme", "value": name}]
        )

    def picture(self) -> bytes:
        """A picture of the window, a PNG."""
        return base64.b64decode(self.call("GET", "/screenshot"))


@contextmanager
def chromium() -> Iterator[Page]:
    """A window of a new browser, which ends with the context."""
    port = free_port()
    driver = subprocess.Popen(
        ["chromedriver", f"--port={port}"], stdout=subprocess.DEVNULL, stderr=subprocess.DEVNULL
    )
    page = Page(f"http://127.0.0.1:{port}")
    try:
        for _ in range(100):
            try:
                if page.call("GET", "/status")["ready"]:
                    break
            except OSError:
                time.sleep(0.1)
        wanted = {"browserName": "chrome", "goog:chromeOptions": {"args": OPTIONS}}
        session = page.call("POST", "/session", capabilities={"alwaysMatch": wanted})
        page.url += f"/session/{session['sessionId']}"
        yield page
        page.call("DELETE", "")
    finally:
        ended(driver)
