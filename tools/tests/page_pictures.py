"""The pictures of `codenav browse` that the pages show: in light and dark, with its panel, on a
phone, at a zoom of 200 %, and of many projects."""

import os
import shutil
import subprocess
from contextlib import AbstractContextManager
from typing import Callable

from tests.demo_server import MAP, PROJECTS
from tests.repository import git_in
from tests.webdriver import Page

Browsing = Callable[..., AbstractContextManager[str]]
FOLDERS = {"temperature": "demo/crate", "kettle": "demo/user"}
PANEL = "document.querySelector('#places .place') !== null"
SYMBOLS = "document.querySelector('#outline li') !== null"
USED, DEFINED = "crate/src/lib.rs#L18C12&refs", "crate/src/scale.rs#L4C8&refs"
# how each is called behind the name that is given, its size, its scale and the page
OF_A_WORD = [
    ("", 1200, 700, 1, "light", USED),
    ("-dark", 1200, 700, 1, "dark", USED),
    ("-panel", 1400, 760, 1, "light", USED),
    ("-phone", 390, 844, 1, "light", DEFINED),
    ("-zoom", 600, 380, 2, "light", USED),
]


def take(page: Page, server: str, home: str, name: str, browsing: Browsing) -> None:
    """Takes the pictures, each NAME and what follows, as small as Debian's pngquant and optipng
    make them; `home` is a folder for repositories."""
    with browsing(*MAP, server, "kettle", "demo") as address:
        for own, width, height, scale, scheme, path in OF_A_WORD:
            page.scheme(scheme)
            resize(page, width, height, scale)
            page.open("about:blank")
            page.open(f"{address}/files/{path}")
            page.until(f"{PANEL} && {SYMBOLS}", bool, "the page isn't whole")
            keep(page, f"{name}{own}.png")
    page.scheme("light")
    resize(page, 1200, 420, 1)
    with browsing(listed(server, home)) as address:
        page.open(f"{address}/")
        page.until("document.querySelectorAll('.projects tbody tr').length", bool, "no projects")
        keep(page, f"{name}-start.png")
    page.cdp("Emulation.clearDeviceMetricsOverride")


def resize(page: Page, width: int, height: int, scale: int) -> None:
    """Gives the window a size."""
    page.cdp(
        "Emulation.setDeviceMetricsOverride",
        width=width,
        height=height,
        deviceScaleFactor=scale,
        mobile=False,
    )


def listed(server: str, home: str) -> str:
    """A folder whose settings list the demo crates, each a repository of its own."""
    lines = [f'server = "{server}"', "[projects]"]
    for project in PROJECTS:
        top = os.path.join(home, project)
        shutil.copytree(FOLDERS[project], top)
        git_in(top, "init", "-q", "-b", "main")
        git_in(top, "add", "-A")
        git_in(top, "commit", "-qm", "The crate")
        lines.append(f'{project} = "../{project}#main"')
    folder = os.path.join(home, "pages")
    os.mkdir(folder)
    with open(os.path.join(folder, ".codenav.toml"), "w", encoding="utf-8") as file:
        file.write("\n".join([*lines, ""]))
    return folder


def keep(page: Page, path: str) -> None:
    """Writes a picture of the window."""
    with open(path, "wb") as file:
        file.write(page.picture())
    for words in ["pngquant", "--force", "--quality", "70-95", "-o", path], ["optipng", "-quiet"]:
        if shutil.which(words[0]):
            subprocess.run([*words, "--", path], check=True)
