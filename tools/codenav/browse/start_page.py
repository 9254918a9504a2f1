"""The page that one begins at: the projects that are shown, each with its revision and its
languages."""

import os
import time
from collections import Counter
from dataclasses import dataclass, field
from html import escape

from codenav.browse.answers import Browser
from codenav.browse.colours import language_of
from codenav.browse.drawn import html
from codenav.browse.folder import href
from codenav.browse.history import day_of
from codenav.browse.listed import number
from codenav.faults import BadCall
from codenav.texts.git import git

SECONDS, MOST_LANGUAGES = 10.0, 3
LAST = ("log", "-1", "--no-show-signature", "--encoding=UTF-8", "--format=%H %ct %D", "HEAD", "--")


@dataclass
class Project:
    """What is shown of a project."""

    name: str
    folder: str
    commit: str = ""
    label: str = ""
    day: str = ""
    files: int = 0
    languages: list[str] = field(default_factory=list)
    fault: str = ""


class Start:
    """The projects of a browser, which stand for some seconds."""

    def __init__(self, browser: Browser) -> None:
        self.browser = browser
        self.found: list[Project] = []
        self.since = -SECONDS

    def projects(self) -> list[Project]:
        """What is shown of each project."""
        if time.monotonic() - self.since >= SECONDS:
            names = self.browser.projects
            own = self.browser.settings.project
            found = [Project(name, name, fault=self.browser.refresh(name)) for name in names]
            found = found or [Project(own, "")]
            self.count(found)
            for one in found:
                self.look_up(one)
            self.found, self.since = found, time.monotonic()
        return self.found

    def count(self, found: list[Project]) -> None:
        """Counts the files and the languages of projects."""
        languages: dict[str, Counter[str]] = {one.folder: Counter() for one in found}
        whole = found[0].folder == ""
        files = Counter[str]()
        for path in self.browser.folder.files():
            folder = "" if whole else path.partition("/")[0]
            if folder in languages:
                files[folder] += 1
                languages[folder][language_of(path)] += 1
        for one in found:
            one.files = files[one.folder]
            known = [name for name, _ in languages[one.folder].most_common() if name]
            one.languages = known[:MOST_LANGUAGES]

    def look_up(self, one: Project) -> None:
        """Looks up the commit that is checked out."""
        folder = os.path.join(self.browser.folder.top, one.folder)
        try:
            said = os.fsdecode(git(folder, *LAST) or b"").strip().split(" ", 2)
        except BadCall:
            said = []
        if len(said) > 1:
            one.commit, one.day = said[0], day_of(said[1])
            names = [name.removeprefix("HEAD -> ") for name in said[2:] and said[2].split(", ")]
            one.label = next((name for name in names if name != "HEAD"), "")

    def html(self) -> str:
        """The projects as a table."""
        found = self.projects()
        rows = "".join(map(row, found))
        heads = ("Project", "Revision", "Day", "Languages", "Files")
        cells = "".join(f'<th scope="col">{head}</th>' for head in heads)
        said = number(len(found), "project")
        return (
            f'<div class="past"><h2>{said}</h2><table class="commits projects">'
            f"<thead><tr>{cells}</tr></thead><tbody>{rows}</tbody></table></div>"
        )


def row(one: Project) -> str:
    """A project as a row."""
    address = escape(href(one.folder))
    if one.fault:
        name = f'<a href="{address}">{html(one.name)}</a>' if one.files else html(one.name)
        return f'<tr><td>{name}</td><td colspan="4">{html(one.fault)}</td></tr>'
    languages = ", ".join(map(html, one.languages)) or "-"
    return (
        f'<tr><td><a href="{address}">{html(one.name)}</a></td><td>{html(one.label)} <span class="commit">{one.commit[:10] or "-"}</span></td>'
        f"<td>{one.day or '-'}</td><td>{languages}</td><td>{one.files:,}</td></tr>"
    )
