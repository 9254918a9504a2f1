"""What is around the content of each page: the path, the tree of files and folders, and the other
views of a file, as HTML that reads without the script."""

import os
from html import escape
from string import Template
from typing import Any, NamedTuple
from urllib.parse import quote

from codenav.browse.drawn import html
from codenav.browse.folder import Entry, Folder, href
from codenav.browse.view import View

PAGE = os.path.join(os.path.dirname(os.path.abspath(__file__)), "page")
MOST_ENTRIES = 200
VIEWS = {"files": "Text", "blame": "Blame", "history": "History", "compare": "Compare"}


class Shown(NamedTuple):
    """What a page is of: a file or a folder, by its name, and how the project is called; `search`
    is the address of a search engine."""

    view: View
    name: str
    project: str
    search: str


def template(name: str) -> Template:
    """A page with places to fill."""
    with open(os.path.join(PAGE, name), encoding="utf-8") as file:
        return Template(file.read())


def link(at: str, entry: Entry, shown: str, revision: str) -> str:
    """A file or a folder in the tree; the folders on the way to what is shown stand open."""
    own = f"{at}{entry.name}"
    current = ' aria-current="page"' if own == shown else ""
    label = f"{entry.name}/" if entry.is_folder else entry.name
    return f'<a href="{escape(href(own, revision=revision))}"{current}>{html(label)}</a>'


def more(at: str, start: int, end: int, count: int) -> str:
    """A button for entries of a folder that aren't in the page yet, the ones that are nearest
    first."""
    words = f"{end - start:,} more"
    return (
        f'<li><button type="button" class="more" data-path="{quote(os.fsencode(at))}" data-start="{start}" data-end="{end}" '
        f'data-before="{str(end < count).lower()}">{words}</button></li>'
    )


def tree(folder: Folder, shown: str, revision: str, at: str = "") -> str:
    """The files and folders of a folder: of many those around the one that is shown, or the
    first."""
    entries = folder.entries(at)
    inner = next((one for one in entries if f"{shown}/".startswith(f"{at}{one.name}/")), None)
    middle = entries.index(inner) if inner else 0
    start = max(0, min(middle - MOST_ENTRIES // 2, len(entries) - MOST_ENTRIES))
    end = min(start + MOST_ENTRIES, len(entries))
    rows = []
    for entry in entries[start:end]:
        below = (
            tree(folder, shown, revision, f"{at}{entry.name}/")
            if entry is inner and entry.is_folder
            else ""
        )
        rows.append(f"<li>{link(at, entry, shown, revision)}{below}</li>")
    before = more(at, 0, start, len(entries)) if start else ""
    after = more(at, end, len(entries), len(entries)) if end < len(entries) else ""
    return f"<ul>{before}{''.join(rows)}{after}</ul>"


def listed(folder: Folder, at: str, start: int, end: int, revision: str) -> list[dict[str, Any]]:
    """Some entries of a folder, for the tree."""
    return [
        {
            "name": f"{entry.name}/" if entry.is_folder else entry.name,
            "href": href(f"{at}{entry.name}", revision=revision),
        }
        for entry in folder.entries(at)[start:end]
    ]


def crumbs(name: str, project: str, revision: str) -> str:
    """The path of a file or a folder, each part of which leads to its page, and the revision."""
    home = escape(href("", revision=revision))
    own = ""
    if revision:
        today = escape(href(name))
        label = html(revision[:12] if len(revision) == 40 else revision)
        own = f'<span class="revision">as of {label} · <a class="today" href="{today}">today</a></span>'
    if not name:
        return f"<h1>{escape(project)}</h1>{own}"
    *folders, last = name.split("/")
    parts = [f'<a class="home" href="{home}">{escape(project)}</a>']
    for index, folder in enumerate(folders):
        address = escape(href("/".join(folders[: index + 1]), revision=revision))
        parts.append(f'<a class="up" href="{address}">{html(folder)}</a>')
    slash = '<span class="slash">/</span>'
    return f'{slash.join(parts)}{slash}<h1>{html(last)}</h1>{own}<span class="symbol"></span>'


def views(name: str, revision: str, current: str) -> str:
    """The pages of a file, of which one is shown."""
    links = []
    for page, label in VIEWS.items():
        own = ' aria-current="page"' if page == current else ""
        address = escape(href(name, revision=revision, page=page))
        links.append(f'<a href="{address}"{own}>{label}</a>')
    return f'<nav id="views" aria-label="Pages of the file">{"".join(links)}</nav>'


def framed(shown: Shown, title: str, content: str, current: str = "") -> str:
    """A page with its content, up to where its end is left; `current` says which of the pages of a
    file it is."""
    view, name = shown.view, shown.name
    top, bottom = template("page.html").template.split("$content")
    values = {
        "title": html(title),
        "crumbs": crumbs(name, shown.project, view.revision),
        "search": escape(shown.search),
        "tree": tree(view.folder, name, view.revision),
        "views": views(name, view.revision, current) if current else "",
    }
    return Template(top).substitute(values) + content + Template(bottom).substitute(values)


END = "</body>\n</html>\n"
