"""The page of a search: names, files and lines of texts that have a text."""

from html import escape
from typing import Any, Iterator

from codenav.browse.answers import Browser, Parameters
from codenav.browse.drawn import html
from codenav.browse.folder import Refused, href
from codenav.browse.frame import END, Shown, framed
from codenav.browse.listed import number
from codenav.browse.searched import Match, Matches, Wanted
from codenav.faults import BadCall

MOST_ROWS = 20
NOT_SEARCHED = "Binary files, UTF-16 and files with U+0000 aren't searched."


def search_page(browser: Browser, shown: Shown, parameters: Parameters) -> Iterator[str]:
    """What is found in names, files and texts; the form alone without a text."""
    wanted = Wanted(
        parameters.get("text", ""),
        parameters.get("path", ""),
        "case" in parameters,
        "regex" in parameters,
    )
    revision = shown.view.revision
    parts = [form(wanted, revision)]
    if wanted.text:
        try:
            if not wanted.is_regex:
                fields = {"only": wanted.path, "revision": revision}
                parts.append(rows("Names", browser.names({"prefix": wanted.text, **fields})))
                parts.append(rows("Files", browser.files({"text": wanted.text, **fields})))
        except (BadCall, Refused) as fault:  # texts are found without the index
            label = "" if isinstance(fault, Refused) else "Names: "
            parts.append(f'<p class="said">{label}{html(str(fault))}</p>')
        try:
            parts.append(lines_of(browser.texts(wanted, revision), wanted, revision))
        except (BadCall, Refused) as fault:
            parts.append(f'<p class="said bad" role="alert">{html(str(fault))}</p>')
    title = f"{wanted.text} - search" if wanted.text else "Search"
    yield framed(shown, title, f'<div class="past">{"".join(parts)}</div>') + END


def form(wanted: Wanted, revision: str) -> str:
    """The fields of a search."""
    boxes = "".join(
        f'<label><input type="checkbox" name="{name}" value="1"{" checked" if is_set else ""}> {label}</label>'
        for name, label, is_set in (
            ("case", "match case", wanted.is_case),
            ("regex", "regular expression", wanted.is_regex),
        )
    )
    of = f'<input type="hidden" name="revision" value="{escape(revision)}">' if revision else ""
    return (
        f'<form action="/search" class="fields" role="search"><h2>Search</h2>'
        f'<label>text <input type="text" name="text" id="sought" value="{escape(wanted.text)}" spellcheck="false"></label>'
        f'<label>only paths with <input type="text" name="path" value="{escape(wanted.path)}" spellcheck="false"></label>'
        f'{boxes}{of}<button type="submit">Search</button></form>'
    )


def rows(label: str, found: dict[str, Any]) -> str:
    """The first names or files that were found."""
    if not found["names"]:
        return ""
    links = "".join(
        f'<li><a href="{escape(row["href"])}">{html(row["name"])} <small>{html(row["place"])}</small></a></li>'
        for row in found["names"][:MOST_ROWS]
    )
    return f'<h3>{label} <span class="count">{html(found["said"])}</span></h3><ul class="rows">{links}</ul>'


def lines_of(found: Matches, wanted: Wanted, revision: str) -> str:
    """The lines that were found, by files."""
    length = 0 if wanted.is_regex else len(wanted.text)
    files: dict[str, list[Match]] = {}
    for match in found.rows:
        files.setdefault(match.file, []).append(match)
    parts = []
    for name, own in files.items():
        links = "".join(
            f'<li><a class="place" href="{escape(href(name, one.line - 1, one.character, revision))}">'
            f'<span class="number">{one.line}</span><code>{html(one.before)}<mark>{html(one.text[:length])}</mark>{html(one.text[length:])}</code></a></li>'
            for one in own
        )
        parts.append(
            f'<section><h4>{html(name)} <span class="count">{len(own)}</span></h4><ul>{links}</ul></section>'
        )
    said = found.said or f"{number(len(found.rows), 'line')} in {number(len(files), 'file')}"
    said += f"; {number(len(found.unread), 'path')} can't be read" if found.unread else ""
    return f'<h3>Texts <span class="count">{said}</span></h3>{"".join(parts)}<p class="said">{NOT_SEARCHED}</p>'
