"""The pages of a file's history: its commits, the commit of each of its lines, and how its text
differs between two revisions. They read without the script, and each word leads to its
definition."""

import os
from html import escape
from typing import Callable, Iterator, Optional
from urllib.parse import quote

from codenav.browse.changes import Change, changes
from codenav.browse.drawn import html
from codenav.browse.folder import Gone, Refused, href
from codenav.browse.frame import END, Shown, framed
from codenav.browse.history import MOST_COMMITS, Commit, blamed, commits, is_before_all
from codenav.browse.listed import number
from codenav.browse.pages import linked
from codenav.browse.view import View

MOST_ROWS, MOST_CHARACTERS = 5_000, 2_000
SIGNS = {"added": "+", "removed": "−"}
Parameters = dict[str, str]
ViewOf = Callable[[str], View]
"""The view of a revision, of today's files without one."""


def compared(name: str, old: str, first: str, last: str) -> str:
    """The address of how a file differs from what another one was at a revision."""
    fields = {"old": old if old != name else "", "from": first, "to": last}
    query = "&".join(
        f"{key}={quote(os.fsencode(value), safe='')}" for key, value in fields.items() if value
    )
    return f"{href(name, page='compare')}?{query}"


def linked_name(commit: Commit) -> str:
    """A commit's short name, which leads to the file as it was there."""
    address = href(commit.file, revision=commit.name)
    return f'<a class="commit" href="{escape(address)}">{commit.name[:10]}</a>'


def history_page(shown: Shown, parameters: Parameters) -> Iterator[str]:
    """The commits that changed a file. Raises Refused before the first piece."""
    skip = parameters.get("skip", "0")
    if not skip.isdecimal() or len(skip) > 7:
        raise Refused(400, "bad parameter")
    view, name = shown.view, shown.name
    found, is_more = commits(view, view.path(name), int(skip))
    rows = []
    for at, commit in enumerate(found):
        before = found[at + 1].file if at + 1 < len(found) else commit.file
        change = compared(commit.file, before, f"{commit.name}^", commit.name)
        was = "" if commit.file == name else f' <span class="was">as {html(commit.file)}</span>'
        rows.append(
            f"<tr><td>{linked_name(commit)}</td><td>{commit.day}</td><td>{html(commit.author)}</td>"
            f'<td><a href="{escape(change)}">{html(commit.subject) or "(no message)"}</a>{was}</td></tr>'
        )
    heads = "".join(f'<th scope="col">{head}</th>' for head in ("Commit", "Day", "By", "Change"))
    ways = []
    if int(skip):
        ways.append(("Later", max(int(skip) - MOST_COMMITS, 0)))
    if is_more:
        ways.append(("Earlier", int(skip) + MOST_COMMITS))
    pages = []
    for label, start in ways:
        own = f"{href(name, page='history')}?skip={start}"
        own += f"&revision={quote(os.fsencode(view.revision), safe='')}" if view.revision else ""
        pages.append(f'<a class="button" href="{escape(own)}">{label}</a>')
    none = "" if rows else '<p class="said">no commit has this file</p>'
    content = (
        f'<div class="past"><h2>History</h2><table class="commits"><thead><tr>{heads}</tr></thead>'
        f"<tbody>{''.join(rows)}</tbody></table>{none}<p>{' '.join(pages)}</p></div>"
    )
    yield framed(shown, f"History of {name}", content, "history") + END


def blame_page(shown: Shown) -> Iterator[str]:
    """The lines of a file, each with the commit that it's of. Raises Refused before the first
    piece."""
    view, name = shown.view, shown.name
    path = view.path(name)
    with view.answering():
        lines = view.lines(path)
    runs = blamed(view, path, lines)
    yield from in_frame(
        framed(shown, f"Blame of {name}", '<div class="past blame">$runs</div>', "blame"),
        "$runs",
        (run_of(shown, commit, lines[first:last], first) for commit, first, last in runs),
    )


def in_frame(page: str, mark: str, pieces: Iterator[str]) -> Iterator[str]:
    """A page, piece by piece, with what stands in place of a mark."""
    top, _, bottom = page.rpartition(mark)
    yield top
    yield from pieces
    yield bottom + END


def run_of(shown: Shown, commit: Optional[Commit], lines: list[str], first: int) -> str:
    """Lines that are of one commit, with what is known of it."""
    if commit is None:
        who = '<span class="who">not committed</span>'
    else:
        change = compared(commit.file, commit.file, f"{commit.name}^", commit.name)
        who = (
            f'<span class="who">{linked_name(commit)} <span class="day">{commit.day}</span> '
            f'<span class="author">{html(commit.author)}</span> '
            f'<a class="why" href="{escape(change)}">{html(commit.subject) or "(no message)"}</a></span>'
        )
    rows = []
    query = query_of(shown.name, shown.view.revision)
    for at, line in enumerate(lines, first + 1):
        rows.append(
            numbered(shown, at) + f"<code>{linked(line[:MOST_CHARACTERS], at, query)}</code>\n"
        )
    return f'<div class="run">{who}<pre>{"".join(rows)}</pre></div>'


def query_of(name: str, revision: str) -> str:
    """What the address of a word's link begins with, as HTML."""
    address = escape(href(name, revision=revision))
    return address + ("&amp;" if revision else "?")


def numbered(shown: Shown, line: int) -> str:
    """The number of a line, which leads to it."""
    address = escape(href(shown.name, revision=shown.view.revision))
    return f'<a class="no" href="{address}#L{line}">{line}</a>'


def compare_page(shown: Shown, parameters: Parameters, view_of: ViewOf) -> Iterator[str]:
    """How a file's text differs between two revisions: from the commit that is checked out to
    today's without them. Raises Refused before the first piece."""
    name, old_name = shown.name, parameters.get("old", "") or shown.name
    first = parameters.get("from", "") or "HEAD"
    last = parameters.get("to", "") or shown.view.revision
    old, new = view_of(first), view_of(last)
    after = lines_or_none(new, name)
    before = lines_or_none(old, old_name)
    if before is None and after is None:
        raise Refused(404, f"neither {first} nor {last or 'today'} has this file")
    found = changes(before or [], after or [])
    counts = [
        sum(1 for one in found if not one.gap and not getattr(one, side)) for side in ("old", "new")
    ]
    said = f"{number(counts[0], 'line')} added, {number(counts[1], 'line')} removed"
    said += "" if before is not None else f"; {html(first)} doesn't have it"
    said += "" if after is not None else f"; {html(last or 'today')} doesn't have it"
    form = (
        f'<form action="{escape(href(name, page="compare"))}" class="fields">'
        f'<label>from <input type="text" name="from" value="{escape(first)}"></label>'
        f'<label>to <input type="text" name="to" value="{escape(last)}" placeholder="today"></label>'
        '<button type="submit">Compare</button></form>'
    )
    sides = (query_of(old_name, first), query_of(name, last))
    rows = "".join(change_row(one, sides) for one in found[:MOST_ROWS])
    more = "" if len(found) <= MOST_ROWS else f"<p>and {len(found) - MOST_ROWS:,} lines more</p>"
    heads = "".join(f'<th scope="col">{head}</th>' for head in ("Old", "New", "Text"))
    table = f'<table class="changes"><thead><tr>{heads}</tr></thead><tbody>{rows}</tbody></table>'
    content = f'<div class="past"><h2>Compare</h2>{form}<p class="said">{said}</p>{table if rows else ""}{more}</div>'
    yield framed(shown, f"Changes of {name}", content, "compare") + END


def lines_or_none(view: View, name: str) -> Optional[list[str]]:
    """The lines of a file of a revision, or None where it has none of this name. Raises Refused
    where git knows no such revision, unless it's what was before the first commit."""
    with view.answering():
        try:
            lines = view.lines(view.path(name))
        except Gone:
            return None
        except Refused:
            if is_before_all(view, name):
                return None
            raise
    return lines[:-1] if not lines[-1] else lines


def change_row(change: Change, sides: tuple[str, str]) -> str:
    """A line of what differs; its words lead on in the text that it's of."""
    if change.gap:
        return f'<tr class="gap"><td colspan="3">{number(change.gap, "line")} that stayed</td></tr>'
    query, line = (sides[1], change.new) if change.new else (sides[0], change.old)
    kind = "" if change.old and change.new else "added" if change.new else "removed"
    numbers = "".join(f'<td class="no">{one or ""}</td>' for one in (change.old, change.new))
    own = f' role="img" aria-label="{kind}">{SIGNS[kind]}' if kind else ">"
    text = linked(change.text[:MOST_CHARACTERS], line, query)
    return f'<tr class="{kind}">{numbers}<td><span class="sign"{own}</span><code>{text}</code></td></tr>'
