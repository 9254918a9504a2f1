"""The pages as HTML, whole, so that a file can be read without the script.

The text of a file stands in blocks of a hundred lines. A browser lays out those that are seen, and
the script makes elements of their lines only then; the colours and the words that the index doesn't
know come behind the text in the same page, as data.
"""

import json
import os
from contextlib import suppress
from html import escape
from typing import Any, Iterator
from urllib.parse import quote

from codenav.browse.colours import KINDS, MOST_CHARACTERS, coloured, lexer_of
from codenav.browse.drawn import drawn, html
from codenav.browse.folder import Refused, href
from codenav.browse.frame import END, MOST_ENTRIES, Shown, framed, link, template
from codenav.browse.markdown import Node, markdown
from codenav.browse.view import WORD, View, unknown_words
from codenav.texts.decoded import lines_in
from codenav.texts.places import units

BLOCK, MOST_LINKED = 100, 3000
READMES = ("readme.md", "readme", "readme.txt", "readme.rst")
LABEL = "Text of the file; arrow keys go from word to word"


def text_in(line: str) -> str:
    """A line as HTML; what a browser would change when it reads the page is written so that it
    doesn't, or is replaced by one character."""
    return escape(drawn(line), quote=False).replace("\r", "&#13;").replace("\0", "\ufffd")


def linked(line: str, number: int, query: str) -> str:
    """A line as HTML, with a link at each word that leads on to its definition."""
    parts, at, column = [], 0, 1
    for word in WORD.finditer(line):
        before, own = line[at : word.start()], word[0]
        column += len(before) if before.isascii() else units(before)
        parts.append(text_in(before))
        parts.append(f'<a href="{query}at={number}.{column}">{text_in(own)}</a>')
        column += len(own) if own.isascii() else units(own)
        at = word.end()
    return "".join(parts) + text_in(line[at:])


def code(lines: list[str], name: str, revision: str) -> str:
    """The lines of a file, in blocks; those of a long one without links, which the script makes."""
    shown = lines[:-1] if len(lines) > 1 and not lines[-1] else lines
    query = f"?revision={quote(os.fsencode(revision), safe='')}&amp;" if revision else "?"
    is_long = len(shown) > MOST_LINKED or sum(map(len, shown)) > MOST_LINKED * BLOCK
    blocks = []
    for at in range(0, len(shown), BLOCK):
        part = shown[at : at + BLOCK]
        kind = "block" if len(part) == BLOCK else "block last"
        numbered = enumerate(part, at + 1)
        texts = (text_in(one) if is_long else linked(one, line, query) for line, one in numbered)
        text = "\n".join(texts)
        blocks.append(f'<div class="{kind}" data-first="{at + 1}">{text}\n</div>')
    return (
        f'<div id="code" role="group" aria-label="{LABEL}" tabindex="0" data-path="{quote(os.fsencode(name))}" '
        f'data-revision="{escape(revision)}" data-lines="{len(shown)}">{"".join(blocks)}</div>'
    )


def folder_content(view: View, name: str, has_rows: bool) -> str:
    """The content of the page of a folder: what stands in it, and its README."""
    at = f"{name}/" if name else ""
    entries = view.folder.entries(at)
    rows = "".join(
        f"<li>{link(at, one, name, view.revision)}</li>" for one in entries[:MOST_ENTRIES]
    )
    more_ = (
        f"<p>and {len(entries) - MOST_ENTRIES:,} more</p>" if len(entries) > MOST_ENTRIES else ""
    )
    hint = "<p>Choose a file, or press <kbd>f</kbd> to find one by its name.</p>"
    readme = ""
    own = next((one.name for one in entries if one.name.lower() in READMES), None)
    if own is not None:
        with suppress(Refused, OSError), view.lock:
            text = view.text(view.path(at + own))
            body = markdown_html(
                markdown(text) if own.lower().endswith(".md") else [["pre", {}, [text]]]
            )
            address = escape(href(at + own, revision=view.revision))
            readme = f'<h2><a href="{address}">{html(own)}</a></h2><div class="readme">{body}</div>'
    listed = f'{hint}<ul class="rows">{rows}</ul>{more_}' if has_rows else ""
    return f'<div class="folder">{listed}{readme}</div>'


def markdown_html(nodes: list[Node]) -> str:
    """The nodes of a text in Markdown as HTML."""
    parts = []
    for node in nodes:
        if isinstance(node, str):
            parts.append(html(node))
        elif node[0] in ("hr", "br"):
            parts.append(f"<{node[0]}>")
        else:
            name, attributes, inner = node
            own = "".join(f' {key}="{escape(value)}"' for key, value in attributes.items())
            rel = ' rel="noopener noreferrer"' if "href" in attributes else ""
            parts.append(f"<{name}{own}{rel}>{markdown_html(inner)}</{name}>")
    return "".join(parts)


def data(own: str, value: Any) -> str:
    """A value that the script reads, as an element of the page."""
    text = json.dumps(value, separators=(",", ":")).replace("<", "\\u003c")
    return f'<script type="application/json" id="{own}">{text}</script>\n'


def file_page(shown: Shown, start: str = "", has_all: bool = False) -> Iterator[str]:
    """The page of a file or a folder, piece by piece: the text first, then what takes longer;
    `start` is what comes before a folder's files, or in their place with `has_all`. Raises Refused
    before the first piece."""
    view, name, project, _ = shown
    path = view.path(name)
    with view.answering():
        is_folder = os.path.isdir(path)
        text = "" if is_folder else view.text(path)
    if is_folder:
        yield framed(shown, name or project, start + folder_content(view, name, not has_all))
    else:
        yield framed(shown, name, code(lines_in(text), name, view.revision), "files")
        yield from file_data(view, path, name, text)
    yield END


def file_data(view: View, path: str, name: str, text: str) -> Iterator[str]:
    """What the script knows of a file besides its text: the words that the index doesn't have, and
    the colours."""
    with view.lock:
        text_map, label = view.text_map(path)
        unknown = (
            [] if text_map is None else [[line, *words] for line, words in unknown_words(text_map)]
        )
    yield data("unknown", {"label": label, "lines": unknown})
    lexer = lexer_of(os.path.basename(name)) if len(text) <= MOST_CHARACTERS else None
    if lexer is not None:
        plain = text.replace("\r\n", "\n")
        yield data("colours", {"kinds": KINDS, "lines": list(coloured(lexer, plain))})


def error_page(fault: Refused, project: str) -> str:
    """The page of a request that isn't served, with what to do."""
    advice = escape(fault.advice or "The folder's files are listed on its own page.")
    if fault.word:
        search = f"/search?text={quote(fault.word)}"
        advice = f'<a href="{search}">Names and texts that have {html(fault.word)}</a>'
    return template("error.html").substitute(
        status=fault.status,
        fault=escape(str(fault)),
        advice=advice,
        project=escape(project),
    )
