"""Which documents a server is asked of again where some of a folder changed."""

import os
import re
from collections import Counter, defaultdict
from typing import Callable, Iterable, Mapping

from codenav.index.answers import At, Name
from codenav.index.given import Document
from codenav.index.kept import Kept, Known
from codenav.texts.places import path_of

INCLUDE = re.compile(
    r"(?:^[ \t]*#[ \t]*(?:include|include_next|import)|\b__has_include(?:_next)?[ \t]*\()"
    r'[ \t]*[<"]([^>"\n]+)',
    re.MULTILINE,
)
WORD = re.compile(r"[^\W\d]\w*")
PLAIN = {12, 13, 14}
"""Kinds of symbols that no type has: function, variable, constant."""
MEMBERS = {7, 8, 22}
"""Kinds of symbols that are known where their type is: property, field, member of an enum."""


def includes(documents: Iterable[Document]) -> dict[str, set[str]]:
    """The names of files that documents include, without their folders."""
    return {
        one.uri: {os.path.basename(name) for name in INCLUDE.findall(one.text)} for one in documents
    }


def including(kept: Kept, documents: Iterable[Document], moved: set[str]) -> set[str]:
    """The documents that include some file, over any number of files, by their names; or that did, by
    what is kept."""
    by_name, found = defaultdict[str, list[str]](list), set[str]()
    for uri, names in includes(documents).items():
        before = kept.documents.get(uri, Known("")).includes
        for name in names | {os.path.basename(one) for one in before}:
            by_name[name].append(uri)
    rest = list(moved)
    while rest:
        for uri in by_name.pop(os.path.basename(rest.pop()), ()):
            if uri not in found:
                found.add(uri)
                rest.append(uri)
    return found


def leading(kept: Kept, moved: set[str]) -> set[str]:
    """The documents that lead into others, by what is kept."""
    return {
        uri
        for uri, known in kept.documents.items()
        if any(to.uri in moved for places in known.leads.values() for to in places)
    }


def leading_far(kept: Kept, moved: set[str]) -> set[str]:
    """The documents that lead into others, over any number of files."""
    into = defaultdict[str, set[str]](set)
    for uri, known in kept.documents.items():
        for to in {place.uri for places in known.leads.values() for place in places}:
            into[to].add(uri)
    found, rest = set[str](), list(moved)
    while rest:
        for uri in into.pop(rest.pop(), ()):
            if uri not in found:
                found.add(uri)
                rest.append(uri)
    return found


def by_includes(kept: Kept, documents: list[Document], moved: set[str]) -> set[str]:
    """What depends on documents where all that a file knows is what it includes."""
    return including(kept, documents, moved) | leading(kept, moved)


def failing(kept: Kept, documents: list[Document], moved: set[str]) -> set[str]:
    """The documents with errors that have the name of a file that moved, or of its folder."""
    named = set[frozenset[str]]()
    for uri in moved:
        folder, name = os.path.split(path_of(uri, []) or "")
        named |= {
            frozenset(words_of(os.path.basename(folder))),
            frozenset(words_of(os.path.splitext(name)[0])),
        }
    return {
        one.uri
        for one in documents
        if kept.documents.get(one.uri, Known("")).errors
        and any(words <= words_of(one.text) for words in named)
    }


def by_leads(kept: Kept, documents: list[Document], moved: set[str]) -> set[str]:
    """What depends on documents where an answer goes on from file to file."""
    return leading_far(kept, moved) | failing(kept, documents, moved)


def by_packages(kept: Kept, documents: list[Document], moved: set[str]) -> set[str]:
    """What does where the files of a folder are one package: what leads to such depends on a new one."""
    folders = {os.path.dirname(one.uri) for one in documents if one.uri not in kept.documents}
    beside = {uri for uri in kept.documents if os.path.dirname(uri) in folders}
    return by_leads(kept, documents, moved) | leading(kept, beside)


Depends = Callable[[Kept, list[Document], set[str]], set[str]]


def declared(names: Mapping[At, Name], kept: Kept, uris: Iterable[str]) -> tuple[set[str], bool]:
    """Names that documents declare, but not in the same way before, or with errors or nothing that led
    anywhere, so that others may not have known them; and whether what types have differs."""
    words, differs = set[str](), False
    by_uri = defaultdict[str, Counter[Name]](Counter)
    for at, name in names.items():
        by_uri[at[0]][name] += 1
    for uri in uris:
        known = kept.documents.get(uri, Known(""))
        before = Counter(known.names.values() if known.leads and not known.errors else ())
        words.update(word for one in by_uri[uri] - before for word in WORD.findall(one.name))
        own = [
            Counter(
                one._replace(size=(0, 0)) if one.kind == 6 else one
                for one in many.elements()
                if one.kind not in PLAIN
            )
            for many in (by_uri[uri], before)
        ]
        differs = differs or own[0] != own[1]
    return words, differs


def declaring(kept: Kept, words: set[str]) -> set[str]:
    """The documents that declare names with such words, but for what is known where its type is."""
    return {
        at[0]
        for known in kept.documents.values()
        for at, name in known.names.items()
        if name.kind not in MEMBERS and not words.isdisjoint(words_of(name.name))
    }


def words_of(text: str) -> set[str]:
    """The words of a text that may be names."""
    return set(WORD.findall(text))
