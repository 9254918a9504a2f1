"""The settings of language servers for a folder and its documents."""

import os
from typing import Any, Iterable, Sequence

from codenav.index.again import INCLUDE
from codenav.index.building import DATABASES, FLAGS, above
from codenav.index.given import Document
from codenav.texts.decoded import is_utf_8
from codenav.texts.places import path_of


def none(_: str, __: Sequence[Document]) -> dict[str, Any]:
    """The settings of a server that needs none."""
    return {}


def is_in_c(documents: Iterable[Document]) -> bool:
    """Whether all documents are in C."""
    return all(one.language == "c" for one in documents)


def header_folders(folder: str) -> list[str]:
    """Where headers are looked for where nothing says how files are compiled: the folder's own ones
    come before installed ones."""
    folders = [folder, *(os.path.join(folder, name) for name in ("include", "src"))]
    return [one for one in folders if os.path.isdir(one)]


def c_flags(folder: str, documents: Sequence[Document]) -> list[str]:
    """How C is compiled where nothing says so: headers are C unless there's C++."""
    flags = [f"-I{one}" for one in header_folders(folder)]
    return [*(["-xc"] if is_in_c(documents) else []), *flags]


def c_headers(folder: str, documents: Sequence[Document]) -> list[str]:
    """The paths of headers that files of C include, over any number of headers; but for those that
    C++ includes too and that say how it reads them."""
    paths = {path_of(one.uri, []) or "": one for one in documents}
    folders = header_folders(folder)

    def included(by: str) -> set[str]:
        rest = [
            path for path, one in paths.items() if not path.endswith(".h") and one.language == by
        ]
        found = set[str]()
        while rest:
            path = rest.pop()
            for name in INCLUDE.findall(paths[path].text):
                around = (os.path.dirname(path), *folders)
                places = (os.path.normpath(os.path.join(one, name)) for one in around)
                own = next((one for one in places if one in paths), "")
                if own.endswith(".h") and own not in found:
                    found.add(own)
                    rest.append(own)
        return found

    by_others = included("cpp")
    return sorted(
        path
        for path in included("c")
        if path not in by_others or "__cplusplus" not in paths[path].text
    )


def is_compiled(path: str) -> bool:
    """Whether something in a folder around a file says how it's compiled."""
    return any(
        os.path.exists(os.path.join(folder, one))
        for folder in above(path)
        for one in (*DATABASES, FLAGS)
    )


def clangd(folder: str, documents: Sequence[Document]) -> dict[str, Any]:
    """The settings of clangd. It would read all headers of a folder with C++ as that: what those of C
    declare would be other functions than those that C defines."""
    flags = c_flags(folder, documents)
    if is_in_c(documents):
        return {"fallbackFlags": flags}
    commands = {
        path: {"workingDirectory": folder, "compilationCommand": ["clang", "-xc", *flags, path]}
        for path in c_headers(folder, documents)
        if is_utf_8(os.fsencode(path)) and not is_compiled(path)
    }
    return {"fallbackFlags": flags, "compilationDatabaseChanges": commands}


def ccls(folder: str, documents: Sequence[Document]) -> dict[str, Any]:
    """The settings of ccls: it writes nothing into the folder, and says where each symbol is."""
    is_known = any(os.path.exists(os.path.join(folder, name)) for name in (*DATABASES, ".ccls"))
    flags = [] if is_known else c_flags(folder, documents)
    build = os.path.join(folder, "build")
    is_there = os.path.exists(os.path.join(build, "compile_commands.json"))
    return {
        "cache": {"directory": ""},
        "clang": {"extraArgs": flags},
        "highlight": {"lsRanges": True},
        "index": {"threads": 1},
        "compilationDatabaseDirectory": build if is_there else "",
    }


def gopls(_: str, __: Sequence[Document]) -> dict[str, Any]:
    """The settings of gopls: it has tokens where that's asked for."""
    return {"semanticTokens": True}


def rust_analyzer(_: str, __: Sequence[Document]) -> dict[str, Any]:
    """The settings of rust-analyzer: nothing is compiled, and nothing made ready that isn't asked."""
    return {"checkOnSave": False, "cachePriming": {"enable": False}}
