"""By what names other packages know the symbols of a folder, and those of other packages it."""

import os
import re
from itertools import takewhile
from typing import Mapping, NamedTuple, Optional, Sequence

from codenav.index.answers import WHOLE, Answers, Place
from codenav.index.documents import Lines, is_own
from codenav.index.languages import is_header, language_of
from codenav.index.packages import Package, crate_of, go_modules, package_of_header
from codenav.outcome import MENDED, Notes
from codenav.texts.places import path_of

DEFINE = re.compile(r"\s*#\s*define\s+$")
MACRO = re.compile(r"\s*(?:pub\s+)?macro(?:_rules!)?\s+$")
EXPORTED = re.compile(r"\s*#\[macro_export\b")
IMPL = re.compile(r"impl\b\s*(?:<[^ ]*>\s+)?")
RECEIVER = re.compile(r"\(?\*?(\w+)\)?\.")


class Moniker(NamedTuple):
    """A symbol's identifier within its package, and whether it's an export of the folder or an
    import."""

    identifier: str
    kind: str
    package: Package


def included(path: str) -> str:
    """A header as it's included, by its path below its package."""
    parts = path.split("/")
    for folder in ("include", "src"):
        if folder in parts[:-1]:
            parts = parts[parts.index(folder) + 1 :]
    return "/".join(parts)


def module_of(path: str) -> Optional[list[str]]:
    """The module that a file of a crate is, by its path below that; None where no other crate may use
    it."""
    top, *parts = path.removesuffix(".rs").split("/")
    if top != "src" or not parts or parts[0] in ("bin", "main"):
        return None
    return parts[:-1] if parts[-1] in ("lib", "mod") else parts


def identifier_of(package: Package, path: str, names: Sequence[str]) -> Optional[str]:
    """The identifier of names one in the other in a file of a package, by its path below that; None
    where it's none that another package may use."""
    if package.manager == "cargo":
        module = module_of(path)
        parts = [IMPL.sub("", name) if IMPL.match(name) else name for name in names]
        return None if module is None else "::".join([*module, *parts]) or "crate"
    if not names:
        return None
    if package.manager == "gomod":
        parts = [RECEIVER.sub(r"\1.", name) for name in names]
        if not parts[-1].rpartition(".")[2][:1].isupper():
            return None
        of = "" if package.name == "std" else package.name
        return "/".join(filter(None, [of, os.path.dirname(path)])) + "." + ".".join(parts)
    if not is_header(path):
        return None
    return f"{included(path)}:{'.'.join(names)}"


class Packages:
    """The packages of documents: of a folder's own by their languages, and of others that are on
    the server."""

    def __init__(
        self, root: str, own: Mapping[str, Optional[Package]], on_server: Sequence[str]
    ) -> None:
        self.root, self.own, self.on_server = root, own, on_server
        self.known: Mapping[str, Package] = {}

    def found(self, uri: str) -> Optional[tuple[Package, str]]:
        """The package of a document, and its path below that; None where that isn't known, or it's one
        that isn't on the server."""
        path = path_of(uri, []) or ""
        if is_own(path, self.root):
            known = language_of(path)
            own = self.own.get(known[0].name) if known else None
            crate = crate_of(path) if path.endswith(".rs") else None
            if crate and os.path.join(self.root, crate[1]) != path:
                return crate
            return (own, os.path.relpath(path, self.root)) if own else None
        found = self.installed(uri, path) if self.on_server else None
        return found if found and found[0].name in self.on_server else None

    def installed(self, uri: str, path: str) -> Optional[tuple[Package, str]]:
        """The package of a document outside of the folder, and its path below that."""
        if uri in self.known:
            return self.known[uri], os.path.basename(path)
        if path.endswith(".go"):
            for folder, package in go_modules(self.root):
                if path.startswith(f"{folder}/"):
                    return package, os.path.relpath(path, folder)
            return None
        if path.endswith(".rs"):
            return crate_of(path)
        header = package_of_header(path) if is_header(path) else None
        plain = re.sub("/include/[^/]+-linux-gnu/", "/include/", path)
        return (header, plain.lstrip("/")) if header else None

    def is_elsewhere(self, uri: str) -> bool:
        """Whether a document is of a package on the server."""
        return not is_own(path_of(uri, []) or "", self.root) and self.found(uri) is not None


class Monikers:
    """The names of the symbols that answers lead to. Those of packages that are on the server lead
    to what that has of them, and to no file of this machine."""

    def __init__(self, packages: Packages, answers: Answers, lines: Lines, notes: Notes) -> None:
        self.packages, self.answers, self.lines, self.notes = packages, answers, lines, notes
        self.exported: dict[tuple[Package, str], Place] = {}

    def named(self, place: Place) -> Optional[list[str]]:
        """The names that lead to what is declared at a place, the outermost first; none for a file, and
        None where it's local. What a preprocessor defines isn't among the names that servers
        list, and a macro of Rust is its crate's where it's exported."""
        name, before = self.answers.names.get(place.at), self.lines.before(place)
        if name and not MACRO.fullmatch(before):
            return [*name.around, name.name]
        if place[1:] == (0, 0, 0, 0):
            return []
        is_macro = place.line == place.end_line and DEFINE.fullmatch(before)
        return [self.lines.text(place)] if is_macro else None

    def identifier(self, package: Package, path: str, place: Place) -> Optional[str]:
        """The identifier of what is declared at a place of a file of a package."""
        if package.manager == "cargo" and MACRO.fullmatch(self.lines.before(place)):
            above = reversed(self.lines.of(place.uri)[: place.line])
            marks = takewhile(lambda line: line.lstrip().startswith(("#[", "//")), above)
            return f"{self.lines.text(place)}!" if any(map(EXPORTED.match, marks)) else None
        names = self.named(place)
        return None if names is None else identifier_of(package, path, names)

    def is_own(self, place: Place) -> bool:
        """Whether a place is in a file of the folder."""
        return is_own(path_of(place.uri, []) or "", self.packages.root)

    def known(self, place: Place) -> Optional[tuple[Package, str]]:
        """The package and the identifier of what is declared at a place; None where it has none. That of
        a whole file isn't the first word's."""
        at = place.at if place.line == place.end_line else (place.uri, WHOLE, 0)
        if at in self.answers.identifiers:
            named = self.answers.identifiers[at]
            is_shown = self.is_own(place) or named[0].name in self.packages.on_server
            return named if is_shown else None
        found = self.packages.found(place.uri)
        identifier = self.identifier(*found, place) if found else ""
        return (found[0], identifier) if found and identifier else None

    def of(self, symbol: Place, declared: Sequence[Place]) -> Optional[Moniker]:
        """The moniker of a symbol; None where it has none. Of two exports with one identifier the second
        has none."""
        for place in (symbol, *declared):
            found = self.known(place)
            if found is None:
                continue
            package, identifier = found
            if identifier.encode(errors="replace").decode() != identifier:
                self.notes.leave_out("a name for other projects that isn't UTF-8", str(place))
                continue
            if not self.is_own(place):
                return Moniker(identifier, "import", package)
            if self.exported.setdefault(found, symbol) != symbol:
                what = "two exports of one identifier, of which the second has none"
                self.notes.add(MENDED, what, str(place))
                return None
            return Moniker(identifier, "export", package)
        return None
