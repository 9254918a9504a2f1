"""The modules that files import: those of the folder, and those of this machine's Python."""

import ast
import os
from functools import lru_cache
from typing import Iterable, Iterator, Optional

from codenav.faults import BadCall
from codenav.index.python.reading import Reader
from codenav.index.python.scopes import Import, Scope, Symbol
from codenav.index.python.source import At, Source, Unread
from codenav.index.python.touched import Touched
from codenav.index.python.words import Bound, Led, Word
from codenav.texts.decoded import body_of
from codenav.texts.places import units

ENDINGS = ("/__init__.py", ".py", "/__init__.pyi", ".pyi")
SYSTEM_PATH = "posixpath"
"""What `os.path` is here: the module binds it to one or another by what the system is."""


class Module:
    """A module, or a folder that is a package without a file: its scope, the modules of which it
    imports all, its words and the symbol that each binds, where the words are in what editors show,
    and what stands for the names in `__all__`; the encoding of its text, the number of its lines, and
    its soft keywords with what may stand in their place."""

    def __init__(self, path: str) -> None:
        self.path = path
        self.is_folder = os.path.isdir(path)
        is_package = self.is_folder or os.path.basename(path).startswith("__init__.")
        self.package = path if self.is_folder else os.path.dirname(path) if is_package else ""
        self.scope = Scope("module", None, self, "")
        self.stars = list[Import]()
        self.words, self.bound = dict[At, Word](), dict[At, Symbol]()
        self.spans = dict[At, tuple[int, int]]()
        self.listed: Optional[list[ast.expr]] = None
        self.soft = list[tuple[At, str]]()
        self.text, self.encoding, self.length = "", "utf-8", 1

    def read(self, is_asked: bool) -> None:
        """Reads it, with all its words where it's asked of them. Raises Unread."""
        try:
            source = Source(body_of(self.path))
            reader = Reader(source, self.scope)
        except BadCall as fault:
            raise Unread("what can't be read", str(fault)) from None
        except RecursionError:
            raise Unread("what is nested too deeply") from None
        self.stars, self.listed = reader.stars, listed(source.tree)
        self.text = ast.get_docstring(source.tree) or ""
        self.encoding, self.length, self.soft = source.encoding, len(source.lines), reader.soft
        for at, word in reader.words.items():
            own = word.symbol if isinstance(word, (Bound, Led)) else None
            if own is not None:
                self.bound[at] = own
            if is_asked or own is not None:
                start, width = source.column(*at), source.width(at)
                text = source.lines[at[0]][at[1] : at[1] + width]
                self.spans[at] = start, start + (width if text.isascii() else units(text))
        if is_asked:
            self.words = dict(sorted(reader.words.items()))


def listed(tree: ast.Module) -> Optional[list[ast.expr]]:
    """The expressions whose names `__all__` has; None where there's none."""
    found: Optional[list[ast.expr]] = None
    for node in ast.walk(tree):
        if isinstance(node, ast.Assign) and any(map(is_list, node.targets)):
            found = [*(found or []), node.value]
        elif isinstance(node, (ast.AugAssign, ast.AnnAssign)) and is_list(node.target):
            found = [*(found or []), *([node.value] if node.value else [])]
        elif isinstance(node, ast.Call) and isinstance(node.func, ast.Attribute):
            if is_list(node.func.value) and node.func.attr in ("extend", "append"):
                found = [*(found or []), *node.args]
    return found


def is_list(node: ast.expr) -> bool:
    """Whether this is `__all__`."""
    return isinstance(node, ast.Name) and node.id == "__all__"


class Modules:
    """The modules that a folder's files import. `paths` are where this machine's Python has its
    own, and `stubs` where those are that say what modules have that aren't in Python."""

    def __init__(self, folder: str, paths: list[str], stubs: list[str]) -> None:
        self.folder, self.paths, self.stubs = folder, paths, stubs
        self.kept = dict[str, Optional[Module]]()
        self.faults = dict[str, Unread]()
        self.others = list[str]()
        self.touched = Touched(folder)

    def tops(self) -> Iterator[str]:
        """The files and the folders of the modules that are imported from the folder, or from one in
        it."""
        for folder in {
            self.folder,
            *(f"{self.folder}/{own}" for own in ("src", "lib")),
            *self.others,
        }:
            for name in sorted(self.entries(folder)):
                path = os.path.join(folder, name)
                if name.endswith(".py") or os.path.isfile(os.path.join(path, "__init__.py")):
                    yield path

    def is_own(self, path: str) -> bool:
        """Whether a file is of the folder."""
        return path.startswith(self.folder.rstrip("/") + "/")

    def at(self, path: str) -> Optional[Module]:
        """The module of a file or a folder; None where that can't be read."""
        self.touched.file(path)
        if path not in self.kept:
            module = Module(path)
            self.kept[path] = module
            try:
                if not module.is_folder:
                    module.read(self.is_own(path))
            except Unread as fault:
                self.kept[path], self.faults[path] = None, fault
        return self.kept[path]

    @lru_cache(maxsize=None)
    def entries(self, folder: str) -> frozenset[str]:
        """The names in a folder."""
        self.touched.around.add(folder)
        try:
            return frozenset(os.listdir(folder or "."))
        except OSError:
            return frozenset()

    def below(self, folder: str, name: str, is_whole: bool = True) -> Optional[str]:
        """The file of a module of a folder; where none of a name is there its folder, if any may
        be."""
        entries = self.entries(folder)
        if name in entries or f"{name}.py" in entries or f"{name}.pyi" in entries:
            path = os.path.join(folder, name)
            for ending in ENDINGS:
                if os.path.isfile(path + ending):
                    return path + ending
            if is_whole and os.path.isdir(path):
                return path
        return None

    @lru_cache(maxsize=None)
    def root(self, path: str) -> str:
        """The folder that the module of a file is imported from."""
        folder = os.path.dirname(path)
        self.touched.around.add(folder)
        while os.path.isfile(os.path.join(folder, "__init__.py")):
            folder = os.path.dirname(folder)
            self.touched.around.add(folder)
        return folder

    @lru_cache(maxsize=None)
    def top(self, root: str, name: str) -> Optional[str]:
        """The file of a module without a package around it, for one that is imported from a folder."""
        folders = [root, self.folder, *(f"{self.folder}/{own}" for own in ("src", "lib"))]
        own = folders if self.is_own(root + "/") else []
        for is_whole in (False, True):
            for folder in own:
                found = self.below(folder, name, is_whole)
                if found:
                    return found
            others = {self.below(folder, name, is_whole) for folder in self.others if own} - {None}
            if len(others) == 1:
                return others.pop()
            for folder in [*self.paths, *self.stubs]:
                found = self.below(folder, name, is_whole)
                if found:
                    return found
        return None

    def child(self, module: Module, name: str) -> Optional[Module]:
        """A module of a package."""
        self.touched.names.add(name)
        found = self.below(module.package, name) if module.package else None
        return self.at(found) if found else None

    def found(self, base: Module, level: int, name: str) -> Optional[Module]:
        """The module that a name means in another one; None where it isn't known."""
        parts: Iterable[str] = filter(None, name.split("."))
        if level == 0:
            first = next(iter(parts), "")
            self.touched.names.add(first)
            path = self.top(self.root(base.path), first)
        else:
            path = os.path.dirname(base.path)
            for _ in range(level - 1):
                path = os.path.dirname(path)
            self.touched.names.add(os.path.basename(path))
            path = self.below(os.path.dirname(path), os.path.basename(path))
        module = self.at(path) if path else None
        for part in parts:
            if module is None:
                return None
            module = self.child(module, part) or self.system_path(module, part)
        return module

    def system_path(self, module: Module, name: str) -> Optional[Module]:
        """What `path` of the module `os` is."""
        is_os = name == "path" and os.path.basename(module.path) == "os.py"
        path = self.top(self.root(module.path), SYSTEM_PATH) if is_os else None
        return self.at(path) if path and not self.is_own(module.path) else None


def constants(node: ast.expr) -> Iterator[str]:
    """The texts in a list or the like; raises ValueError where there's something else."""
    if isinstance(node, ast.Constant) and isinstance(node.value, str):
        yield node.value
    elif isinstance(node, (ast.List, ast.Tuple, ast.Set)):
        for own in node.elts:
            yield from constants(own)
    elif isinstance(node, ast.BinOp) and isinstance(node.op, ast.Add):
        yield from constants(node.left)
        yield from constants(node.right)
    else:
        raise ValueError("not known")
