"""Programs of Python made by chance that say themselves what their names are: each value that is bound
says where, and each use what it has. They're marked as the rows of `test_index_python` are."""

import random
import re
import textwrap
from typing import Callable

from codenav.texts.places import units

At = tuple[str, int, int]

MARK = re.compile(r"«([^:»]*):([^»]*)»")
"""`«1:name»` is the place 1, and `«name:1 2»` a word that leads to the places 1 and 2, or nowhere."""
OUTER = re.compile("(global|nonlocal) .*")
NAMES = "xyz"
FUNCTIONS, CLASSES, FILES = "fg", "CD", "abc"
GUARD = "except (NameError, AttributeError, ImportError): pass"


class Program:
    """A package of modules."""

    def __init__(self, seed: int, package: str) -> None:
        self.chance, self.package = random.Random(seed), package
        self.places = self.uses = 0
        self.files = {f"{package}/{name}.py": "" for name in FILES}
        self.files |= {f"{package}/__init__.py": "", "main.py": ""}
        for name in self.files:
            self.file = name
            lines = self.block("module", 2, 8)
            if self.chance.random() < 0.3:
                names = self.chance.sample(NAMES + FUNCTIONS, self.chance.randrange(4))
                lines.insert(0, f"__all__ = {names}")
            if name == "main.py":
                lines = self.imports() + self.imports() + lines + self.used("module")
            text = "\n".join([*lines, ""])
            self.files[name] = text if compiles(text) else OUTER.sub("pass", text)

    def place(self, name: str) -> tuple[str, str]:
        """A name that is bound, and a value that says where."""
        self.places += 1
        return f"«{self.places}:{name}»", f"B({self.places})"

    def use(self, name: str) -> str:
        """A call that says what a name has, whose last part is asked for."""
        self.uses += 1
        before, dot, last = name.rpartition(".")
        return f"see({self.uses}, {before}{dot}«{last}:{self.uses}»)"

    def guarded(self, line: str) -> list[str]:
        """A statement that may fail for what isn't bound."""
        return ["try:", f"    {line}", GUARD]

    def name(self) -> str:
        """A name by chance."""
        return self.chance.choice(NAMES)

    def used(self, kind: str) -> list[str]:
        """Uses of names."""
        chance = self.chance
        found = list[str]()
        for name in chance.sample(NAMES + FUNCTIONS + CLASSES + FILES, 4):
            found += self.guarded(self.use(name))
        before = chance.choice([*CLASSES, *FILES, f"{self.package}.{chance.choice(FILES)}"])
        before = "self" if kind == "method" and chance.random() < 0.6 else before
        return found + self.guarded(self.use(f"{before}.{chance.choice(NAMES + FUNCTIONS)}"))

    def block(self, kind: str, depth: int, most: int, is_body: bool = False) -> list[str]:
        """Statements by chance."""
        lines = list[str]()
        if is_body and self.chance.random() < 0.3:
            lines.append(f"{self.chance.choice(['global', 'nonlocal'])} {self.name()}")
        for _ in range(self.chance.randrange(2, most)):
            makers: list[Callable[[str, int], list[str]]] = [self.bound, self.bound, self.read]
            makers += [self.inner, self.changed]
            makers += [self.conditional] if depth else []
            makers += [self.function, self.klass] if depth else []
            makers += [self.imported] if kind == "module" or self.chance.random() < 0.2 else []
            lines += self.chance.choice(makers)(kind, depth)
        return lines

    def read(self, kind: str, _: int) -> list[str]:
        """Uses of names."""
        return self.used(kind)

    def bound(self, kind: str, _: int) -> list[str]:
        """A statement that binds a name."""
        name, value = self.place(self.name())
        rows = [
            f"{name} = {value}",
            f"{name}: B = {value}",
            f"for {name} in [{value}]: pass",
            f"with {value} as {name}: {self.use(self.name())}",
            f"({name} := {value})",
            f"[{name}, *_] = [{value}]",
        ]
        if kind == "method":
            rows += [f"self.{name} = {value}"] * 4
        if self.chance.random() < 0.2:
            lines = [f"try: raise {value}", f"except B as {name}:"]
            return lines + indented(self.guarded(self.use(self.name())))
        if self.chance.random() < 0.2:
            pattern = self.chance.choice([f"{name}", f"B() as {name}", f"[{name}] | B() as {name}"])
            lines = [f"match {value}:", f"    case {pattern if '|' not in pattern else name}:"]
            return lines + indented(indented(self.guarded(self.use(self.name()))))
        return self.guarded(self.chance.choice(rows)) if kind == "method" else self.once(rows)

    def once(self, rows: list[str]) -> list[str]:
        """One of several statements."""
        row = self.chance.choice(rows)
        return self.guarded(row) if row.startswith("with") else [row]

    def changed(self, kind: str, _: int) -> list[str]:
        """A statement that takes a name away, or changes it, which in a class takes that of the module."""
        self.uses += 1
        name = f"«{self.name()}:{self.uses}»"
        rows = [f"del {name}", *([f"{name} += 0"] if kind != "class" else [])]
        return self.guarded(self.chance.choice(rows))

    def conditional(self, kind: str, depth: int) -> list[str]:
        """Statements on a condition."""
        first, second = (self.block(kind, depth - 1, 4) for _ in "12")
        condition = self.chance.choice(["True", "False"])
        return [f"if {condition}:", *indented(first), "else:", *indented(second)]

    def inner(self, _: str, __: int) -> list[str]:
        """Scopes within an expression."""
        name, value = self.place(self.name())
        one, two, text = (self.use(self.name()) for _ in "123")
        other, its = self.place(self.name())
        rows = [
            f"[{one} for {name} in [{value}] if {two} or 1]",
            f"list({one} for {name} in [{value}] for {other} in [{its}] if {two} or 1)",
            f"(lambda {name}={value}: {one})()",
            f"{{{one}: {two} for {name} in [{value}]}}",
            f"f'{{{text}}} {{{one}!r:>9}}'",
            f"[[{one} for _ in '1'] for {name} in [{value}]]",
        ]
        return self.guarded(self.chance.choice(rows))

    def function(self, kind: str, depth: int) -> list[str]:
        """A function, and a call of it."""
        name, _ = self.place(self.chance.choice(FUNCTIONS))
        plain = name[name.index(":") + 1 : -1]
        is_method = kind == "class"
        parameters = ["self"] if is_method else []
        if self.chance.random() < 0.5:
            parameter, value = self.place(self.name())
            parameters.append(f"{parameter}={value}")
        body = self.block("method" if is_method else "function", depth - 1, 5, True)
        lines = [f"def {name}({', '.join(parameters)}):", *indented(body + self.used("function"))]
        return lines if is_method else lines + self.guarded(f"{plain}()")

    def klass(self, _: str, depth: int) -> list[str]:
        """A class, an instance, and calls of its methods."""
        name, _value = self.place(self.chance.choice(CLASSES))
        plain, number = name[name.index(":") + 1 : -1], name[1 : name.index(":")]
        body = [f"n_ = {number}", *self.block("class", depth - 1, 6)]
        base = self.chance.choice(["", "", "(B)"])
        calls = [line for f in FUNCTIONS for line in self.guarded(f"{plain}().{f}()")]
        return [f"class {name}{base}:", *indented(body), *calls]

    def imports(self) -> list[str]:
        """All modules."""
        found = list[str]()
        for name in FILES:
            found += self.guarded(f"import {self.package}.{name}")
        return found

    def imported(self, kind: str, _: int) -> list[str]:
        """An import, with what it binds."""
        chance, package = self.chance, self.package
        module, name = chance.choice(FILES), chance.choice(NAMES + FUNCTIONS)
        self.uses += 1
        use, to = f"«{{}}:{self.uses}»", chance.choice(NAMES)
        rows = [
            (f"from {package}.{module} import {use.format(name)}", name),
            (f"from {package}.{module} import {use.format(name)} as {to}", to),
            (f"from {package} import {use.format(module)}", module),
            (f"from {package} import {use.format(name)}", name),
            (f"from {package} import {module} as {use.format(to)}", to),
            (f"import {package}.{module} as {use.format(to)}", to),
            (f"import {package}.{use.format(module)}", f"{package}.{module}"),
        ]
        if self.file != "main.py":
            rows.append((f"from . import {use.format(module)}", module))
            rows.append((f"from .{module} import {use.format(name)}", name))
        line, bound = chance.choice(rows)
        if kind == "module" and chance.random() < 0.3:
            return self.guarded(f"from {package}.{module} import *")
        return self.guarded(f"{line}; see({self.uses}, {bound})")


RUN = """
import builtins, collections, json, os, sys, types

class B(Exception):
    def __init__(self, number=0): self.number = number
    def __enter__(self): return self
    def __exit__(self, *_): return None
    def __add__(self, _): return self

def see(number, value):
    seen[number].append(value)
    return value

def said(value):
    if isinstance(value, B): return value.number
    if isinstance(value, type): return value.__dict__.get("n_", 0)
    if isinstance(value, types.ModuleType): return [os.path.relpath(value.__file__, sys.argv[1]), -1]
    if not isinstance(value, types.FunctionType): return 0
    code = value.__code__
    return [os.path.relpath(code.co_filename, sys.argv[1]), code.co_firstlineno - 1]

seen = collections.defaultdict(list)
builtins.B, builtins.see = B, see
sys.path[0] = sys.argv[1]
sys.setrecursionlimit(200)
try:
    import main
except Exception:  # by chance: what was seen up to there counts
    pass
print(json.dumps({number: list(map(said, values)) for number, values in seen.items()}))
"""
"""Runs the program in a folder, and says of each use what it had: the number of the place that bound it,
the file and the line of a function, or the file of a module."""


def marked(files: dict[str, str]) -> tuple[dict[str, str], dict[str, At], dict[At, str]]:
    """The texts without their marks, the places by their numbers, and the words with what is wanted of
    them."""
    texts, places, wanted = dict[str, str](), dict[str, At](), dict[At, str]()
    for name, text in files.items():
        lines = list[str]()
        for number, line in enumerate(textwrap.dedent(text).lstrip("\n").split("\n")):
            while mark := MARK.search(line):
                at = name, number, units(line[: mark.start()])
                is_place = mark[1].isdigit()
                if is_place:
                    places[mark[1]] = at
                else:
                    wanted[at] = mark[2]
                line = line[: mark.start()] + mark[2 if is_place else 1] + line[mark.end() :]
            lines.append(line)
        texts[name] = "\n".join(lines)
    return texts, places, wanted


def compiles(text: str) -> bool:
    """Whether Python takes a text with marks."""
    try:
        compile(MARK.sub(lambda mark: mark[2 if mark[1].isdigit() else 1], text), "-", "exec")
    except SyntaxError:
        return False
    return True


def indented(lines: list[str]) -> list[str]:
    """Lines of a block."""
    return [f"    {line}" for line in lines]
