"""Trees of Python made by chance, whose files lead from one to the other, and edits of them."""

import random

CLASSES, FUNCTIONS, NAMES = ("C", "D", "E"), ("make", "run", "sub"), ("x", "y", "sub")
MODULES = ("a", "b", "c", "p.a", "p.b", "p.sub", "p.q.a", "p.q.b", "n.a", "n.b")
PACKAGES = ("p", "p.q", "n")
MORE = (
    *("p/__init__.py", "p/q/__init__.py", "p/sub.pyi", "a.pyi", "conftest.py", "p/conftest.py"),
    *(
        "queue.py",
        "n/sub.py",
        "n/__init__.py",
        "p/a/__init__.py",
        "src/b.py",
        "test_a.py",
        "p/C.py",
    ),
    *("queue-stubs/__init__.pyi", "o/a.py", "p/q.py", "a/x.py", "lib/p/c.py", "n/r/a.py"),
)


class Tree:
    """The files of a tree, and what becomes of them by edits."""

    def __init__(self, chance: random.Random, files: dict[str, str]) -> None:
        self.chance, self.files = chance, files

    def begin(self) -> None:
        """Has a tree begin."""
        for module in MODULES:
            if self.chance.random() < 0.7:
                self.write(module.replace(".", "/") + ".py")
        for name in ("p/__init__.py", "p/q/__init__.py"):
            if self.chance.random() < 0.8:
                self.write(name)
        self.write("main.py")

    def edit(self) -> None:
        """Has a file differ, come or go."""
        chance, name = self.chance, self.chance.choice(sorted(self.files))
        kind = chance.randrange(8)
        if kind == 0 and len(self.files) > 3:
            del self.files[name]
        elif kind == 1:
            self.write(chance.choice([*MORE, *(one.replace(".", "/") + ".py" for one in MODULES)]))
        elif kind == 2:
            self.files[name] = "# moved\n" + self.files[name]
        elif kind == 3:
            self.files[name] += self.statement(name)
        elif kind == 4:
            one, other = chance.sample([*CLASSES, *NAMES], 2)
            self.files[name] = self.files[name].replace(one, other)
        elif kind == 5:
            to, text = chance.choice([*MORE, *sorted(self.files)]), self.files.pop(name)
            self.put(to, text)
        else:
            self.write(name)

    def write(self, name: str) -> None:
        """Has a file a text by chance."""
        lines = [self.imported(name) for _ in range(self.chance.randrange(4))]
        lines += [self.statement(name) for _ in range(self.chance.randrange(1, 6))]
        self.put(name, "".join(lines))

    def put(self, name: str, text: str) -> None:
        """Has a file a text, and no other file be one of the folders around it, or in it."""
        for other in list(self.files):
            if name.startswith(f"{other}/") or other.startswith(f"{name}/"):
                del self.files[other]
        self.files[name] = text

    def imported(self, name: str) -> str:
        """An import by chance."""
        chance, is_inner = self.chance, "/" in name
        module, package = chance.choice(MODULES), chance.choice(PACKAGES)
        own = chance.choice([*CLASSES, *FUNCTIONS, *NAMES])
        rows = [f"import {module}", f"from {module} import {own}", f"from {module} import *"]
        rows += [f"import {package}", f"from {package} import {chance.choice('abq')}, {own} as z"]
        rows += [f"from {package} import {own}", f"import {module} as {chance.choice('abpz')}"]
        rows += [f"try: import none\nexcept ImportError: import {module} as none", "import queue"]
        rows += [f"if C: from {module} import C\nelse: from {package} import C", "import os, json"]
        if is_inner:
            rows += [
                f"from . import {chance.choice('abq')}",
                f"from .{chance.choice('ab')} import *",
            ]
            rows += [f"from .. import {own}", f"from .sub import {own}", "from . import *"] * 2
        return chance.choice(rows) + "\n"

    def value(self) -> str:
        """An expression by chance."""
        chance = self.chance
        module, one = chance.choice(MODULES), chance.choice(CLASSES)
        called = [chance.choice(FUNCTIONS), f"{module}.{chance.choice(FUNCTIONS)}"]
        rows = [f"{one}()", f"{module}.{one}()", f"{chance.choice(called)}()", chance.choice(NAMES)]
        rows += [f"{module}.{chance.choice(NAMES)}", f"[{one}()][0]", f"getattr({module}, 'x')"]
        rows += [
            f"{one}().run()",
            f"{one}(x={module}.{one}()).x",
            "queue.Queue()",
            "p.sub",
            "'text'",
        ]
        return chance.choice(rows)

    def statement(self, name: str) -> str:
        """A statement by chance."""
        chance, own = self.chance, self.chance.choice(NAMES)
        maker, value, other = chance.choice(FUNCTIONS), self.value(), self.value()
        base = chance.choice([*CLASSES, f"{chance.choice(MODULES)}.{chance.choice(CLASSES)}", ""])
        inner = [
            f"    def {maker}(self): return {value}",
            f"    def __init__(self, {own}=None): self.{own} = {value}",
            f"    {own} = {value}",
            f"    @property\n    def {own}(self): return {value}",
            f"    def run(self): return self.{own}.{chance.choice(NAMES)}",
        ]
        body = "\n".join(chance.sample(inner, chance.randrange(1, 4)))
        rows = [
            f"class {chance.choice(CLASSES)}({base}):\n{body}\n",
            f"def {maker}({own}={value}):\n    return {other}\n",
            f"{own} = {value}\n",
            f"{value}.{own}\n{other}.run().{own}\n",
            f"{maker}({own}={value}).{chance.choice(NAMES)}\n",
            f"{value}.{own} = {other}\n",
            f"match {value}:\n    case {chance.choice(CLASSES)}({own}=1) as {own}: {own}.run\n",
            f"def {maker}(a):\n    '''\n    :type a: {chance.choice(MODULES)}.C\n    '''\n    return a.x\n",
            f"def test_a({own}): {own}.run().x\n",
            f"@pytest.fixture\ndef {own}(): return {value}\n",
            f"__all__ = {chance.sample([*CLASSES, *NAMES, 'a', 'q'], 3)}\n",
            "import sys\nsys.path.insert(0, 'p')\n",
        ]
        return chance.choice(rows[:8] * 2 + rows)
