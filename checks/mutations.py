#!/usr/bin/env python3
"""Plants one wrong body at a time in the tools and runs the tests that import its file: what no test
notices shows what they leave out. Comparisons, conditions, sums, constants, and calls that are left
out are changed, at random places; a file's chance is by its places.

Each change is made in a copy of the clone, and of the test modules next to its file by imports so
many are run, the quickest first, up to one that fails and passes over a copy without a change. Each
is a line, a survivor's with its text before and after; the last has how many of all were noticed.
By hand, minutes for each ten.

usage: checks/mutations.py [--seed N] [--count N] [--only WORD] [--jobs N] [--most N] [PROGRAM]
"""

import argparse
import ast
import copy
import os
import random
import shutil
import signal
import subprocess
import sys
import tempfile
import time
from collections import deque
from concurrent.futures import ThreadPoolExecutor
from contextlib import contextmanager, suppress
from pathlib import Path
from typing import Any, Iterator, NamedTuple, Optional

TOP = Path(__file__).resolve().parent.parent
PACKAGE = TOP / "tools" / "codenav"
SECONDS = 600
# not run: they look at all files, or at what is written of them
NOT_RUN = ("tests.test_lint", "tests.test_layers", "tests.test_pages", "tests.test_package")
SWAPS: dict[type[ast.AST], type[ast.AST]] = {
    ast.Lt: ast.LtE,
    ast.LtE: ast.Lt,
    ast.Gt: ast.GtE,
    ast.GtE: ast.Gt,
    ast.Eq: ast.NotEq,
    ast.NotEq: ast.Eq,
    ast.In: ast.NotIn,
    ast.NotIn: ast.In,
    ast.Is: ast.IsNot,
    ast.IsNot: ast.Is,
    ast.And: ast.Or,
    ast.Or: ast.And,
    ast.Add: ast.Sub,
    ast.Sub: ast.Add,
}


class Wrong(NamedTuple):
    """A wrong body: its file, the line, and the line before and after."""

    file: str
    line: int
    before: str
    after: str
    text: str


def is_text(node: ast.AST) -> bool:
    """Whether a node is a string that is a statement, as of a docstring."""
    return isinstance(node, ast.Expr) and isinstance(node.value, ast.Constant)


def places_in(tree: ast.AST) -> Iterator[tuple[int, str]]:
    """The places of a tree where something can be changed: a node's number in a walk, and how."""
    annotations = set[int]()
    for node in ast.walk(tree):
        for name in ("annotation", "returns"):
            found = getattr(node, name, None)
            if found is not None:
                annotations |= {id(one) for one in ast.walk(found)}
    for number, node in enumerate(ast.walk(tree)):
        if id(node) in annotations:
            continue
        if isinstance(node, (ast.Compare, ast.BoolOp, ast.BinOp)):
            own = node.ops[0] if isinstance(node, ast.Compare) else node.op
            if type(own) in SWAPS:
                yield number, "swap"
        elif isinstance(node, ast.UnaryOp) and isinstance(node.op, ast.Not):
            yield number, "drop not"
        elif isinstance(node, (ast.If, ast.IfExp, ast.While)):
            yield number, "negate"
        elif isinstance(node, ast.Constant) and type(node.value) in (int, bool):
            yield number, "constant"
        elif isinstance(node, ast.Expr) and isinstance(node.value, ast.Call):
            yield number, "drop call"
        elif isinstance(node, ast.Return) and node.value is not None:
            yield number, "answer none"


def changed(tree: ast.AST, number: int, how: str) -> tuple[ast.AST, int]:
    """A copy of a tree with one place changed, and the line of it."""
    tree = copy.deepcopy(tree)
    node = list(ast.walk(tree))[number]
    line = getattr(node, "lineno", 1)
    if how == "swap" and isinstance(node, ast.Compare):
        setattr(node, "ops", [SWAPS[type(node.ops[0])](), *node.ops[1:]])
    elif how == "swap" and isinstance(node, (ast.BoolOp, ast.BinOp)):
        setattr(node, "op", SWAPS[type(node.op)]())
    elif how == "drop not" and isinstance(node, ast.UnaryOp):
        node.op, node.operand = ast.Not(), ast.UnaryOp(ast.Not(), node.operand)
    elif how == "negate" and isinstance(node, (ast.If, ast.IfExp, ast.While)):
        node.test = ast.UnaryOp(ast.Not(), node.test)
    elif how == "constant" and isinstance(node, ast.Constant):
        was: Any = node.value
        node.value = not was if isinstance(was, bool) else was + 1
    elif how == "drop call" and isinstance(node, ast.Expr):
        node.value = ast.Constant(None)
    elif how == "answer none" and isinstance(node, ast.Return):
        node.value = ast.Constant(None)
    return ast.fix_missing_locations(tree), line


def line_changes(before: str, after: str) -> tuple[str, str]:
    """The lines in which two texts differ."""
    old, new = before.split("\n"), after.split("\n")
    pairs = [(a, b) for a, b in zip(old, new) if a != b] or [("", "")]
    return pairs[0][0].strip(), pairs[0][1].strip()


def wrong_bodies(random_: random.Random, count: int, only: str) -> list[Wrong]:
    """So many wrong bodies, of which each says something else."""
    files = [path for path in sorted(PACKAGE.rglob("*.py")) if only in str(path)]
    trees = {path: ast.parse(path.read_text("utf-8")) for path in files if "_pb2" not in path.name}
    places = [(path, *place) for path, tree in trees.items() for place in places_in(tree)]
    found = []
    for path, number, how in random_.sample(places, min(2 * count, len(places))):
        tree, line = changed(trees[path], number, how)
        text, own = ast.unparse(tree), ast.unparse(trees[path])
        if text != own:
            before, after = line_changes(own, text)
            found.append(Wrong(str(path.relative_to(PACKAGE)), line, before, after, text))
        if len(found) == count:
            break
    return found


def passes(name: str, tools: str, program: Optional[str]) -> bool:
    """Whether a test module passes over tools, within the time."""
    with subprocess.Popen(
        [sys.executable, "-B", "-m", "unittest", "-q", "-f", name],
        cwd=tools,
        env={**os.environ, **({"CODENAV_PROGRAM": program} if program else {})},
        stdin=subprocess.DEVNULL,
        stdout=subprocess.DEVNULL,
        stderr=subprocess.DEVNULL,
        start_new_session=True,
    ) as call:
        try:
            return call.wait(SECONDS) == 0
        except subprocess.TimeoutExpired:
            return False
        finally:
            with suppress(ProcessLookupError):
                os.killpg(call.pid, signal.SIGKILL)  # with what it started


class Tests:
    """The test modules, by how far they are from a file: imports lead from one to the other."""

    def __init__(self, program: Optional[str]) -> None:
        self.program = program
        self.holding: dict[str, bool] = {}
        self.seconds: dict[str, float] = {}
        # what starts no server is the fastest, before it's known how long each takes
        self.importers: dict[str, set[str]] = {}
        tools = TOP / "tools"
        for path in sorted([*PACKAGE.rglob("*.py"), *(tools / "tests").glob("*.py")]):
            own = ".".join(path.relative_to(tools).with_suffix("").parts)
            text = path.read_text("utf-8")
            self.seconds[own] = float("OnServer" in text)
            for one in imported(text, own):
                self.importers.setdefault(one, set()).add(own)

    def near(self, file: str, most: int) -> list[str]:
        """The test modules that import a file of the package, so many of those called like it or
        its folder, and then of the nearest: those called like it first, and of these the fastest.
        """
        far = {".".join(["codenav", *Path(file).with_suffix("").parts]): 0}
        waiting = deque(far)
        while waiting:
            last = waiting.popleft()
            for one in self.importers.get(last, ()):
                if one not in far:
                    far[one] = far[last] + 1
                    waiting.append(one)
        found = [one for one in far if one.startswith("tests.test_") and one not in NOT_RUN]
        words = [word.rstrip("s") for word in Path(file).with_suffix("").parts]

        own = {one: -sum(word in one for word in words) for one in found}
        nearest = sorted(found, key=lambda one: (own[one], far[one], self.seconds[one]))[:most]
        return sorted(nearest, key=lambda one: (own[one], self.seconds[one]))

    def notice(self, wrong: Wrong, most: int) -> bool:
        """Whether a test fails over a wrong body."""
        with copied() as tools:
            Path(tools, "codenav", wrong.file).write_text(wrong.text, "utf-8")
            for name in self.near(wrong.file, most):
                start = time.monotonic()
                if not passes(name, tools, self.program) and self.holds(name):
                    return True
                self.seconds[name] = time.monotonic() - start
        return False

    def holds(self, name: str) -> bool:
        """Whether a test module passes where nothing is wrong; of one that doesn't it's said."""
        if name not in self.holding:
            with copied() as tools:
                self.holding[name] = passes(name, tools, self.program)
            if not self.holding[name]:
                print(f"{name} fails without a wrong body, and counts for nothing", flush=True)
        return self.holding[name]


def imported(text: str, own: str) -> Iterator[str]:
    """The modules that one imports; calls of the command import all words."""
    for node in ast.walk(ast.parse(text)):
        if isinstance(node, ast.Import):
            yield from (name.name for name in node.names)
        elif isinstance(node, ast.ImportFrom) and node.module:
            yield node.module
            yield from (f"{node.module}.{name.name}" for name in node.names)
    if own == "codenav.cli.main":
        yield from (f"codenav.cli.{path.stem}" for path in PACKAGE.glob("cli/*.py"))
    if "command(" in text and own.startswith("tests."):
        yield "codenav.cli.main"


@contextmanager
def copied() -> Iterator[str]:
    """The tools of a copy of all that git has of the clone, as it is now."""
    listed = subprocess.run(["git", "ls-files", "-z"], cwd=TOP, capture_output=True, check=True)
    with tempfile.TemporaryDirectory() as room:
        os.chmod(room, 0o755)  # another user's processes read it too
        for name in os.fsdecode(listed.stdout).split("\0")[:-1]:
            os.makedirs(os.path.dirname(os.path.join(room, name)), exist_ok=True)
            shutil.copy2(TOP / name, os.path.join(room, name), follow_symlinks=False)
        yield f"{room}/tools"


def main() -> int:
    """Plants wrong bodies, and prints those that no test notices."""
    parser = argparse.ArgumentParser(description=__doc__.partition("\n\n")[0])
    parser.add_argument("--seed", type=int, default=1)
    parser.add_argument("--count", type=int, default=100)
    parser.add_argument("--only", default="", metavar="WORD", help="files that have it in a path")
    parser.add_argument("--jobs", type=int, default=2)
    parser.add_argument("--most", type=int, default=5, help="so many test modules for each; 5")
    parser.add_argument("program", nargs="?", help="the built program; without it a stand-in")
    call = parser.parse_args()
    program = os.path.abspath(call.program) if call.program else None
    tests = Tests(program)
    wrong = wrong_bodies(random.Random(call.seed), call.count, call.only)

    def tried(one: Wrong) -> bool:
        noticed = tests.notice(one, call.most)
        said = "noticed" if noticed else f"{one.before}  ->  {one.after}"
        print(f"{one.file}:{one.line}: {said}", flush=True)
        return noticed

    with ThreadPoolExecutor(call.jobs) as pool:
        count = sum(pool.map(tried, wrong))
    print(f"{count} of {len(wrong)} noticed, seed {call.seed}")
    return 0


if __name__ == "__main__":
    sys.exit(main())
