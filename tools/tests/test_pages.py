"""Tests of the pages: their lines, their words, their links, the files that they name, their
examples, and that each word of the command has its section.

The examples need the built program, that of this clone or of CODENAV_PROGRAM, and the programs that
they call. They are left out, and said to be, where one of these isn't there.
"""

import functools
import glob
import os
import re
import shutil
import subprocess
import tempfile
import unittest
from dataclasses import dataclass, field
from typing import Iterator

from codenav.program import free_port
from tests.packages import has_rust_analyzer
from tests.servers import NOT_BUILT, TOP, built_program

PAGES = [
    page
    for folder in ("*.md", "docs/*.md", "docs/inside/*.md")
    for page in sorted(glob.glob(folder, root_dir=TOP))
]
MOST_WORDS = 40_000
LONGEST_LINE = 100
MOST_LINES = 120
LINK = re.compile(r"\]\(([^)\s]*)\)")
FENCE = re.compile(r"^ *```", re.MULTILINE)

# ---- files

FILE = re.compile(
    r"[\w.+-]+(?:/[\w.+-]+)*\.(?:rt|antt|py|sh|md|json|toml|lsif|scip|tags|http|replies|png|svg|lua|edit|rs|txt|yml)"
    r"|(?:tools|bench|checks|docs|demo|crates|edits|packaging)/[\w./-]*"
)
# Files of other programs, of the toolchain, or that a reader makes.
ELSEWHERE = {
    *("init.lua", "settings.json", "languages.toml", ".codenav.toml"),
}

# ---- examples: the pages of each go on from one another, in a folder of a clone

SESSIONS = {
    ("README.md", "docs/TOOLS.md"): ".",
    ("docs/API.md",): ".",
    ("docs/SETS.md",): ".",
    ("docs/START.md",): "demo/crate",
}
NEEDED = {"rust-analyzer": "rust-web-analyzer", "ctags": "universal-ctags", "curl": "curl"}
# What an indexer writes of a crate depends on what else is installed, so how much it is isn't
# compared; nor is how long something took, or when.
COUNTED = re.compile(r"^uploaded ")
TIMES = re.compile(r"\d{8}T\d{6}Z|\d+(?:\.\d+)? s\b|\d+ bytes")
PLACE = "/src/codenav"
SECONDS = 600
# It compiles the whole program, which takes minutes; the gate runs the program that it built.
COMPILES = "(cd crates/codenav && rt try "
ASKS = "codenav index "
LEFT_OUT = "..."


@functools.lru_cache(maxsize=None)
def text_of(page: str) -> str:
    with open(os.path.join(TOP, page), encoding="utf-8") as file:
        return file.read()


def prose(page: str) -> Iterator[tuple[int, str]]:
    """The lines of a page that are no code, with their numbers."""
    is_code = False
    for number, line in enumerate(text_of(page).splitlines(), 1):
        if FENCE.match(line):
            is_code = not is_code
        elif not is_code:
            yield number, line


def headings(page: str) -> set[str]:
    """The names by which a link leads to the headings of a page."""
    return {
        re.sub(r"[^a-z0-9 _-]", "", line.lstrip("# ").lower()).replace(" ", "-")
        for _, line in prose(page)
        if line.startswith("#")
    }


@functools.lru_cache(maxsize=None)
def files() -> list[str]:
    """The files of the repository, but what tools and proofs leave."""
    found = []
    for folder, folders, names in os.walk(TOP):
        folders[:] = [name for name in folders if name not in (".git", "out", "__pycache__")]
        found += [os.path.relpath(os.path.join(folder, name), TOP) for name in names]
    return found


@functools.lru_cache(maxsize=None)
def is_there(name: str) -> bool:
    """Whether the path of a file or a folder ends so, an edit's without its suffix; NAME, PATH and
    FUNCTION are any."""
    ending = re.sub("NAME|PATH|FUNCTION", "[^/]+", re.escape(name.strip("/")))
    wanted = re.compile(rf"(?:.*/)?{ending}(?:/.*|\.\w+)?")
    return any(wanted.fullmatch(path) for path in files())


def named_files(page: str) -> Iterator[tuple[int, str]]:
    """The files that a page names in backticks, with their lines."""
    for number, line in prose(page):
        for code in re.findall(r"`([^`]+)`", line):
            for word in code.split():
                if FILE.fullmatch(word):
                    yield number, word


@dataclass
class Example:
    """A command of a page, and the lines that are shown below it."""

    page: str
    command: str
    shown: list[str] = field(default_factory=list)

    def stays(self) -> bool:
        """Whether it goes on by itself, so that only its first lines are compared."""
        return self.command.endswith("&") or self.command.startswith("codenav browse ")


def examples(page: str) -> list[Example]:
    """The commands of a page's examples, in their order."""
    found: list[Example] = []
    for block in FENCE.split(text_of(page))[1::2]:
        is_continued = False
        for line in block.splitlines()[1:]:
            if is_continued:
                found[-1].command = found[-1].command.removesuffix("\\") + line.strip()
            elif line.startswith("$ "):
                found.append(Example(page, line[2:]))
            elif "\n$ " in block:
                found[-1].shown.append(line)
            is_continued = bool(found) and not found[-1].shown and line.endswith("\\")
    return found


def is_shown(found: list[str], shown: list[str]) -> bool:
    """Whether these lines are those that a page shows, which leaves some out where it has three
    dots."""
    if LEFT_OUT not in shown:
        return found == shown
    at = shown.index(LEFT_OUT)
    if found[:at] != shown[:at]:
        return False
    rest = shown[at + 1 :]
    return any(is_shown(found[begin:], rest) for begin in range(at, len(found) + 1))


def without_times(lines: list[str]) -> list[str]:
    """Lines with a letter in the place of what differs from run to run, and of counts that an
    indexer decides."""
    timed = [TIMES.sub("T", line) for line in lines]
    return [re.sub(r"\d+", "N", line) if COUNTED.match(line) else line for line in timed]


class Session:
    """A checkout with the tools and the demo, in which examples run one after the other, on ports
    of their own, with the command `codenav` on the path."""

    def __init__(self, program: str, folder: str, called_in: str) -> None:
        self.folder = os.path.realpath(folder)
        self.called_in = os.path.join(folder, called_in)
        self.ports = {port: str(free_port()) for port in ("8080", "8081", "8082", "8083")}
        self.running: list[subprocess.Popen[bytes]] = []
        for name in ("tools", "demo"):
            shutil.copytree(
                os.path.join(TOP, name),
                os.path.join(folder, name),
                ignore=shutil.ignore_patterns("__pycache__", "target", "tests"),
            )
        for name in ("codenav", ".gitignore"):
            shutil.copy(os.path.join(TOP, name), folder)
        built = os.path.join(folder, "crates", "codenav", "out")
        os.makedirs(built)
        shutil.copy(program, os.path.join(built, "codenav"))
        with open(os.path.join(folder, "crates.txt"), "w", encoding="utf-8"):
            pass
        os.utime(os.path.join(folder, "crates.txt"), (0, 0))
        self.environment = {
            **os.environ,
            "PATH": f"{self.folder}:{os.environ['PATH']}",
            "CODENAV_PROGRAM": os.path.abspath(program),
            "CURL_HOME": self.folder,
            "CARGO_NET_OFFLINE": "true",
        }
        with open(os.path.join(folder, ".curlrc"), "w", encoding="utf-8") as options:
            options.write("silent\nshow-error\n")
        own = ["git", "-c", "user.name=a", "-c", "user.email=a@b"]
        for words in (["init", "--quiet"], ["add", "--all"], ["commit", "--quiet", "-m", "first"]):
            subprocess.run([*own, *words], cwd=folder, check=True)

    def put_ports(self, text: str) -> str:
        return re.sub(r"\b808[0-3]\b", lambda found: self.ports[found[0]], text)

    def output(self, example: Example) -> list[str]:
        """The lines that a command prints; of one that stays, as many as are shown."""
        command = self.put_ports(example.command.removesuffix("&"))
        command = command.replace("codenav browse ", f"codenav browse --port {self.ports['8081']} ")
        process = subprocess.Popen(
            ["bash", "-c", command if not example.stays() else f"exec {command}"],
            cwd=self.called_in,
            env=self.environment,
            stdin=subprocess.DEVNULL,
            stdout=subprocess.PIPE,
            stderr=subprocess.STDOUT,
        )
        if not example.stays():
            output, _ = process.communicate(timeout=SECONDS)
            said = output.decode().replace("\r", "").splitlines()
        else:
            self.running.append(process)
            assert process.stdout is not None
            said = [process.stdout.readline().decode().rstrip("\n") for _ in example.shown]
        return [line.replace(self.folder, PLACE) for line in said]

    def differs(self, example: Example) -> str:
        """How what a command prints differs from what its page shows; an empty text where it
        doesn't."""
        shown = without_times([self.put_ports(line) for line in example.shown])
        found = without_times(self.output(example))
        if is_shown(found, shown):
            return ""
        return f"{example.page}: $ {example.command}\nprints:\n{chr(10).join(found)}\nand not:\n{chr(10).join(shown)}"

    def end(self) -> None:
        for process in self.running:
            process.terminate()
            process.communicate()


class Pages(unittest.TestCase):
    maxDiff = None

    def test_lines(self) -> None:
        wrong = [
            f"{page}:{number}: {len(line)} characters"
            for page in PAGES
            for number, line in prose(page)
            if not line.startswith("|") and len(LINK.sub("]", line)) > LONGEST_LINE
        ]
        self.assertEqual("\n".join(wrong), "")

    def test_words(self) -> None:
        self.assertLessEqual(sum(len(text_of(page).split()) for page in PAGES), MOST_WORDS)

    def test_the_readme(self) -> None:
        text = text_of("README.md")
        self.assertLessEqual(text.count("\n"), MOST_LINES)
        self.assertEqual(set(PAGES) - set(LINK.findall(text)), {"README.md"})

    def test_searches(self) -> None:
        """Each search of the map finds files of the code."""
        with open(os.path.join(TOP, "docs", "inside", "MAP.md"), encoding="utf-8") as page:
            text = page.read()
        searches = [" ".join(one.split()) for one in re.findall(r"`(git grep [^`]*)`", text)]
        self.assertGreater(len(searches), 15)
        for search in searches:
            found = subprocess.run(["sh", "-c", search], cwd=TOP, capture_output=True, check=False)
            own = [one for one in found.stdout.split() if not one.startswith(b"docs/")]
            self.assertGreater(len(own), 1, search)

    def test_each_word(self) -> None:
        """Each word of the command has a section, or a row of the program's table, and examples."""
        said = subprocess.run(
            [os.path.join(TOP, "codenav"), "--help"], capture_output=True, text=True, check=True
        )
        words = re.findall(r"^  ([a-z-]+)  ", said.stdout, re.MULTILINE)
        self.assertIn("publish", words)
        text = text_of("docs/TOOLS.md")
        titles = [
            word
            for title in re.findall(r"^## (.*)$", text, re.MULTILINE)
            for word in title.split(", ")
        ]
        pages = ["docs/SCALE.md", *(page for own in SESSIONS for page in own)]
        called = [own.command for page in pages for own in examples(page)]
        for word in words:
            self.assertTrue(word in titles or f"| `codenav {word} " in text, word)
            self.assertTrue(any(f"codenav {word}" in command for command in called), word)

    def test_links(self) -> None:
        wrong = []
        for page in PAGES:
            for target in (found for found in LINK.findall(text_of(page)) if "://" not in found):
                path, _, heading = target.partition("#")
                other = (
                    os.path.normpath(os.path.join(os.path.dirname(page), path)) if path else page
                )
                is_right = os.path.exists(os.path.join(TOP, other))
                if not is_right or heading and heading not in headings(other):
                    wrong.append(f"{page}: {target}")
        self.assertEqual("\n".join(wrong), "")

    def test_named_files(self) -> None:
        names = [(page, *found) for page in PAGES for found in named_files(page)]
        wrong = [
            f"{page}:{number}: {name}"
            for page, number, name in names
            if name not in ELSEWHERE and not is_there(name)
        ]
        self.assertEqual("\n".join(wrong), "")
        self.assertEqual(ELSEWHERE - {name for _, _, name in names}, set())

    def test_examples(self) -> None:
        built = built_program()
        if built is None:
            self.skipTest(NOT_BUILT)
        missing = [package for name, package in NEEDED.items() if not shutil.which(name)]
        if not missing and not has_rust_analyzer():
            missing = [NEEDED["rust-analyzer"]]
        if missing:
            self.skipTest(f"the examples need: apt-get install {' '.join(missing)}")
        for pages, called_in in SESSIONS.items():
            with tempfile.TemporaryDirectory() as folder:
                session = Session(built, folder, called_in)
                try:
                    for example in (found for page in pages for found in examples(page)):
                        is_asking = example.command.startswith(ASKS)
                        if example.command.startswith(COMPILES):
                            continue
                        if is_asking and not shutil.which("clangd"):
                            continue
                        self.assertEqual(session.differs(example), "")
                finally:
                    session.end()


if __name__ == "__main__":
    unittest.main()
