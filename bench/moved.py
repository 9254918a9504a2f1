"""Measures the map between an old text and a new one (tools/codenav/texts/moved), each part by
itself, and what an editor gets by it:

  made [SEEDS]     made edits with known truth: 26 kinds over files of Debian's packages; words that
                   lead to a wrong place, in a million
  real OLD NEW ..  files of two folders, as two versions of a library: words that lead into another
                   function or type, though their own is there in both
  times            what a map costs for files of 200, 2,000 and 20,000 lines, and for texts that are
                   hard; beside `git diff --histogram` of the same files
  inverse OLD NEW  whether each mapped word of two folders leads back to where it began

`made` reads files of Debian's librust-regex-dev, librust-url-dev, librust-serde-json-dev and
librust-itoa-dev, of Python's library, of npm, and what of them is there.

  answers PROGRAM  the definition and the references at each word of the demo crates, by `lsp`
                   and a real server, of which files were edited, renamed, and changed without being
                   saved; with a map and without one, compared with the answers about the indexed
                   texts: the status is 1 where the map led to a wrong place
  asked PROGRAM    the median of a definition's time in 200, 2,000 and 20,000 lines, with a
                   map and without one, and of the first after a change; in brackets that of the
                   bridge on a processor, which other work on the machine changes little
"""

import argparse
import ast
import glob
import os
import random
import re
import resource
import shutil
import statistics
import subprocess
import sys
import tempfile
import time
from collections import Counter
from typing import Any, Callable, Iterator

from servers import TOP
from watched import tool

from codenav.program import Program
from codenav.texts.moved.sides import lines_of_text
from codenav.texts.moved.text_map import TextMap
from codenav.texts.moved.tokens import tokens_of
from codenav.texts.places import uri_of
from tests.made_edits import EDITS, edited
from tests.repository import git_in
from tests.test_explain import META, edge, span, vertex
from tests.test_lsp import Editor

REGISTRY = "/usr/share/cargo/registry"
MADE = [
    f"{REGISTRY}/regex-1.7.1/src/exec.rs",
    f"{REGISTRY}/serde_json-1.0.87/src/de.rs",
    f"{REGISTRY}/url-2.3.1/src/parser.rs",
    f"{REGISTRY}/itoa-1.0.1/src/lib.rs",
    "/usr/lib/python3.11/argparse.py",
    "/usr/lib/python3.11/json/decoder.py",
    "/usr/lib/python3.11/tarfile.py",
    "/usr/lib/node_modules/npm/node_modules/semver/classes/range.js",
    "/usr/lib/node_modules/npm/lib/commands/audit.js",
    "/usr/include/zlib.h",
    *sorted(glob.glob(os.path.join(TOP, "tools/tests/moved/*.txt"))),
]
LARGE = [
    f"{REGISTRY}/regex-1.7.1/src/exec.rs",
    "/usr/lib/python3.11/argparse.py",
    f"{REGISTRY}/url-2.3.1/src/parser.rs",
]
ITEM = re.compile(
    r"(?:pub(?:\([^)]*\))?\s+)?(?:default |const |async |unsafe |extern \"C\" )*(fn|impl|mod|trait|struct|enum|union|macro_rules!)\b\s*(.*)"
)
Path = tuple[str, ...]


def read(path: str) -> str:
    """The text of a file."""
    with open(path, encoding="utf-8", newline="") as file:
        return file.read()


# Made edits


def made(seeds: int) -> None:
    """Prints what became of the words of made edits, kind by kind."""
    texts = [read(path).replace("\r\n", "\n") for path in MADE if os.path.exists(path)]
    print(
        f"{len(texts)} files, {sum(text.count(chr(10)) for text in texts)} lines, {seeds} edits of a kind each"
    )
    print(
        "| Kind | words | right, % | wrong, in a million | wrongly not there, % | gone |\n|-|-|-|-|-|-|"
    )
    in_all: Counter[str] = Counter()
    started = time.process_time()
    for edit in EDITS:
        found: Counter[str] = Counter()
        for text in texts:
            for seed in range(seeds):
                try:
                    new, truth = edited(edit, seed, text)
                except ValueError:  # a file without two functions, say
                    continue
                found += outcomes(TextMap(text, new), truth)
        row(edit.__name__.replace("_", " "), found)
        in_all += found
    row("all", in_all)
    print(
        f"backward(forward(p)) isn't p: {in_all['no inverse']}; {time.process_time() - started:.0f} s"
    )


def outcomes(
    text_map: TextMap, truth: dict[tuple[int, int], "tuple[int, int] | None"]
) -> Counter[str]:
    """How many words lead where."""
    found: Counter[str] = Counter()
    for place, wanted in truth.items():
        to = text_map.forward(*place)
        found["right" if to == wanted else "missed" if to is None else "wrong"] += 1
        found["gone"] += to == wanted is None
        found["no inverse"] += to is not None and text_map.backward(*to) != place
    return found


def row(name: str, found: Counter[str]) -> None:
    """Prints a row; what is gone and found gone isn't counted as right."""
    words = found["right"] + found["missed"] + found["wrong"]
    print(
        f"| {name} | {words:,} | {100 * (found['right'] - found['gone']) / (words - found['gone']):.2f} "
        f"| {1e6 * found['wrong'] / words:.0f} | {100 * found['missed'] / words:.2f} | {found['gone']:,} |",
        flush=True,
    )


# Real pairs


def rust_paths(text: str) -> list[Path]:
    """Of each line the heads of the items that it's in, by layout: an item ends at a line of its
    indentation that begins with a brace."""
    found: list[Path] = []
    stack: list[tuple[int, str]] = []
    for line in lines_of_text(text):
        bare, depth = line.strip(), len(line) - len(line.lstrip())
        head = ITEM.match(bare)
        if head and not bare.endswith((";", "}")):
            name = (
                head[2].rstrip("{") if head[1] == "impl" else re.split(r"[<{(]| where", head[2])[0]
            )
            stack.append((depth, head[1] + re.sub(r"\s", "", name)))
        found.append(tuple(name for _, name in stack))
        while stack and bare.startswith("}") and depth <= stack[-1][0]:
            stack.pop()
    return found


def python_paths(text: str) -> list[Path]:
    """Of each line the names of the functions and classes that it's in."""
    found: list[Path] = [()] * len(lines_of_text(text))

    def visit(node: ast.AST, path: Path) -> None:
        for child in ast.iter_child_nodes(node):
            if isinstance(child, (ast.FunctionDef, ast.AsyncFunctionDef, ast.ClassDef)):
                inner = (*path, child.name)
                for line in range(child.lineno - 1, child.end_lineno or child.lineno):
                    found[line] = inner
                visit(child, inner)
            else:
                visit(child, path)

    visit(ast.parse(text), ())
    return found


PATHS: dict[str, Callable[[str], list[Path]]] = {".rs": rust_paths, ".py": python_paths}


def pairs(folders: list[str]) -> Iterator[tuple[str, str, str]]:
    """The names and texts of files that two folders have and that differ; the folders are in
    pairs."""
    for old, new in zip(folders[::2], folders[1::2]):
        for path in sorted(glob.glob(f"{old}/**/*", recursive=True)):
            other = new + path[len(old) :]
            if (
                os.path.splitext(path)[1] in PATHS
                and os.path.isfile(other)
                and os.path.getsize(path) > 3000
            ):
                try:
                    texts = read(path), read(other)
                except UnicodeDecodeError:
                    continue
                if texts[0] != texts[1]:
                    yield path, *texts


def real(folders: list[str]) -> None:
    """Prints where words of real pairs lead."""
    found: Counter[str] = Counter()
    for path, old, new in pairs(folders):
        try:
            of_old, of_new = (PATHS[os.path.splitext(path)[1]](text) for text in (old, new))
        except SyntaxError:
            continue
        found["pairs"] += 1
        text_map = TextMap(old, new)
        for line, text in enumerate(text_map.old.lines):
            for token in tokens_of(text, line):
                if token.is_word:
                    to = text_map.forward(line, token.start)
                    found["words"] += 1
                    found["mapped"] += to is not None
                    if to is not None and of_old[line] and of_old[line] != of_new[to[0]]:
                        found[
                            "into another item"
                            if of_old[line] in of_new
                            else "item renamed or gone"
                        ] += 1
    print(*(f"{name}: {count:,}" for name, count in found.items()), sep="\n")


def inverse(folders: list[str]) -> None:
    """Prints how many mapped words of real pairs lead back."""
    found: Counter[str] = Counter()
    for _, old, new in pairs(folders):
        text_map = TextMap(old, new)
        for line, text in enumerate(text_map.old.lines):
            for token in tokens_of(text, line):
                to = text_map.forward(line, token.start)
                if to is not None:
                    found["mapped"] += 1
                    found["back"] += text_map.backward(*to) == (line, token.start)
    print(f"{found['back']:,} of {found['mapped']:,} mapped words and signs lead back")


# Times


def of_length(length: int) -> list[str]:
    """Lines of real files, a copy of which has other names."""
    base = [line for path in LARGE if os.path.exists(path) for line in read(path).split("\n")]
    lines: list[str] = []
    turn = 0
    while len(lines) < length:
        lines += (
            [re.sub(r"\b(self|let|the)\b", rf"\g<1>{turn}", line) for line in base]
            if turn
            else base
        )
        turn += 1
    return lines[:length]


def changed(dice: random.Random, lines: list[str]) -> list[str]:
    """The lines with one in 50 removed, added or changed."""
    lines = lines[:]
    for _ in range(max(5, len(lines) // 50)):
        at, kind = dice.randrange(len(lines)), dice.randrange(3)
        if kind == 0:
            del lines[at]
        elif kind == 1:
            lines.insert(at, f"    let q{dice.randrange(10**6)} = w({at});")
        else:
            lines[at] = lines[at].replace("(", "(extra, ", 1)
    return lines


def texts() -> Iterator[tuple[str, str, str]]:
    """Pairs of texts, each with a name."""
    dice = random.Random(1)
    for length in 200, 2_000, 20_000:
        lines = of_length(length)
        yield f"{length:,} lines, one in 50 changed", "\n".join(lines), "\n".join(
            changed(dice, lines)
        )
    lines = of_length(20_000)
    yield "20,000 lines, each changed", "\n".join(lines), "\n".join(
        line.replace("(", "( x, ").replace(" ", "  ") for line in lines
    )
    yield "20,000 lines, shuffled", "\n".join(lines), "\n".join(dice.sample(lines, len(lines)))
    heads = [f"def f{at}(a):\n    b = a + {at}\n    c = b\n    return c\n" for at in range(5_000)]
    yield "5,000 functions in the other order", "".join(heads), "".join(heads[::-1])
    yield "5,000 functions, each twice", "".join(heads), "".join(2 * one for one in heads)
    yield "20,000 equal lines and one more", "f(b);\n" * 20_000, "f(b);\n" * 20_001
    yield "20,000 equal lines, each changed", "f(b);\n" * 20_000, "f(b, x);\n" * 20_000
    old, new = ("\n".join(dice.choices("ab", k=20_000)) for _ in range(2))
    yield "20,000 lines of two kinds, at random", old, new
    unique = [f"u{at}" for at in range(6_000)]
    yield "18,000 lines, exchanged between unique ones", "".join(
        f"{one}\nx\ny\n" for one in unique
    ), "".join(f"{one}\ny\nx\n" for one in unique)
    numbers = [str(at) for at in range(10_000)]
    yield "10,000 numbers twice, the first half reversed", "\n".join(numbers * 2), "\n".join(
        [*numbers[::-1], *numbers]
    )
    deep = [" " * at + f"if a{at}:" for at in range(3_000)]
    yield "3,000 levels of indentation", "\n".join(deep), "\n".join(["x", *deep])
    gaps = "\n".join(f"u{at} " + "a b " * 60 for at in range(400))
    yield "400 lines without a unique word", gaps, gaps.replace("a b a b ", "b b a a ")
    line = " ".join(f"w{at}" for at in range(150_000))[:1_000_000]
    yield "1 MB in a line, a word changed", line, line[:500_000] + " zz " + line[500_004:]
    old, new = ("".join(dice.choices("{}", k=900_000)) for _ in range(2))
    yield "1 MB of braces in a line, at random", old, new


def times() -> None:
    """Prints processor times: of making a map, of the first question, and of questions in each
    hunk, the hardest and all."""
    print("| Texts | map, ms | first question, ms | hardest hunk, ms | all hunks, ms | git, ms |")
    print("|-|-|-|-|-|-|")
    for name, old, new in texts():
        begin = time.process_time()
        text_map = TextMap(old, new)
        made = time.process_time()
        text_map.forward(next(iter(text_map.old.matched), 0), 0)
        spent = [made - begin, time.process_time() - made]
        hunks = [0.0]
        for line, hunk in text_map.old.hunks.items():
            if not hunk.is_matched:
                begin = time.process_time()
                text_map.forward(line, 0)
                hunks.append(time.process_time() - begin)
        cells = [f"{1000 * one:.0f}" for one in (*spent, max(hunks), sum(hunks), git(old, new))]
        print(f"| {name} | {' | '.join(cells)} |", flush=True)
    print(f"{resource.getrusage(resource.RUSAGE_SELF).ru_maxrss // 1024} MB at most")


def git(old: str, new: str) -> float:
    """The processor time of `git diff --histogram` of two texts."""
    with tempfile.TemporaryDirectory() as folder:
        for name, text in ("old", old), ("new", new):
            with open(os.path.join(folder, name), "w", encoding="utf-8", newline="") as file:
                file.write(text)
        before = resource.getrusage(resource.RUSAGE_CHILDREN)
        subprocess.run(
            ["git", "diff", "--no-index", "--text", "--histogram", "old", "new"],
            cwd=folder,
            stdout=subprocess.DEVNULL,
            check=False,
        )
        after = resource.getrusage(resource.RUSAGE_CHILDREN)
        return after.ru_utime + after.ru_stime - before.ru_utime - before.ru_stime


CRATES = {"temperature": "crate", "kettle": "user"}
QUESTIONS = 200
CHANGES = 20
Word = tuple[str, str, int]
"""The file, a word of it, and the how manieth such word it is: what a word is known by, where edits
add no word that was there."""
Answers = dict[tuple[Word, str], set[Word]]


def text_of(path: str) -> str:
    """The text of a file."""
    with open(path, encoding="utf-8", newline="") as file:
        return file.read()


def write(path: str, text: str) -> None:
    """Writes a file."""
    with open(path, "w", encoding="utf-8", newline="") as file:
        file.write(text)


def call(word: str, *words: str) -> None:
    """Calls a tool, which has to succeed."""
    subprocess.run(tool(word, *words), check=True, capture_output=True)


def opened(folder: str, *words: str) -> Editor:
    """An editor over a folder."""
    editor = Editor(*words)
    editor.call("initialize", {"workspaceFolders": [{"uri": uri_of(folder, [])}]})
    return editor


def show(editor: Editor, path: str, text: str, version: int = 0) -> None:
    """Opens a file with a text that isn't saved, or changes that."""
    document = {"uri": uri_of(path, []), "languageId": "rust", "version": version}
    if version:
        changes = {"textDocument": document, "contentChanges": [{"text": text}]}
        editor.notify("textDocument/didChange", changes)
    else:
        editor.notify("textDocument/didOpen", {"textDocument": {**document, "text": text}})


# Answers


def words_of(path: str, text: str) -> Iterator[tuple[Word, tuple[int, int]]]:
    """The words of a text, and where they are."""
    seen = Counter[str]()
    for line, content in enumerate(re.split(r"\r\n|\n", text)):
        for found in re.finditer(r"\w+", content):
            yield (path, found[0], seen[found[0]]), (line, found.start())
            seen[found[0]] += 1


def answers(editor: Editor, texts: dict[str, str]) -> Answers:
    """What is answered at each word of texts."""
    at = {(one[0], place): one for path in texts for one, place in words_of(path, texts[path])}
    found: Answers = {}
    for (path, (line, character)), word in at.items():
        for what in "definition", "references":
            place = {"line": line, "character": character}
            asked = {"textDocument": {"uri": uri_of(path, [])}, "position": place}
            context = {"context": {"includeDeclaration": True}}
            places, _ = editor.call(f"textDocument/{what}", {**asked, **context})
            found[word, what] = {word_at(at, one) for one in places or []}
    return found


def word_at(at: dict[tuple[str, tuple[int, int]], Word], found: dict[str, Any]) -> Word:
    """The word that a place of an answer is, or what is no word."""
    path, start = found["uri"][len("file://") :], found["range"]["start"]
    place = start["line"], start["character"]
    return at.get((path, place), (path, "no word", start["line"]))


def indexed(url: str, folder: str) -> tuple[str, list[str]]:
    """Makes a checkout of both crates, whose dumps are uploaded; answers its commit, and the words
    for lsp."""
    for project, name in CRATES.items():
        shutil.copytree(os.path.join(TOP, "demo", name), os.path.join(folder, name))
        dump = os.path.join(folder, ".git", "dump.lsif")
        if not os.path.isdir(os.path.dirname(dump)):
            git_in(folder, "init", "-q")
        call("prepare", os.path.join(TOP, "demo", f"{name}.raw.lsif"), dump)
        call("upload", url, project, dump)
    git_in(folder, "add", "-A")
    git_in(folder, "commit", "-qm", "indexed")
    return git_in(folder, "rev-parse", "HEAD"), ["--map", f"file:///src/tr={folder}"]


def edit_folder(folder: str) -> tuple[dict[str, str], dict[str, str]]:
    """Edits, renames and leaves unsaved; answers the texts of today by their paths, and the new
    paths of files by the old ones."""
    lib, scale, user = (
        os.path.join(folder, name)
        for name in ("crate/src/lib.rs", "crate/src/scale.rs", "user/src/lib.rs")
    )
    body = "\tif TRULY {\n\t\tReading { celsius }\n\t} else { unreachable!() }"
    text = text_of(lib).replace(
        "/// A reading of so", "pub const ZETA: u8 = 7;\n\n/// A reading of so"
    )
    write(lib, text.replace("    Reading { celsius }", body))
    lines = text_of(scale).replace("\n\n", "\n\nfn added() -> u64 { 1 }\n", 1)
    lines = lines.replace("celsius * 9 / 5 + 32", "added2() + celsius\n        * 9 / 5 + 32")
    write(scale, lines.replace("\n", "\r\n"))
    renamed = os.path.join(folder, "crate/src/scales.rs")
    os.rename(scale, renamed)
    texts = {path: text_of(path) for path in (lib, renamed)}
    return {**texts, user: "// unsaved\n" + text_of(user)}, {scale: renamed}


def compared(found: Answers, wanted: Answers) -> Counter[str]:
    """How many answers are right, of fewer places, wrong, or empty."""
    count = Counter[str]()
    for question, places in found.items():
        right = wanted.get(question, set())
        if not places:
            count["empty, and should be" if not right else "empty, and shouldn't be"] += 1
        elif places == right:
            count["right"] += 1
        else:
            count["fewer places" if places < right else "wrong"] += 1
    return count


def print_answers(program: str) -> int:
    """Prints the counts with a map and without one; answers 1 where a place with a map is wrong."""
    with tempfile.TemporaryDirectory() as held, Program(program).serve() as server:
        url = server.url
        folder = os.path.realpath(held)
        commit, words = indexed(url, folder)
        before = {
            path: text_of(path)
            for name in CRATES.values()
            for path in sorted(
                os.path.join(at, one)
                for at, _, names in os.walk(os.path.join(folder, name))
                for one in names
                if one.endswith(".rs")
            )
        }
        base = answers(opened(folder, *words, url, "temperature"), before)
        texts, renamed = edit_folder(folder)

        def today(word: Word) -> Word:
            return renamed.get(word[0], word[0]), *word[1:]

        wanted = {
            (today(word), what): set(map(today, places)) for (word, what), places in base.items()
        }
        print(
            f"{len(base)} questions about the indexed texts, {sum(map(bool, base.values()))} answered"
        )
        wrong = 0
        revisions = ["--revision", commit, "--revision", f"kettle={commit}"]
        maps: dict[str, list[str]] = {"without a map": [], "with --revision": revisions}
        for name, more in maps.items():
            editor = opened(folder, *words, *more, url, "temperature")
            unsaved = next(path for path in texts if "/user/" in path)
            show(editor, unsaved, texts[unsaved])
            count = compared(answers(editor, texts), wanted)
            counts = ", ".join(f"{what}: {count[what]}" for what in sorted(count))
            print(f"{name}: {sum(count.values())} questions; {counts}")
            wrong = count["wrong"]
    return 1 if wrong else 0


# Times


def functions(length: int) -> str:
    """A text of so many lines: functions of four, each of which calls the one before."""
    return "".join(
        f"fn f{at}(a: u32) -> u32 {{\n    let b{at} = f{max(0, at - 1)}(a);\n    b{at} + {at}\n}}\n"
        for at in range(length // 4)
    )


def dump_of(uri: str, length: int) -> str:
    """The dump of such a text: the definition of each function, at its head and where it's
    called."""
    rows, places, count = [META, vertex(2, "document", uri=uri)], [], length // 4
    for at in range(count):
        own, head, call = 8 * at + 10, 4 * at, 4 * at + 5
        name = len(f"f{at}")
        start = 4 + len(f"let b{at + 1} = ")
        rows += [
            span(own, 3, 3 + name, head),
            span(own + 1, start, start + name, call),
            vertex(own + 2, "resultSet"),
            vertex(own + 3, "definitionResult"),
            edge(own + 4, "next", own, own + 2),
            edge(own + 5, "next", own + 1, own + 2),
            edge(own + 6, "textDocument/definition", own + 2, own + 3),
            edge(own + 7, "item", own + 3, [own], document=2),
        ]
        places += [own, own + 1]
    return "\n".join([*rows, edge(3, "contains", 2, places), ""])


class Asked:
    """An editor that has a file open, and the times that its questions took."""

    def __init__(self, editor: Editor, path: str, text: str) -> None:
        self.editor, self.path, self.text = editor, path, text
        self.calls = calls_in(text)
        self.walls: list[float] = []
        self.used: list[float] = []
        show(editor, path, text)

    def definition(self, at: int) -> None:
        """Asks for a definition, which has to be answered."""
        line, character = self.calls[at]
        place = {"line": line, "character": character}
        asked = {"textDocument": {"uri": uri_of(self.path, [])}, "position": place}
        used, begin = processor_milliseconds(self.editor.run.pid), time.perf_counter()
        found, _ = self.editor.call("textDocument/definition", asked)
        self.walls.append(1000 * (time.perf_counter() - begin))
        self.used.append(processor_milliseconds(self.editor.run.pid) - used)
        assert found, "a question without an answer"

    def change(self, version: int) -> None:
        """Adds a line at the end, which isn't saved."""
        show(self.editor, self.path, f"{self.text}// {version}\n", version)

    def medians(self) -> tuple[float, float]:
        """The medians of the times since they were asked for last, and of the processor's times."""
        found = statistics.median(self.walls), statistics.median(self.used)
        self.walls, self.used = [], []
        return found


def processor_milliseconds(process: int) -> float:
    """What a process has used of a processor, with its threads, also those that have ended: by the
    clock that `clock_getcpuclockid` of Linux names."""
    return time.clock_gettime(~process << 3 | 2) * 1e3


def calls_in(text: str) -> list[tuple[int, int]]:
    """Where functions are called in a text, some of these."""
    found = [
        (line, match.start() + 2)
        for line, content in enumerate(text.split("\n"))
        for match in re.finditer(r"= f\d+\(", content)
    ]
    return random.Random(1).sample(found[1:], min(QUESTIONS, len(found) - 1))


def in_turns(both: list[Asked]) -> list[tuple[float, float]]:
    """The medians of two editors, which are asked in turns: of a question, and of the first after a
    change."""
    for asked in both:
        asked.definition(0)
        asked.medians()
    for at in range(len(both[0].calls)):
        for asked in both:
            asked.definition(at)
    found = [asked.medians() for asked in both]
    for version in range(1, CHANGES + 1):
        for asked in both:
            asked.change(version)
            asked.definition(version)
    return found + [asked.medians() for asked in both]


def print_times(program: str) -> int:
    """Prints the medians, with a map of a file in which one line of 50 is new, and without one of
    the file as it was."""
    print("| Lines | a question, without and with a map, ms | the first after a change, ms |")
    print("|-|-|-|")
    for length in 200, 2_000, 20_000:
        with tempfile.TemporaryDirectory() as held, Program(program).serve() as server:
            url = server.url
            folder = os.path.realpath(held)
            path, dump = os.path.join(folder, "a.rs"), os.path.join(folder, "dump")
            text = functions(length)
            write(path, text)
            git_in(folder, "init", "-q")
            git_in(folder, "add", "a.rs")
            git_in(folder, "commit", "-qm", "indexed")
            write(dump, dump_of(uri_of(path, []), length))
            call("upload", url, "app", dump)
            lines = text.split("\n")
            changed = "\n".join(
                line if at % 50 else f"// another line {at}\n{line}"
                for at, line in enumerate(lines)
            )
            plain = Asked(opened(folder, url, "app"), path, text)
            mapped = Asked(opened(folder, "--revision", "HEAD", url, "app"), path, changed)
            cells = [f"{wall:.1f} ({used:.1f})" for wall, used in in_turns([plain, mapped])]
        print(f"| {length:,} | {cells[0]}, {cells[1]} | {cells[2]}, {cells[3]} |", flush=True)
    return 0


PARTS = {"answers": print_answers, "asked": print_times}


def main() -> int:
    """Answers 0 where each answer was as it should be."""
    options = argparse.ArgumentParser(
        description=__doc__, formatter_class=argparse.RawDescriptionHelpFormatter
    )
    parts = options.add_subparsers(required=True, dest="part")
    parts.add_parser("made").add_argument("seeds", nargs="?", type=int, default=4)
    parts.add_parser("times")
    for name in "real", "inverse":
        parts.add_parser(name).add_argument("folders", nargs="+", metavar="OLD NEW")
    for name in PARTS:
        parts.add_parser(name).add_argument("program", help="the built one")
    given = options.parse_args()
    if given.part in PARTS:
        return PARTS[given.part](os.path.abspath(given.program))
    if given.part == "made":
        made(given.seeds)
    elif given.part == "times":
        times()
    elif len(given.folders) % 2:
        options.error("each folder of before has one of after behind it")
    else:
        (real if given.part == "real" else inverse)(given.folders)
    return 0


if __name__ == "__main__":
    sys.exit(main())
