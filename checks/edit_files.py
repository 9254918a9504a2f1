"""What the edits are that the check must refuse, and which functions each changes.

An edit is a file of lines `file: PATH`, `old: TEXT` and `new: TEXT`, as in crates/NAME/must-fail. A
line `by: FUNCTION` names the function that refuses an edit outside functions, of a constant or a
definition.

Copies of crates in which edits are tried; what a check there stands on, the libraries that
`rt check` or `rt ci` left, and what the checks before it kept; and what earlier runs saw refused.
"""

import hashlib
import os
import pathlib
import re
import shutil
import subprocess
import tempfile
from collections.abc import Iterator
from dataclasses import dataclass, field
from typing import Optional

TOP = pathlib.Path(__file__).resolve().parent.parent
# the folder, in edits/NAME, of those that each run of the gate tries
NAMED = "named"
FUNCTION = re.compile(r"\s*(?:pub(?:\([a-z]+\))?\s+)?(?:const\s+|unsafe\s+)*fn\s+(\w+)")
OWNER = re.compile(r"\s*(?:pub(?:\([a-z]+\))?\s+)?(?:unsafe\s+)?(impl|trait)\b(.*)")


class BadEdit(Exception):
    """An edit that can't be applied, and why."""


@dataclass(frozen=True)
class Place:
    """A file, the name of a function in it, or none outside functions, and what `--only` names it
    by."""

    file: str
    name: Optional[str]
    asked: str = ""


@dataclass
class Edit:
    path: pathlib.Path
    crate: str
    pairs: list[tuple[str, str, str]] = field(default_factory=list)  # (file, old text, new text)
    by: str = ""

    def __str__(self) -> str:
        return f"{self.crate}/{self.path.stem}"

    @property
    def is_named(self) -> bool:
        return self.path.parent.name == NAMED


# an edit, and the places that it changes
Tried = tuple[Edit, set[Place]]


def read_edit(path: pathlib.Path, crate: str) -> Edit:
    """Answers the edit of a file. Raises BadEdit where it has no text to change."""
    edit, file, old = Edit(path, crate), "", ""
    for line in path.read_text(encoding="utf-8").splitlines():
        word, _, text = line.partition(": ")
        if word == "file":
            file = text.strip()
        elif word == "by":
            edit.by = text.strip()
        elif word == "old":
            old = text
        elif word in ("new", "new:") and file and old:
            edit.pairs.append((file, old, text))
            old = ""
    if not edit.pairs:
        raise BadEdit(f"{edit}: it has no 'file:', 'old:' and 'new:' lines")
    return edit


def edits_of(crate: str, with_must_fail: bool) -> list[Edit]:
    """Answers a crate's edits: those in edits/NAME, the named ones first, and those of its
    must-fail/ where these are asked for. Raises BadEdit."""
    folders = [TOP / "edits" / crate / NAMED, TOP / "edits" / crate]
    if with_must_fail:
        folders.append(TOP / "crates" / crate / "must-fail")
    return [read_edit(path, crate) for folder in folders for path in sorted(folder.glob("*.edit"))]


def applied(edit: Edit, texts: dict[str, str]) -> tuple[dict[str, str], set[Place]]:
    """Answers the texts of a crate's files with an edit, and the places that it changes. Raises
    BadEdit where an old text isn't there once."""
    texts = dict(texts)
    places: set[Place] = set()
    for file, old, new in edit.pairs:
        if file not in texts:
            texts[file] = (TOP / "crates" / edit.crate / file).read_text(encoding="utf-8")
        count = texts[file].count(old)
        if count != 1:
            raise BadEdit(f"{edit}: an 'old:' text is in {file} {count} times, and not once")
        at = texts[file].index(old)
        # what a file imports is no place of its own
        if not old.lstrip().startswith("use "):
            places.add(place_at(file, texts[file], at))
        texts[file] = texts[file][:at] + new + texts[file][at + len(old) :]
    return texts, places


def module_of(file: str) -> list[str]:
    """Answers the module of a file of src/."""
    parts = pathlib.PurePath(file).with_suffix("").parts[1:]
    return [] if parts in (("lib",), ("main",)) else [it for it in parts if it != "mod"]


def place_at(file: str, text: str, at: int) -> Place:
    """Answers the function that a place of a text lies in, by the layout of `rt fmt`."""
    lines = text[: text.find("\n", at)].split("\n")
    within = len(lines[-1]) - len(lines[-1].lstrip()) + 1
    for number in range(len(lines) - 1, -1, -1):
        line = lines[number]
        indent = len(line) - len(line.lstrip())
        if not line.strip() or indent >= within:
            continue
        found = FUNCTION.match(line)
        if found:
            return Place(file, found[1], asked_by(file, lines[:number], indent, found[1]))
        # The brace below a contract, and the end of a head of several lines, are as deep as the
        # `fn` above them.
        is_below = line.strip() in ("{", "where") or line.lstrip().startswith(")")
        within = indent + 1 if is_below else indent
        if number == len(lines) - 1:
            within = indent
    return Place(file, None)


def asked_by(file: str, above: list[str], indent: int, name: str) -> str:
    """Answers the name that `--only` takes for a function, by the lines above it: the end of a
    method's name, and all of another's."""
    for line in reversed(above):
        found = OWNER.match(line)
        if found and len(line) - len(line.lstrip()) < indent:
            return f"{owner_of(found[1], found[2])}::{name}"
    return "::".join([*module_of(file), name])


def owner_of(word: str, head: str) -> str:
    """Answers what a check calls the owner of a method: a type, or a type and a trait in one."""
    head = head.partition("{")[0].partition(" where ")[0]
    if word == "trait":
        return name_of(re.split(r"[<:]", head)[0])
    if head.startswith("<"):
        head = head[len(within_brackets(head)) :]
    trait, _, owner = head.rpartition(" for ")
    return name_of(owner) + (name_of(trait) + "".join(arguments(trait)) if trait else "")


def within_brackets(text: str) -> str:
    """Answers the `<..>` that a text begins with."""
    depth = 0
    for at, it in enumerate(text):
        depth += (it == "<") - (it == ">")
        if not depth:
            return text[: at + 1]
    return text


def arguments(trait: str) -> list[str]:
    """Answers the names of a trait's types, as of `From<Error>`."""
    _, _, text = trait.partition("<")
    return [name_of(it) for it in text.split(",")] if text else []


def name_of(text: str) -> str:
    """Answers the name of a type within a function's name."""
    text = text.strip()
    if text.startswith("&"):
        return "RefMut" if text.startswith("&mut") else "Ref"
    found = re.match(r"(?:\w+::)*(\w+)", text)
    return found[1] if found else ""


def batches_of(edits: list[Edit]) -> Iterator[list[Tried]]:
    """Answers lists of edits that can be made together, each with the places that it changes: those
    of different functions, and one outside functions by itself."""
    left = list(edits)
    while left:
        texts: dict[str, str] = {}
        taken: set[Place] = set()
        batch: list[Tried] = []
        later, is_full = [], False
        for edit in left:
            _, places = applied(edit, {})
            is_alone = any(place.name is None for place in places)
            if places & taken or (is_alone and batch) or is_full:
                later.append(edit)
                continue
            try:
                texts, _ = applied(edit, texts)
            except BadEdit:
                later.append(edit)
                continue
            taken |= places
            is_full = is_alone
            batch.append((edit, places))
        left = later
        yield batch


REFUSED = pathlib.Path(os.environ.get("XDG_CACHE_HOME") or pathlib.Path.home() / ".cache")

VERDICT = re.compile(r"^fn (\S+): (.*)$", re.M)
# The prover couldn't read the text, so no contract was tried.
UNREAD = re.compile(
    r"^(?:\./)?(?:src|specs)/\S+:\d+:\d+: error: .*(?:is not in scope|has no field|is no name"
    r"|operand is missing|expected the end|cannot continue)",
    re.M,
)
# said where what `--only` was asked for isn't there, or is there twice
NO_FUNCTION = re.compile(r"^rattle: error: .*$", re.M)


@dataclass(frozen=True)
class Libraries:
    """What the crates stand on: those of crates.txt and of the kit."""

    kit: pathlib.Path
    lines: dict[str, list[str]]

    def below(self, crate: str) -> list[str]:
        """Answers the crates here that one calls, and those that they call."""
        found: dict[str, None] = {}
        for name in self.lines[crate]:
            if name in self.lines:
                found.update(dict.fromkeys([name, *self.below(name)]))
        return list(found)

    def words(self, crate: str) -> list[str]:
        """Answers the words of a check of a crate that say what it stands on."""
        root = "main" if (TOP / "crates" / crate / "src/main.rt").exists() else "lib"
        words = ["--crate-name", crate, f"src/{root}.rt"]
        for name in ["std", *self.lines[crate]]:
            kept = rlib_of(name) if name in self.lines else self.kit / f"rlibs/{name}.rlib"
            words += ["--extern", f"{name}={kept}"]
        for folder in [self.kit / "rlibs", *(rlib_of(it).parent for it in self.below(crate))]:
            words += ["-L", f"dependency={folder}"]
        words += ["--antt-project", f"{self.kit}/rattle/logic/antt-project.json"]
        return [*words, "--logic-built", f"{self.kit}/logic_built"]

    def are_left_by_ci(self, crate: str) -> bool:
        """Whether the crates below one are as `rt ci` left them, which gives them no stamp."""
        kept = [rlib_of(it) for it in self.below(crate)]
        return all(it.is_dir() and not (it.parent / "stamp").exists() for it in kept)


def libraries() -> Libraries:
    said = subprocess.run(["rt", "doc"], capture_output=True, text=True, check=True).stdout
    lines = re.findall(r"^(\w+)[^:\n]*:(.*)$", (TOP / "crates.txt").read_text("utf-8"), re.M)
    return Libraries(
        pathlib.Path(said.strip()).parent, {name: words.split() for name, words in lines}
    )


def rlib_of(crate: str) -> pathlib.Path:
    return TOP / "crates" / crate / "out/rlib" / f"{crate}.rlib"


def linked(one: str, other: str) -> None:
    """Copies what a check kept, by a link where it's a file that a check replaces as a whole."""
    try:
        if one.endswith(".oantt"):
            os.link(one, other)
            return
    except OSError:
        pass
    shutil.copy2(one, other)


class Room:
    """A copy of a crate in which edits are tried, over what its own checks keep, which begin with
    what `rt check` kept or with nothing."""

    def __init__(
        self, folder: pathlib.Path, crate: str, stands_on: Libraries, is_begun: bool
    ) -> None:
        self.folder, self.crate = folder / crate, crate
        self.words = stands_on.words(crate)
        for part in ("src", "specs", "proofs"):
            if (TOP / "crates" / crate / part).is_dir():
                shutil.copytree(TOP / "crates" / crate / part, self.folder / part)
        kept, self.kept = TOP / "crates" / crate / "out/incremental", self.folder / "kept"
        if is_begun and kept.is_dir():
            shutil.copytree(kept, self.kept, copy_function=linked)
        else:
            self.kept.mkdir()

    def check(self, texts: dict[str, str], asked: list[Place]) -> tuple[dict[str, str], str]:
        """Answers what a check with these texts says of each function, nothing where it didn't get
        there, and all that it said. Without functions to ask for it's of the whole crate."""
        own = {file: (self.folder / file).read_text(encoding="utf-8") for file in texts}
        for file, text in texts.items():
            (self.folder / file).write_text(text, encoding="utf-8")
        files = {place.asked: place.file for place in asked}
        ran = self.run([*files])
        while "" not in files and (lost := [it for it in lost_in(ran) if it in files]):
            # all that its file has, or all of the crate
            file = files.pop(lost[0])
            module = "::".join(module_of(file))
            files["" if lost[0] == module else module] = file
            ran = self.run([*files] if "" not in files else [])
        for file, text in own.items():
            (self.folder / file).write_text(text, encoding="utf-8")
        said = {} if UNREAD.search(ran) else dict(VERDICT.findall(ran))
        return {name: it for name, it in said.items() if name.startswith(f"{self.crate}::")}, ran

    def run(self, only: list[str]) -> str:
        rattle = pathlib.Path(self.words[-1]).parent / "bin/rattle"
        asked = [word for name in only for word in ("--only", name)]
        kept = ["--incremental", str(self.kept), "--jobs", "1"]
        return subprocess.run(
            [rattle, "check", *self.words, *kept, *asked],
            cwd=self.folder,
            stdin=subprocess.DEVNULL,
            stdout=subprocess.PIPE,
            stderr=subprocess.STDOUT,
            text=True,
            errors="replace",
            check=False,
        ).stdout


def lost_in(said: str) -> list[str]:
    """Answers the names in what a check said where it found no function, or several."""
    found = NO_FUNCTION.search(said)
    return re.findall(r"`([\w:]+)`", found[0]) if found else []


def proved_again(crate: str) -> tuple[str, bool]:
    """Answers what `rt check` says of a crate, which builds the libraries below it and keeps its
    work in out/, and whether it's proved."""
    ran = subprocess.run(
        ["rt", "check"],
        cwd=TOP / "crates" / crate,
        stdin=subprocess.DEVNULL,
        stdout=subprocess.PIPE,
        stderr=subprocess.STDOUT,
        text=True,
        errors="replace",
        check=False,
    )
    return ran.stdout, ran.returncode == 0


class KeptEdits:
    """What earlier runs of the gate on this machine saw refused of a crate's edits, each by a sum of
    all that it was made from: the toolchain, the scripts, the files of the crate and of those below
    it, and the edit."""

    def __init__(self, crate: str, stands_on: Libraries) -> None:
        version = subprocess.run(["rt", "version"], capture_output=True, check=True).stdout
        self.sum = hashlib.sha256(version)
        files = [TOP / "crates.txt", *(TOP / "checks").glob("*edit*.py")]
        for name in [crate, *stands_on.below(crate)]:
            for part in ("src", "specs", "proofs"):
                files += (TOP / "crates" / name / part).rglob("*.*")
        for file in sorted(files):
            text = file.read_bytes()
            self.sum.update(f"{file.relative_to(TOP)} {len(text)}\n".encode() + text)

    def file_of(self, edit: Edit) -> pathlib.Path:
        whole = self.sum.copy()
        whole.update(edit.path.read_bytes())
        return REFUSED / "codenav-edits" / whole.hexdigest()

    def why(self, edit: Edit) -> Optional[str]:
        """Answers what refused an edit in an earlier run, if it was."""
        try:
            return self.file_of(edit).read_text(encoding="utf-8")
        except OSError:
            return None

    def keep(self, edit: Edit, why: str) -> None:
        """Keeps that an edit was refused, as a whole or not at all."""
        file = self.file_of(edit)
        try:
            file.parent.mkdir(parents=True, exist_ok=True)
            with tempfile.NamedTemporaryFile("w", dir=file.parent, delete=False) as made:
                made.write(why)
            os.replace(made.name, file)
        except OSError as error:
            print(f"edits: {edit} isn't kept: {error.strerror}")
