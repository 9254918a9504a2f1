"""Refuses each system call of the tools in turn, and kills them there, and prints what came of it.

`publish`, `prepare`, `upload` and `remove` go from an old revision of a small crate to a new one,
over servers of the program; `supervise`, `turn`, `backup` and `restore` are of a service. Of each run one call that opens, writes, renames, removes, forks or
connects fails, by an error that such a call may have, or the disk is full from then on, or the
process is killed. Then:

- each server answers as before or as it's to, and a set, or a file that's written, is the old one
  or the new one;
- what failed is said by one line, and its status is 2, or 1 where the server refused;
- no file is left outside those that were asked for, but of a killed call in the system's temporary
  folder, and beside the file that it wrote, where the next call takes it away; and no process;
- the same call again ends well, and leaves what a call of which nothing was refused leaves.
"""

import argparse
import os
import re
import subprocess
import sys
import tempfile
from collections import Counter
from concurrent.futures import ThreadPoolExecutor
from importlib.util import find_spec
from pathlib import Path
from typing import Any, Union

from calls import MOST, WORDS, Ended, Files, Room, State, Wrong, may_stay
from refusing import FULL, KILL, TOP, built
from service_calls import WORDS as SERVICE
from service_calls import ServiceRoom

from codenav.program import Program
from codenav.sets.files import MANIFEST, read_documents, read_head

# Of all calls and their errors each run of the gate tries one of so many shares.
TURNS = 29
SCIP = "prepare-scip"
# what the help of `prepare` has status 1 for
UNREAD = "left out: document whose file can't be read"
HOW = {KILL: "killed at", FULL: "the disk is full from here on"}
STAGE = re.compile(r"codenav publish: (.* \([0-9.]+ s\)|mended: .*)")


class Refusing(Room):
    """A room in which a system call is refused."""

    def calls(self) -> list[str]:
        """The system calls of a call of which none is refused."""
        self.restore()
        with self.servers():
            return self.must(self.word.words).calls

    def tried(self, number: int, which: int) -> str:
        """Makes the call, of which a system call is refused, and once more; answers which call that
        was. Raises Wrong where something doesn't hold."""
        self.restore()
        with self.servers():
            ended = self.call(self.word.words, number, which)
            call = ended.calls[0].split(" ", 3)[-1] if ended.calls else "nothing"
            try:
                self.judge(ended, self.state(), which == KILL)
                again = self.call(self.word.words)
                if again.status not in self.word.again:
                    raise Wrong(f"the same again: {again.status}, {again.warned}")
                stays = which == KILL or may_stay(ended.calls)
                if ended.status == 1 and UNREAD in ended.warned:
                    self.judge_documents()
                else:
                    self.judge_whole(self.state(), stays, "the same again: ")
            except Wrong as fault:
                how = HOW.get(which, f"refused by error {which}")
                raise Wrong(f"{number} {call}: {how}: {fault}; {ended.warned[-300:]}") from None
        return "killed" if ended.status < 0 else "refused" if ended.calls else "neither"

    def judge(self, ended: Ended, state: State, was_killed: bool) -> None:
        """Raises Wrong where a call that ended so leaves what it shouldn't."""
        if ended.status == 0:
            self.judge_whole(state, was_killed, "status 0: ")
        if ended.status == 0 or ended.status == 1 and UNREAD in ended.warned:
            return
        lines = ended.warned.splitlines()
        while len(lines) > 1 and STAGE.fullmatch(lines[0]):
            del lines[0]
        own = f"codenav {self.word.words[0]}: "
        if "Traceback" in ended.warned or not was_killed and ended.status != 2:
            raise Wrong(f"status {ended.status}")
        if not was_killed and (len(lines) != 1 or not lines[0].startswith(own)):
            raise Wrong(f"{len(lines)} lines: {ended.warned}")
        is_set = self.word.elements != MOST
        for got, *known in zip(state.answers, self.old.answers, self.new.answers):
            parts = zip(got, *known)
            if got not in known if is_set else any(one not in rest for one, *rest in parts):
                raise Wrong("the index answers neither of the old nor of the new")
        self.judge_files(state.files, was_killed, may_stay(ended.calls))

    def judge_files(self, files: Files, was_killed: bool, stays: bool) -> None:
        """Raises Wrong where a file is neither as it was nor as it's to be, or is one too many."""
        out = self.base / "out/set"
        named = (
            set(read_head(str(out / MANIFEST)).projects())
            if "out/set/manifest.tags" in files
            else set()
        )
        known = {*self.old.files, *self.new.files}
        for path in sorted({*files, *known}):
            is_new = path not in known
            is_temporary = is_new and path.startswith("tmp/") and (was_killed or stays)
            is_out = is_new and path.startswith("out/") and was_killed
            is_left = is_new and path.endswith(".new") and (stays or was_killed)
            is_named = path.startswith("out/set/") and Path(path).stem in named
            if is_named and files.get(path) is None:
                raise Wrong(f"{path} is named by the manifest, and isn't there")
            values = {self.old.files.get(path), self.new.files.get(path)}
            if files.get(path) in values or path.startswith("out/kept"):
                continue
            if is_temporary or is_out or is_left:
                continue
            raise Wrong(f"{path} is {files.get(path)}, neither of {values}")

    def documents(self) -> set[str]:
        """The documents of the set that was made, each part of which is there."""
        out = self.base / "out/set"
        head = read_head(str(out / MANIFEST))
        lacking = [one for one in head.projects() if not (out / f"{one}.lsif").exists()]
        if lacking:
            raise Wrong(f"{lacking[0]} is named by the manifest, and isn't there")
        return {one.uri for one in read_documents(str(out / MANIFEST), head)}

    def judge_documents(self) -> None:
        """Raises Wrong where a set that was made over one without a document lacks one: it keeps
        the cuts of that, so its parts needn't be those of a call of which nothing was refused."""
        found = self.documents()
        self.restore()
        self.must(self.word.words)
        if found != self.documents():
            raise Wrong(f"the same again: the set has {sorted(found)}")

    def judge_whole(self, state: State, stays: bool, when: str) -> None:
        """Raises Wrong where what there is isn't the new state."""
        files = state.files
        if stays:
            files = {path: one for path, one in files.items() if not path.startswith("tmp/")}
        for what, got, wanted in (
            ("answers", state.answers, self.new.answers),
            ("projects", state.projects, self.new.projects),
            ("files", files, self.new.files),
        ):
            if got != wanted:
                odd: Any = got
                if isinstance(got, dict) and isinstance(wanted, dict):
                    odd = set(got.items()) ^ set(wanted.items())
                raise Wrong(f"{when}not the {what} of a whole call: {odd}")


def whiches(errors: str, may_be_full: str) -> list[int]:
    """How a call is refused that may have so many errors."""
    return [KILL, *range(int(errors)), *([FULL] if may_be_full == "1" else [])]


def room_of(
    name: str, folder: Path, program: Program, library: str
) -> Union[Refusing, ServiceRoom]:
    """Where the system calls of a word are refused."""
    if name in SERVICE:
        return ServiceRoom(folder, name, program, library)
    (word,) = (word for word in WORDS if word.name == name)
    return Refusing(folder, word, program, library)


def try_word(name: str, program: Program, library: str, each: int, turn: int) -> Counter[str]:
    """Refuses the system calls of a word in turn, and prints what came of it."""
    counts: Counter[str] = Counter()
    with tempfile.TemporaryDirectory(prefix="codenav-calls-") as folder:
        room = room_of(name, Path(folder), program, library)
        calls = room.calls()
        every = [
            (number, which)
            for number, line in enumerate(calls, 1)
            for which in whiches(*line.split()[1:3])
        ]
        for number, which in every[turn % each :: each]:
            try:
                counts[room.tried(number, which)] += 1
            except Wrong as fault:
                counts["faults"] += 1
                print(f"{name}: {fault}", flush=True)
    counts["tried"] = counts.total()
    print(
        f"{name}: {len(calls)} calls, {counts['tried']} of {len(every)} tried: "
        f"{counts['refused']} refused, {counts['killed']} killed, {counts['faults']} faults",
        flush=True,
    )
    return counts


def main() -> int:
    """Answers 1 where something didn't hold."""
    options = argparse.ArgumentParser(
        description=__doc__, formatter_class=argparse.RawDescriptionHelpFormatter
    )
    options.add_argument("--gate", action="store_true", help=f"try one of {TURNS} shares")
    options.add_argument("--each", type=int, default=1, help="with 5 each 5th of them; 1")
    options.add_argument("--turn", type=int, help="the share of this number; that of the commits")
    options.add_argument("--only", help="these words, with commas between them")
    options.add_argument("--jobs", type=int, default=1, help="so many words at once; 1")
    options.add_argument("program", help="the built program, or what stands in for it")
    given = options.parse_args()
    turn = given.turn
    if turn is None:
        counted = subprocess.run(
            ["git", "rev-list", "--count", "HEAD"], cwd=TOP, capture_output=True, check=True
        )
        turn = int(counted.stdout)
    wanted = given.only.split(",") if given.only else [*(word.name for word in WORDS), *SERVICE]
    if SCIP in wanted and find_spec("google") is None:
        wanted.remove(SCIP)
        print(f"{SCIP}: left out: it needs Debian's package python3-protobuf", flush=True)
    each = TURNS if given.gate else given.each
    program = Program(os.path.abspath(given.program))
    with tempfile.TemporaryDirectory() as folder, ThreadPoolExecutor(given.jobs) as pool:
        library = built(folder)
        jobs = [pool.submit(try_word, name, program, library, each, turn) for name in wanted]
        total: Counter[str] = sum((job.result() for job in jobs), Counter())
    print(f"{total['tried']} tried, {total['faults']} faults, share {turn % each} of {each}")
    return int(total["faults"] > 0)


if __name__ == "__main__":
    sys.exit(main())
