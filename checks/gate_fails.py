"""Shows that the gate fails where it should, for each part of checks/beside.py, and for a wrong
body that is proved.

Breaks one thing that the part checks, and asks that this part fails; unbroken, each must pass.

What is broken is in a clone of the repository as it's committed, or in a program that is called
before the built one. An edit that changes nothing is tried beside one that is refused, and so are
one that doesn't compile and one that the prover can't read. Last, the whole `.ci/run` is run in a
clone over a command `rt` that says that all is proved, with a tool broken, and with an edit that
changes nothing: its status and its last line must say that something failed.
"""

import argparse
import os
import re
import shutil
import subprocess
import sys
import tempfile
from dataclasses import dataclass
from pathlib import Path

TOP = Path(__file__).resolve().parent.parent
LAST = re.compile(r"^(\d+) passed, (\d+) failed$")

# programs that are called before the built one, which is REAL: each does one thing wrong
WRONG_VERSION = """#!/usr/bin/env bash
[ "$*" != --version ] || { echo "codenav 0.0.0"; exit; }
exec REAL "$@"
"""
FORGETS = """#!/usr/bin/env bash
# serves a new database each time
[ "${1-}" != serve ] || set -- serve "$(mktemp -u)" "${@:3}"
exec REAL "$@"
"""
TAKES_ANY_FILE = """#!/usr/bin/env bash
# ends well where the file is no database
if [ "${1-}" = serve ] && [ -s "$2" ] && [ "$(head -c 6 "$2")" != SQLite ]; then exit 0; fi
exec REAL "$@"
"""
WRONG_STATUS = """#include <sys/wait.h>
#include <unistd.h>
/* ends with status 1 in the place of 2 */
int main(int count, char **words) {
    int status;
    if (!fork()) { execv("REAL", words); _exit(9); }
    wait(&status);
    _exit(WEXITSTATUS(status) == 2 ? 1 : WEXITSTATUS(status));
}
"""
PROVED = """#!/usr/bin/env bash
[ "$1" = ci ] || exec REAL "$@"
echo "1 passed, 0 failed"
"""
# edits of `positions`, which stands on no other crate, and what must come of each
EDITS = {
    "refused": "file: src/position.rt\nold:         self.line\nnew:         self.character\n",
    "NOT REFUSED": "file: src/span.rt\nold:         self.end\nnew:         let end = self.end; end\n",
    "BAD EDIT": "file: src/span.rt\nold:         self.start\nnew:         self.begin\n",
}


EDITS_IN_GATE = ["python3", "-B", "checks/edits.py", "--gate", "--turn", "0"]
BESIDE = """import pathlib, sys, time
over = pathlib.Path(sys.argv[2])
while not over.exists():
    time.sleep(1)
counts = [line.replace(",", "").split() for line in over.read_text().splitlines()]
print(sum(int(it[0]) for it in counts), "passed,", sum(int(it[2]) for it in counts), "failed")
"""


@dataclass(frozen=True)
class Case:
    """A part, and what is broken of it: the program, or a text of a file of the clone."""

    name: str
    part: str
    program: str = ""
    file: str = ""
    old: str = ""
    new: str = ""


CASES = [
    Case("program", "program", program=WRONG_VERSION),
    Case("kills", "kills", program=FORGETS),
    Case("disk", "disk", program=TAKES_ANY_FILE),
    Case("refused", "refused", program=WRONG_STATUS),
    Case(
        "calls",
        "calls",
        file="tools/codenav/files.py",
        old="        if is_at(self.own, self.path):",
        new="        if False:",
    ),
    Case(
        "tools",
        "tools",
        file="tools/codenav/lsp/jsonrpc.py",
        old='b"Content-Length: %d',
        new='b"Content-Size: %d',
    ),
    Case(
        "neovim",
        "neovim",
        file="tools/codenav/lsp/jsonrpc.py",
        old='b"Content-Length: %d',
        new='b"Content-Size: %d',
    ),
    Case(
        "chromium",
        "chromium",
        file="tools/codenav/browse/page/lines.js",
        old='word.id = "word"',
        new='word.id = "world"',
    ),
]


def clone(to: Path) -> None:
    """A clone of what is committed."""
    subprocess.run(["git", "clone", "-q", TOP, to], check=True)


def broken(case: Case, folder: Path, real: str) -> tuple[Path, str]:
    """The clone and the program to run, one of them broken."""
    top = folder / "clone"
    clone(top)
    if case.file:
        file = top / case.file
        text = file.read_text()
        if text.count(case.old) != 1:
            sys.exit(f"gate_fails.py: {case.file} has not one {case.old!r}")
        file.write_text(text.replace(case.old, case.new))
        return top, real
    text = case.program.replace("REAL", real)
    program = folder / "codenav"
    if text.startswith("#!"):
        program.write_text(text)
        program.chmod(0o755)
    else:
        (folder / "wrong.c").write_text(text)
        compiler = os.environ.get("CC", "cc")
        subprocess.run([compiler, "-O2", folder / "wrong.c", "-o", program], check=True)
    return top, str(program)


def counts_of(words: list[str], top: Path, path: str = "") -> tuple[int, int, int, str]:
    """The status of a command, how many it says passed and failed in its last line, and all that it
    printed."""
    # edits that were refused here are tried again
    kept = {"XDG_CACHE_HOME": str(top.parent / "cache")}
    env = {**os.environ, **kept, "PATH": path + os.environ["PATH"]}
    ran = subprocess.run(
        words,
        cwd=top,
        env=env,
        stdin=subprocess.DEVNULL,
        stdout=subprocess.PIPE,
        stderr=subprocess.STDOUT,
        text=True,
        errors="replace",
        check=False,
    )
    last = LAST.match((ran.stdout.splitlines() or [""])[-1])
    passed, failed = (int(last[1]), int(last[2])) if last else (-1, -1)
    return ran.returncode, passed, failed, ran.stdout


def ask(top: Path, part: str, program: str, may_pass: bool) -> bool:
    """Whether a part passes or fails as it should; it says which."""
    words = ["python3", "-B", "checks/beside.py", "--only", part, program]
    status, passed, failed, text = counts_of(words, top)
    if "left out:" in text:
        print(f"{part}: not tried: {text.splitlines()[-2]}", flush=True)
        return True
    is_well = (
        (status == 0 and failed == 0 and passed > 0) if may_pass else (status == 1 and failed > 0)
    )
    said = "unbroken" if may_pass else "broken"
    print(
        f"{part}, {said}: {passed} passed, {failed} failed, status {status}: {'as it should be' if is_well else 'NOT AS IT SHOULD BE'}",
        flush=True,
    )
    if not is_well:
        print(text)
    return is_well


def ask_edits(folder: Path) -> bool:
    """Whether checks/edits.py fails for an edit that changes nothing and for one that doesn't
    compile, and says so of these alone; and tries again none that was refused."""
    top = folder / "clone"
    clone(top)
    plant(top, *EDITS)
    status, passed, failed, text = counts_of(EDITS_IN_GATE, top)
    is_well = (status, passed, failed) == (1, 1, 2)
    for number, said in enumerate(EDITS):
        is_well = is_well and f"positions/planted_{number}: {said}" in text
    plant(top, "refused")
    ran = counts_of(EDITS_IN_GATE, top)
    is_well = is_well and ran[:3] == (0, 1, 0) and "an earlier run" in ran[3]
    print(f"edits: {'as it should be' if is_well else 'NOT AS IT SHOULD BE'}", flush=True)
    if not is_well:
        print(text, ran[3])
    return is_well


def plant(top: Path, *said: str) -> None:
    """Leaves these edits alone in a clone, all of them named."""
    shutil.rmtree(top / "edits")
    to = top / "edits/positions/named"
    to.mkdir(parents=True)
    for number, it in enumerate(said):
        (to / f"planted_{number}.edit").write_text(EDITS[it])


def ask_gate(folder: Path, real: str) -> bool:
    """Whether `.ci/run` fails, though `rt ci` passes, where a tool is broken, where an edit changes
    nothing, and where the text of an edit that must be refused isn't in its file."""
    tools = next(case for case in CASES if case.name == "tools")
    top, program = broken(tools, folder, real)
    to = top / "crates/codenav/out"
    to.mkdir(parents=True)
    shutil.copy(program, to / "codenav")
    stub = folder / "bin"
    stub.mkdir()
    (stub / "rt").write_text(PROVED.replace("REAL", shutil.which("rt") or "rt"))
    (stub / "rt").chmod(0o755)
    plant(top, "refused")
    status, passed, failed, text = counts_of(["bash", ".ci/run"], top, f"{stub}:")
    is_red = status != 0 and passed > 2 and failed > 0
    print(
        f"the gate with a tool broken: {passed} passed, {failed} failed, status {status}: {'as it should be' if is_red else 'NOT AS IT SHOULD BE'}",
        flush=True,
    )
    # nothing that is run beside fails here
    (top / "checks/beside.py").write_text(BESIDE)
    plant(top, "NOT REFUSED")
    status, passed, failed, proved = counts_of(["bash", ".ci/run"], top, f"{stub}:")
    is_red = is_red and (status, passed, failed) == (1, 1, 1)
    print(
        f"the gate with an edit that changes nothing: {passed} passed, {failed} failed", flush=True
    )
    edit = next(iter(sorted(top.glob("crates/*/must-fail/*.edit"))))
    edit.write_text(edit.read_text().replace("old: ", "old: nowhere ", 1))
    status, _, _, unfit = counts_of(["bash", ".ci/run"], top, f"{stub}:")
    print(f"the gate with an edit that doesn't fit: status {status}", flush=True)
    if not is_red or status == 0:
        print(text, proved, unfit)
    return is_red and status != 0


def main() -> int:
    """Answers 0 where each part fails as it should."""
    options = argparse.ArgumentParser(
        description=__doc__, formatter_class=argparse.RawDescriptionHelpFormatter
    )
    options.add_argument(
        "--only", help="these cases, with commas between them; `edits` and `gate` for the last"
    )
    options.add_argument("program", help="the built program")
    given = options.parse_args()
    real = os.path.abspath(given.program)
    every = [*(case.name for case in CASES), "edits", "gate"]
    wanted = given.only.split(",") if given.only else every
    wrong = 0
    for case in CASES:
        if case.name in wanted:
            with tempfile.TemporaryDirectory(prefix="gate-") as folder:
                top, program = broken(case, Path(folder), real)
                wrong += not ask(top, case.part, program, False)
                if case.file:
                    subprocess.run(["git", "checkout", "-q", case.file], cwd=top, check=True)
                wrong += not ask(top, case.part, real, True)
    if "edits" in wanted:
        with tempfile.TemporaryDirectory(prefix="gate-") as folder:
            wrong += not ask_edits(Path(folder))
    if "gate" in wanted:
        with tempfile.TemporaryDirectory(prefix="gate-") as folder:
            wrong += not ask_gate(Path(folder), real)
    print(f"{wrong} not as they should be" if wrong else "each part fails where it should")
    return int(wrong > 0)


if __name__ == "__main__":
    sys.exit(main())
