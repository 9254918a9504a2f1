"""Runs what the proofs can't show: the tests of the tools, and the scripts over the built program.

The scripts ask, kill, fill and refuse the program, or try it in an editor or a browser.

Parts run side by side, one processor less than there are, and beside them the one that mostly
waits; one that measures a time runs at the end, alone. The gate calls it beside `rt ci` and
`checks/edits.py`: then one part runs at a time, what measures a time waits for their end, which the
file says that has their last lines, and these are added to its own. What needs a program that isn't
here is left out, and said, with the command that installs it. The last line is `N passed, M
failed`, and the status is 1 where something failed.
"""

import argparse
import os
import re
import shutil
import signal
import subprocess
import sys
import tempfile
import time
from concurrent.futures import ThreadPoolExecutor
from dataclasses import dataclass
from pathlib import Path
from typing import Optional

TOP = Path(__file__).resolve().parent.parent
PYTHON = "python3", "-B"
# the longest that a part may take, also on a slow machine: the tests of the tools take half an hour
# beside the proofs
SECONDS = 4800
COUNTED = re.compile(r"(\d+) passed, (\d+) failed")
RAN = re.compile(r"^Ran (\d+) tests? in ", re.M)
NOT_PASSED = re.compile(r"(?:failures|errors|unexpected successes)=(\d+)")
MEMCHR = "/usr/share/cargo/registry/memchr-2.5.0/Cargo.toml"
LUA_MODULE = "/usr/share/nginx/modules-available/mod-http-lua.conf"
SKIPPED = re.compile(r"skipped=(\d+)")


@dataclass(frozen=True)
class Part:
    """A command, the programs that it needs, and the Debian packages that have them."""

    name: str
    words: tuple[str, ...]
    # programs, or files by their whole paths
    needs: tuple[str, ...] = ()
    packages: str = ""
    folder: str = "."
    waits: bool = False
    runs_alone: bool = False
    mounts: bool = False
    # what some of its checks need
    some_need: tuple[str, ...] = ()


def parts(program: str) -> list[Part]:
    """All parts, those that take longest first."""
    compiler = os.environ.get("CC", "cc")
    return [
        Part(
            "program",
            (*PYTHON, "checks/program.py", program),
            (compiler,),
            "gcc libc6-dev",
            waits=True,
        ),
        Part(
            "tools",
            (*PYTHON, "-m", "unittest", "discover", "-s", "tests", "-t", "."),
            packages="nginx libnginx-mod-http-lua haproxy openssl",
            folder="tools",
            some_need=("nginx", LUA_MODULE, "haproxy", "openssl"),
        ),
        Part(
            "refused",
            (*PYTHON, "checks/refused.py", "--each", "50", program),
            (compiler,),
            "gcc libc6-dev",
        ),
        Part("cost", (*PYTHON, "checks/cost.py", program), ("valgrind",), "valgrind"),
        Part(
            "calls",
            (*PYTHON, "checks/calls_refused.py", "--gate", program),
            (compiler, "git", "ctags"),
            "gcc libc6-dev git universal-ctags",
        ),
        Part("protocol", (*PYTHON, "checks/protocol.py"), ("spin", "gcc"), "spin gcc libc6-dev"),
        Part("kills", (*PYTHON, "checks/kills.py", program, "40")),
        Part("disk", (*PYTHON, "checks/full_disk.py", program), mounts=True),
        Part(
            "neovim",
            ("tools/tests/neovim", program),
            ("nvim", "rust-analyzer"),
            "neovim rust-web-analyzer librust-syn-dev",
        ),
        Part(
            "chromium",
            ("tools/tests/chromium", program),
            ("chromium", "chromedriver", "ctags", "rust-analyzer", MEMCHR),
            "chromium chromium-driver universal-ctags rust-web-analyzer librust-memchr-dev librust-syn-dev",
            runs_alone=True,
        ),
    ]


def may_mount() -> bool:
    """Whether a process of this user may have file systems of its own."""
    as_root = [] if os.getuid() == 0 else ["--map-root-user"]
    tried = ["unshare", "--mount", *as_root, "mount", "-t", "tmpfs", "none", "/mnt"]
    try:
        return subprocess.run(tried, capture_output=True, check=False).returncode == 0
    except OSError:
        return False


def missing_of(names: tuple[str, ...], part: Part) -> Optional[str]:
    """Which of these aren't here, with the command that installs them, if one isn't."""
    path = f"{os.environ['PATH']}:/usr/sbin:/sbin"
    missing = [name for name in names if not shutil.which(name, os.F_OK, path)]
    return f"{', '.join(missing)} not found: apt-get install {part.packages}" if missing else None


def lacking(part: Part) -> Optional[str]:
    """Why a part is left out, if it is."""
    missing = missing_of(part.needs, part)
    if missing:
        return missing
    if part.mounts and not may_mount():
        return "this user may not mount file systems: run it as root"
    return None


@dataclass(frozen=True)
class Result:
    """How many checks of a part passed and failed."""

    passed: int
    failed: int


def counted(part: Part, text: str, is_well: bool) -> Result:
    """What a part counts: the tools' tests one by one, a script once."""
    ran = RAN.search(text) if part.name == "tools" else None
    if not ran:
        return Result(int(is_well), int(not is_well))
    failed = sum(int(number) for number in NOT_PASSED.findall(text))
    skipped = sum(int(number) for number in SKIPPED.findall(text))
    # a run that failed without a count, as of a module that can't be loaded, isn't well either
    failed = max(failed, int(not is_well))
    return Result(max(int(ran[1]) - failed - skipped, 0), failed)


def run(part: Part) -> Result:
    """Runs a part, and prints what it printed, all at once."""
    start = time.monotonic()
    with tempfile.TemporaryFile("w+", errors="replace") as out:
        with subprocess.Popen(
            part.words,
            cwd=TOP / part.folder,
            stdin=subprocess.DEVNULL,
            stdout=out,
            stderr=subprocess.STDOUT,
            start_new_session=True,
        ) as ran:
            try:
                status: object = ran.wait(SECONDS)
            except subprocess.TimeoutExpired:
                os.killpg(ran.pid, signal.SIGKILL)
                status = f"killed after {SECONDS} seconds"
        out.seek(0)
        text = out.read()
    result = counted(part, text, status == 0)
    said = "passed" if status == 0 else f"FAILED, status {status}"
    end = "" if text.endswith("\n") or not text else "\n"
    took = time.monotonic() - start
    print(f"== {part.name}\n{text}{end}{part.name}: {said}, in {took:.0f} s", flush=True)
    return result


def waited_for(file: str) -> str:
    """The text of a file, once it's there."""
    while not os.path.exists(file):
        time.sleep(1)
    return Path(file).read_text(encoding="utf-8", errors="replace")


def main() -> int:
    """Answers 0 where nothing failed."""
    options = argparse.ArgumentParser(
        description=__doc__, formatter_class=argparse.RawDescriptionHelpFormatter
    )
    options.add_argument("--only", help="these parts, by their names, with commas between them")
    options.add_argument(
        "--until",
        metavar="FILE",
        help="what runs beside this ends when the file is there, whose lines are added to the last",
    )
    options.add_argument("program", help="the built program, as crates/codenav/out/codenav")
    given = options.parse_args()
    # Debian's Python, which has the libraries of the tools, goes before another one
    os.environ["PATH"] = f"/usr/bin:{os.environ['PATH']}"
    program = os.path.abspath(given.program)
    if not os.access(program, os.X_OK):
        sys.exit(f"beside.py: {given.program} is no program")
    every = parts(program)
    wanted = given.only.split(",") if given.only else [part.name for part in every]
    unknown = set(wanted) - {part.name for part in every}
    if unknown:
        sys.exit(f"beside.py: no such part: {', '.join(sorted(unknown))}")
    os.environ["PATH"] = f"/usr/bin:{os.environ['PATH']}"
    # the tests of the tools ask this program too
    os.environ["CODENAV_PROGRAM"] = program
    chosen = [part for part in every if part.name in wanted]
    left_out = {part.name: why for part in chosen if (why := lacking(part)) is not None}
    chosen = [part for part in chosen if part.name not in left_out]
    runs_beside = given.until is not None and not os.path.exists(given.until)
    lanes = 1 if runs_beside else max(len(os.sched_getaffinity(0)) - 1, 1)
    with ThreadPoolExecutor(1) as waiting, ThreadPoolExecutor(lanes) as working:
        jobs = [
            (waiting if part.waits else working).submit(run, part)
            for part in chosen
            if not part.runs_alone
        ]
        results = [job.result() for job in jobs]
    said_before = waited_for(given.until) if given.until else ""
    results += [run(part) for part in chosen if part.runs_alone]
    for name, why in left_out.items():
        print(f"left out: {name}: {why}")
    for part in chosen:
        if why_some := missing_of(part.some_need, part):
            print(f"left out: some of {part.name}: {why_some}")
    results += [Result(int(one), int(other)) for one, other in COUNTED.findall(said_before)]
    passed = sum(result.passed for result in results)
    failed = sum(result.failed for result in results)
    print(f"{passed} passed, {failed} failed", flush=True)
    return int(failed > 0)


if __name__ == "__main__":
    sys.exit(main())
