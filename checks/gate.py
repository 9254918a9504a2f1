"""Runs the gate and says what each part of it costs in processor time, user and system together; or
reads that from a gate's log.

The whole is what the system counted for the command and all that it started. A part is the time of
the processes of one crate, as it was seen last before each ended, looked at a few times a second;
what no part has is the rest. The time by the clock is of a plan: each part takes one processor for
as long as it cost, once the proofs of the crates below have ended; of those that can begin, the one
with the longest way to the end does. Edits come behind the proof and the tests of their crate where
`rt ci` tries them, and else, all of a crate as one job, behind all proofs and tests. What the plan
leaves out: `rt ci` waits for memory, and where RT_JOBS isn't set it gives a part that has nothing
beside it several processors.
"""

import argparse
import os
import re
import resource
import subprocess
import sys
import threading
import time
from collections import defaultdict
from pathlib import Path
from typing import Optional

PARTS = ("proof", "tests", "edits")
# What the proofs of these cost is the measure: hosts differ by two.
MEASURES = ("positions", "tags")
# those of `rt ci`, and of checks/edits.py
EDIT_FOLDERS = re.compile("/rt-edit-|/codenav-edits-")
TICK = os.sysconf("SC_CLK_TCK")
COST = re.compile(r"^cost: (\w+) proof (\d+) tests (\d+) edits (\d+)$", re.M)
ALONE = re.compile(r"^alone: (\w+) (\w+) (\d+)$", re.M)
TOP = Path(__file__).resolve().parent.parent
PROCESSORS = (2, 4, 8)
WHOLE = re.compile(r"^cost: whole (\d+) rest (\d+) minutes (\d+)$", re.M)
# a crate and one of PARTS; and with the number of the edit
Part = tuple[str, str]
Job = tuple[str, str, int]
# what each job waits for, and its seconds
Jobs = dict[Job, tuple[list[Job], float]]


def part_of(words: list[str], folder: str) -> Optional[Part]:
    """The crate and the part that a process works at, by its words and its folder; none where it is
    of no crate."""
    if "--crate-name" in words:
        crate = words[words.index("--crate-name") + 1]
        if EDIT_FOLDERS.search(folder):
            return crate, "edits"
        return crate, "tests" if "--test" in words else "proof"
    built = (
        re.search(r"(?:/crates/\w+/out/|/bin/|^out/)(\w+?)(_tests)?(?:\.o)?$", words[-1])
        if words
        else None
    )
    return (built[1], "tests" if built[2] else "proof") if built else None


def read(path: str) -> str:
    with open(path, "rb") as file:
        return file.read().decode(errors="replace")


class Watcher(threading.Thread):
    """Looks at the processes below this one until it's asked to stop."""

    def __init__(self) -> None:
        super().__init__(daemon=True)
        self.seen: dict[tuple[str, str], tuple[Part, float]] = {}
        self.alone: defaultdict[Part, float] = defaultdict(float)
        self.last = time.time()
        self.is_over = threading.Event()

    def run(self) -> None:
        while not self.is_over.wait(0.3):
            self.look()

    def look(self) -> None:
        stats = {}
        for pid in filter(str.isdigit, os.listdir("/proc")):
            try:
                stats[pid] = read(f"/proc/{pid}/stat").rpartition(")")[2].split()
            except OSError:
                pass
        below = {str(os.getpid())}
        while found := [
            pid for pid, stat in stats.items() if stat[1] in below and pid not in below
        ]:
            below.update(found)
        running = set()
        for pid in below & stats.keys():
            try:
                part = part_of(
                    read(f"/proc/{pid}/cmdline").rstrip("\0").split("\0"),
                    os.readlink(f"/proc/{pid}/cwd"),
                )
            except OSError:
                continue
            if part:
                stat = stats[pid]
                self.seen[pid, stat[19]] = part, (int(stat[11]) + int(stat[12])) / TICK
                running.add(part)
        now = time.time()
        if len(running) == 1:
            self.alone[running.pop()] += now - self.last
        self.last = now

    def costs(self) -> dict[str, dict[str, float]]:
        found: dict[str, dict[str, float]] = defaultdict(lambda: dict.fromkeys(PARTS, 0.0))
        for (crate, part), seconds in self.seen.values():
            found[crate][part] += seconds
        return found


def measure(command: list[str]) -> int:
    start, watcher = time.time(), Watcher()
    watcher.start()
    last = None
    with subprocess.Popen(command, stdout=subprocess.PIPE, text=True, errors="replace") as ran:
        assert ran.stdout is not None
        for line in ran.stdout:
            if last is not None:
                print(last, end="", flush=True)
            last = line
    watcher.is_over.set()
    watcher.join()
    costs = watcher.costs()
    for crate, cost in costs.items():
        print(f"cost: {crate} " + " ".join(f"{part} {cost[part]:.0f}" for part in PARTS))
    for (crate, part), seconds in watcher.alone.items():
        print(f"alone: {crate} {part} {seconds:.0f}")
    used = resource.getrusage(resource.RUSAGE_CHILDREN)
    whole = used.ru_utime + used.ru_stime
    rest = whole - sum(sum(cost.values()) for cost in costs.values())
    print(f"cost: whole {whole:.0f} rest {rest:.0f} minutes {(time.time() - start) / 60:.0f}")
    print(last or "", end="", flush=True)
    return ran.returncode


def costs_in(log: str) -> tuple[dict[str, list[int]], int, int, int]:
    text = read(log)
    whole = WHOLE.search(text)
    if not whole:
        sys.exit(
            f"gate.py: {log} has no line of the whole cost: the gate didn't end, or it wasn't measured"
        )
    crates = {name: [int(it) for it in costs] for name, *costs in COST.findall(text)}
    return crates, int(whole[1]), int(whole[2]), int(whole[3])


def below(crate: str, lines: dict[str, list[str]]) -> set[str]:
    """The crates that one calls, by the lines of crates.txt, and those that they call."""
    found: set[str] = set()
    for name in lines.get(crate, ()):
        if name in lines:
            found |= {name} | below(name, lines)
    return found


def jobs_of(crates: dict[str, list[int]]) -> Jobs:
    """What the plan has of these costs: of each job what it waits for, and its seconds."""
    lines: dict[str, list[str]] = {}
    for line in (TOP / "crates.txt").read_text().splitlines():
        name, _, names = line.partition(":")
        if not line.startswith("#"):
            lines[name.split()[0]] = names.split()
    jobs: Jobs = {}
    for crate, costs in crates.items():
        waits = [(name, "proof", 0) for name in below(crate, lines) if name in crates]
        for part, cost in zip(PARTS[:2], costs):
            jobs[crate, part, 0] = waits, cost
    every = [*jobs]
    for crate, costs in crates.items():
        edits = len(list((TOP / "crates" / crate / "must-fail").glob("*.edit")))
        own = [(crate, part, 0) for part in PARTS[:2]] if edits else every
        for number in range(edits or 1):
            jobs[crate, "edits", number] = own, costs[2] / (edits or 1)
    return jobs


def planned(jobs: Jobs, processors: int) -> float:
    """The seconds by the clock that these jobs take on so many processors."""
    ways: dict[Job, float] = {}

    def way(job: Job) -> float:
        """The seconds from when a job begins to the end of the last that waits for it."""
        if job not in ways:
            behind = [other for other, (waits, _) in jobs.items() if job in waits]
            ways[job] = jobs[job][1] + max(map(way, behind), default=0)
        return ways[job]

    left, now = sorted(jobs, key=way, reverse=True), 0.0
    running: list[tuple[float, Job]] = []
    ended: set[Job] = set()
    while left or running:
        ready = [job for job in left if ended.issuperset(jobs[job][0])]
        for job in ready[: processors - len(running)]:
            left.remove(job)
            running.append((now + jobs[job][1], job))
        running.sort()
        now, job = running.pop(0)
        ended.add(job)
    return now


def ratio(log: str) -> None:
    crates, whole, rest, minutes = costs_in(log)
    yardstick = sum(crates[name][0] for name in MEASURES)
    last = [line for line in read(log).splitlines() if line.strip()][-1]
    print(
        f"{last}: {whole / 60:.0f} processor minutes in {minutes}, {whole / yardstick:.1f} times the {yardstick / 60:.1f} of the proofs of {' and '.join(MEASURES)}"
    )
    alone = [(int(seconds), crate, part) for crate, part, seconds in ALONE.findall(read(log))]
    for seconds, crate, part in sorted(alone, reverse=True):
        if seconds >= 60:
            print(f"alone for {seconds / 60:.1f} minutes: {crate}, {part}")
    jobs = jobs_of(crates)
    plans = [
        f"{planned(jobs, number) / 60:.0f} minutes on {number} processors" for number in PROCESSORS
    ]
    print(
        f"planned: {', '.join(plans)}; the longest way {planned(jobs, len(jobs)) / 60:.0f}; and what is of no crate, {rest / 60:.1f}"
    )


def table(log: str) -> None:
    crates, whole, rest, _ = costs_in(log)
    print("| Crate | Proof | Tests | Edits |\n|-|-|-|-|")
    for name, costs in crates.items():
        print(f"| {name} | " + " | ".join(f"{it / 60:.1f}" for it in costs) + " |")
    print(f"\nThe whole: {whole / 60:.0f}, of which {rest / 60:.1f} are of no crate.")


def main() -> int:
    options = argparse.ArgumentParser(
        description=__doc__, formatter_class=argparse.RawDescriptionHelpFormatter
    )
    parts = options.add_subparsers(required=True, dest="part")
    ran = parts.add_parser(
        "measure",
        help="runs the gate; before its last line it prints `cost:` lines: a crate, its proof, its tests"
        " and its edits, in seconds; and `alone:` lines: for how many seconds nothing ran beside a part",
    )
    ran.add_argument("command", nargs=argparse.REMAINDER)
    for part, text in (
        (
            "ratio",
            "the cost of the whole over that of the proofs of the crates that measure it; what ran alone;"
            " and the time by the clock on 2, 4 and 8 processors",
        ),
        ("table", "the costs as a table of docs/inside/DEVELOPING.md, in minutes"),
    ):
        parts.add_parser(part, help=text).add_argument("log", metavar="LOG")
    given = options.parse_args()
    if given.part == "measure":
        return measure(given.command)
    {"ratio": ratio, "table": table}[given.part](given.log)
    return 0


if __name__ == "__main__":
    sys.exit(main())
