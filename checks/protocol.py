"""Explores models of how sets are published and asked, whole, by SPIN: checks/protocol/sets.pml of
publishers that stop and die, and who asks meanwhile, and checks/protocol/keys.pml of the keys that
the manifest is put under. In each nothing is to be found; and with a rule left out something is, so
each rule is needed, and the model sees that it isn't kept.

Without `--all` the runs are those that take some seconds. One of all takes ten minutes, 4 GB of
memory and a processor.
"""

import argparse
import re
import subprocess
import sys
import tempfile
import time
from pathlib import Path
from typing import NamedTuple

MODELS = Path(__file__).resolve().parent / "protocol"
SECONDS = 3600
STATES = re.compile(r"^ *(\d+)(?:\.\d+)?(?:e\+(\d+))? states, stored", re.M)
ERRORS = re.compile(r"errors: (\d+)")


class Run(NamedTuple):
    """A model with options; whether something is to be found, and whether it takes long."""

    model: str
    options: str = ""
    finds: bool = False
    is_long: bool = False

    def name(self) -> str:
        """The run as it's called in lines."""
        return f"{self.model} {self.options}".strip()


RUNS = [
    Run("sets"),
    Run("sets", "-DCRASHES=2 -DR2=3"),
    Run("keys"),
    *(Run("sets", f"-DBAD_{rule}", True) for rule in ("ORDER", "NAME", "BASE", "ASK", "KEY")),
    Run("keys", "-DBAD_PROBE", True),
    Run("sets", "-DCRASHES=2 -DQ=2", is_long=True),
    Run("sets", "-DREMOVER -DCRASHES=2", is_long=True),
    Run("sets", "-DLASTREMOVES -DCRASHES=2", is_long=True),
    Run("sets", "-DFENCE_LAST -DCRASHES=2", is_long=True),
    Run("sets", "-DTWO -DCRASHES=2", is_long=True),
    Run("sets", "-DREFENCE", is_long=True),
    Run("keys", "-DN=4", is_long=True),
    Run("sets", "-DNP=3 -DNOASK", is_long=True),
    Run("sets", "-DNP=3 -DCRASHES=2 -DNOASK", is_long=True),
    Run("sets", "-DNP=3 -DCRASHES=0", is_long=True),
]


def explored(run: Run, folder: str) -> str:
    """What SPIN prints of a run, which is made in an empty folder."""
    compiled = ["-O2", "-DSAFETY", "-DMEMLIM=8000", "-DVECTORSZ=2048"]
    # states of three publishers are packed, for they wouldn't fit
    hash_bits = 24
    if "-DNP=3" in run.options:
        compiled, hash_bits = [*compiled, "-DCOLLAPSE"], 26
    for words in (
        ["spin", "-a", *run.options.split(), str(MODELS / f"{run.model}.pml")],
        ["gcc", *compiled, "-o", "pan", "pan.c"],
        ["./pan", "-m100000", f"-w{hash_bits}"],
    ):
        made = subprocess.run(
            words, cwd=folder, capture_output=True, text=True, timeout=SECONDS, check=False
        )
        if made.returncode != 0:
            raise RuntimeError(f"{words[0]} ended with {made.returncode}: {made.stderr[-500:]}")
    return made.stdout


def fault_of(run: Run, said: str) -> str:
    """What is wrong with what SPIN says of a run; empty where nothing is."""
    errors = ERRORS.search(said)
    if errors is None:
        return "nothing was explored"
    if int(errors[1]) > 0:
        return "" if run.finds else "a fault is found"
    if run.finds:
        return "no fault is found without a rule"
    is_whole = "Search not completed" not in said and "max search depth too small" not in said
    return "" if is_whole else "it wasn't explored whole"


def main() -> int:
    """Answers 0 where each run is as it's to be."""
    options = argparse.ArgumentParser(
        description=__doc__, formatter_class=argparse.RawDescriptionHelpFormatter
    )
    options.add_argument("--all", action="store_true", help="the long runs too")
    given = options.parse_args()
    chosen = [run for run in RUNS if given.all or not run.is_long]
    failed = 0
    for run in chosen:
        start = time.monotonic()
        with tempfile.TemporaryDirectory() as folder:
            said = explored(run, folder)
        fault, states = fault_of(run, said), STATES.search(said)
        took = time.monotonic() - start
        what = fault or ("a fault, as is to be" if run.finds else "nothing is found")
        count = states[0].split()[0] if states else "no"
        print(f"{run.name()}: {what}; {count} states, {took:.1f} s", flush=True)
        failed += bool(fault)
    print(f"runs {len(chosen)}, wrong {failed}")
    return int(failed > 0)


if __name__ == "__main__":
    sys.exit(main())
