#!/usr/bin/env python3
"""Tries the edits that the check must refuse, those of edits/NAME beside those of
crates/NAME/must-fail, in batches, and prints what refused each.

A batch has edits of different functions. It's applied to a copy of the crate, and the functions
that it changes are checked with what they call (`rattle check --only`), over what the batches
before it proved: each must be among those that aren't proved. An edit outside functions has a batch
of its own, in which the function that it names isn't proved, or something isn't.
"""

import argparse
import pathlib
import re
import shutil
import subprocess
import sys
import tempfile
import time
from collections.abc import Iterator
from concurrent.futures import ThreadPoolExecutor
from typing import Optional

from edit_files import (
    TOP,
    BadEdit,
    Edit,
    KeptEdits,
    Libraries,
    Place,
    Room,
    Tried,
    applied,
    batches_of,
    edits_of,
    libraries,
    module_of,
    proved_again,
)

NOT_PROVED = re.compile(r"not proved|no proof")
# With this alone the check hasn't tried the function's own goals: a function that it calls isn't
# proved.
WAITS = re.compile(r"(not proved; |no proof: )(it calls|it passes|a call of)")
# Of the edits that aren't named, each run of the gate tries one of so many shares.
TURNS = 61
REFUSED, NOT_REFUSED, BAD = "refused", "NOT REFUSED", "BAD EDIT"
# an edit, what came of it, and why
Outcome = tuple[Edit, str, str]


def words_of(said: dict[str, str], crate: str, place: Place) -> list[str]:
    """Answers what the check says of the functions of a place. A method's name there is that of its
    type's file, which may be another."""
    module = module_of(place.file)
    here = re.compile("::".join([crate, *module]) + rf"(?:::[A-Z]\w*)?::{place.name}$")
    elsewhere = re.compile(crate + rf"(?:::\w+)*::[A-Z]\w*::{place.name}$")
    found = [words for symbol, words in said.items() if here.match(symbol)]
    return found or [words for symbol, words in said.items() if elsewhere.match(symbol)]


def verdict_of(edit: Edit, places: set[Place], said: dict[str, str]) -> tuple[Optional[bool], str]:
    """Answers whether an edit was refused, or none where its own goals wait for the proof of a
    function that it calls, and by what."""
    if any(place.name is None for place in places):
        wanted = f"::{edit.by}" if edit.by else ""
        of = {name: words for name, words in said.items() if name.endswith(wanted)}
        found = [f"{name}: {words}" for name, words in of.items() if NOT_PROVED.search(words)]
        return bool(found), found[0] if found else ""
    waiting = ""
    for place in sorted(places, key=str):
        words = [it for it in words_of(said, edit.crate, place) if NOT_PROVED.search(it)]
        for it in words:
            if not WAITS.match(it):
                return True, it
        waiting = waiting or "".join(words[:1])
    return (None if waiting else False), waiting


def why_of(words: str, places: set[Place], ran: str) -> str:
    """Answers what refused an edit, by the words of its verdict: goals, a text of a proof, or a
    function that it calls."""
    if re.fullmatch(r"(?:.*: )?not proved", words):
        names = "|".join(it.name for it in places if it.name)
        within = rf"\b(?:{names})/\S+" if names else r"\S+"
        found = re.search(rf"^(?:note: )?(?:\./)?(proofs/\S*{within}: error: .*)$", ran, re.M)
        return found[1][:160] if found else words
    words = re.sub(r"expected answers in \S+; ", "", words)
    return re.sub(r"(no proof|not proved)[:;] ", "", words)[:160]


def tried(room: Room, batch: list[Tried]) -> Iterator[Outcome]:
    """Tries a batch of edits, and where that stops before the prover or leaves something open,
    parts of it: each edit and what came of it."""
    texts: dict[str, str] = {}
    for edit, _ in batch:
        texts, _ = applied(edit, texts)
    every = [place for _, places in batch for place in sorted(places, key=str)]
    asked = [place for place in every if place.name]
    if batch[0][0].by and not asked:
        asked = [Place(every[0].file, None, batch[0][0].by)]
    said, ran = room.check(texts, asked)
    if len(batch) == 1 and not said:
        lines = [it for it in ran.splitlines() if "error" in it]
        yield batch[0][0], BAD, (lines or ["it didn't reach the prover"])[0][:160]
        return
    verdicts = [verdict_of(edit, places, said) for edit, places in batch]
    left = [it for it, (is_refused, _) in zip(batch, verdicts) if not said or is_refused is None]
    left = left if len(batch) > 1 else []
    for (edit, places), (is_refused, words) in zip(batch, verdicts):
        if (edit, places) not in left:
            outcome = NOT_REFUSED if is_refused is False else REFUSED
            yield edit, outcome, why_of(words, places, ran)
    middle = len(left) // 2 if len(left) == len(batch) else 0
    for part in filter(None, (left[:middle], left[middle:])):
        yield from tried(room, part)


def try_crate(folder: pathlib.Path, stands_on: Libraries, edits: list[Edit], in_gate: bool) -> int:
    """Tries a crate's edits, prints what came of each, and answers how many weren't refused. In the
    gate, what an earlier run refused of the same files isn't tried again."""
    crate, start, count, failed = edits[0].crate, time.monotonic(), 0, 0
    kept = KeptEdits(crate, stands_on)
    if in_gate:
        known = [edit for edit in edits if kept.why(edit) is not None]
        for edit in known:
            print(f"{edit}: refused by an earlier run here: {kept.why(edit)}", flush=True)
        edits = [edit for edit in edits if edit not in known]
    is_begun = not (in_gate and stands_on.are_left_by_ci(crate))
    if edits and is_begun:
        said, is_proved = proved_again(crate)
        if not is_proved:
            print(f"{said}{crate}: it isn't proved as it stands", flush=True)
            return len(edits)
    room = Room(folder, crate, stands_on, is_begun)
    for batch in batches_of(edits):
        count += 1
        for edit, outcome, why in tried(room, batch):
            print(f"{edit}: {outcome}{': ' if why else ''}{why}", flush=True)
            if outcome == REFUSED and in_gate:
                kept.keep(edit, why)
            failed += outcome != REFUSED
    shutil.rmtree(room.folder)
    took = time.monotonic() - start
    print(f"{crate}: {len(edits)} edits in {count} batches, {took:.0f} s", flush=True)
    return failed


def unfit(edits: list[Edit]) -> int:
    """Says of each edit that can't be applied why, and answers how many they are."""
    failed = 0
    for edit in edits:
        try:
            applied(edit, {})
        except (BadEdit, OSError) as error:
            print(error)
            failed += 1
    return failed


def share_of(edits: list[Edit], turn: Optional[int]) -> list[Edit]:
    """Answers the named ones of these edits, and of the others the share of a turn, by default that
    of the number of commits."""
    if turn is None:
        words = ["git", "rev-list", "--count", "HEAD"]
        turn = int(subprocess.run(words, cwd=TOP, capture_output=True, check=True).stdout)
    named, others = [it for it in edits if it.is_named], [it for it in edits if not it.is_named]
    turn %= TURNS
    # those of one crate or two, whose proofs a check shares
    share = others[len(others) * turn // TURNS : len(others) * (turn + 1) // TURNS]
    print(
        f"edits: {len(named)} named; of the other {len(others)} {len(share)}, share {turn} of {TURNS}"
    )
    return [*named, *share]


def chosen(names: list[str], listed: list[str], with_must_fail: bool) -> list[Edit]:
    """Answers the edits of these crates, and these edits, by default of all crates."""
    single = {it for it in names if "/" in it}
    named = {it.partition("/")[0] for it in names} or {*listed}
    found = [
        edit
        for crate in listed
        if crate in named
        for edit in edits_of(crate, with_must_fail or bool(single))
    ]
    return [it for it in found if not single or str(it) in single or it.crate in names]


def try_all(stands_on: Libraries, edits: list[Edit], in_gate: bool, jobs: int) -> int:
    """Tries edits, so many crates at once, the largest first, and answers how many weren't
    refused."""
    of_crate: dict[str, list[Edit]] = {}
    for edit in edits:
        of_crate.setdefault(edit.crate, []).append(edit)

    def size(crate: str) -> int:
        files = (TOP / "crates" / crate).glob("[sp]*/**/*.*t")
        return sum(file.stat().st_size for file in files)

    with tempfile.TemporaryDirectory(prefix="codenav-edits-") as folder:
        with ThreadPoolExecutor(jobs) as pool:
            running = [
                pool.submit(try_crate, pathlib.Path(folder), stands_on, of_crate[crate], in_gate)
                for crate in sorted(of_crate, key=size, reverse=True)
            ]
            return sum(it.result() for it in running)


def main() -> int:
    parser = argparse.ArgumentParser(
        description=__doc__, formatter_class=argparse.RawDescriptionHelpFormatter
    )
    for option, text in (
        (
            "--fits",
            "say which texts, there and in must-fail/, aren't in their file once; try nothing",
        ),
        ("--gate", "try the named edits, and a share of the others, over what `rt ci` left"),
        ("--all", "try the edits of must-fail/ too"),
    ):
        parser.add_argument(option, action="store_true", help=text)
    parser.add_argument("--turn", type=int, help="the share of this number (default: by commits)")
    parser.add_argument("--jobs", type=int, default=1, help="so many crates at once")
    each = "a crate, or CRATE/EDIT for one of its edits, of must-fail/ too (default: every crate)"
    parser.add_argument("names", nargs="*", metavar="NAME", help=each)
    words = parser.parse_args()
    stands_on = libraries()
    folders = [it.name for it in (TOP / "edits").iterdir()]
    asked = {it.partition("/")[0] for it in words.names}
    unknown = sorted({*asked, *folders} - {*stands_on.lines})
    if unknown:
        parser.error(f"crates.txt lists no {', '.join(unknown)}")
    edits = chosen(words.names, [*stands_on.lines], words.all or words.fits)
    failed = unfit(edits)
    if words.fits or failed:
        print(f"edits: {len(edits) - failed} of {len(edits)} fit")
        return int(failed > 0)
    if words.gate:
        edits = share_of(edits, words.turn)
    failed = try_all(stands_on, edits, words.gate, words.jobs)
    print(f"{len(edits) - failed} passed, {failed} failed")
    return int(failed > 0)


if __name__ == "__main__":
    sys.exit(main())
