"""Tests of `index` of Rust, where rust-analyzer is installed, beside the dump that that writes
itself."""

import json
import os
import re
import subprocess
import unittest
from collections import defaultdict

from tests import test_index_again
from tests.packages import has_rust_analyzer
from tests.test_index import OnFolder, vertices

Spot = tuple[str, int, int]


def definitions(path: str) -> dict[Spot, list[Spot]]:
    """Where each range of a dump that leads somewhere is defined."""
    found, edges, items = dict[int, dict[str, object]](), {}, defaultdict[int, list[int]](list)
    of, following = dict[int, str](), dict[int, int]()
    with open(path, encoding="utf-8") as file:
        elements = [json.loads(line) for line in file]
    for one in elements:
        if one["type"] == "vertex":
            found[one["id"]] = one
        elif one["label"] == "next":
            following[one["outV"]] = one["inV"]
        elif one["label"] == "textDocument/definition":
            edges[one["outV"]] = one["inV"]
        elif one["label"] == "item":
            items[one["outV"]] += one["inVs"]
        elif one["label"] == "contains" and found[one["outV"]]["label"] == "document":
            of |= dict.fromkeys(one["inVs"], str(found[one["outV"]]["uri"]))

    def spot(own: int) -> Spot:
        start = found[own]["start"]
        assert isinstance(start, dict)
        return of[own], start["line"], start["character"]

    answers = dict[Spot, list[Spot]]()
    for own in of:
        at = own
        while at not in edges and at in following:
            at = following[at]
        if at in edges:
            answers[spot(own)] = sorted(set(map(spot, items[edges[at]])))
    return answers


@unittest.skipUnless(has_rust_analyzer(), "rust-analyzer isn't installed")
class Rust(OnFolder):
    files = {
        "Cargo.toml": '[package]\nname = "shapes"\nversion = "1.2.0"\nedition = "2021"\n',
        "src/lib.rs": """pub mod shape;

#[macro_export]
macro_rules! doubled { ($a:expr) => { $a + $a }; }

macro_rules! own { ($a:expr) => { $a }; }

pub struct Pair(pub u8, pub u8);

impl Pair {
    pub fn first(&self) -> u8 { self.0 + own!(self.1) }
}

pub fn pair() -> Pair { self::made(doubled!(1)) }

fn made(one: u8) -> Pair { Pair(one, one) }
""",
        "src/shape.rs": """use crate::Pair;

pub trait Area { fn area(&self) -> u8; }

pub struct Side { pub side: u8, pub pair: Pair }

impl Area for Side {
    fn area(&self) -> u8 { self.side * super::pair().first() }
}

pub fn square(side: u8) -> Side { Side { side, pair: super::pair() } }
""",
    }

    def test_answers(self) -> None:
        """Keywords that are names, fields without names, macros, and the shorthand of a literal."""
        status, said = self.index()
        self.assertEqual(status, 0, said)
        lib, shape = "src/lib.rs", "src/shape.rs"
        self.assert_answers(
            {
                ("definition", lib, 10, 37): ["lib.rs:7"],
                ("definition", lib, 10, 32): ["lib.rs:10"],
                ("definition", lib, 10, 41): ["lib.rs:5"],
                ("definition", lib, 13, 24): ["lib.rs:0"],
                ("definition", lib, 13, 30): ["lib.rs:15"],
                ("definition", lib, 13, 35): ["lib.rs:3"],
                ("definition", shape, 0, 4): ["lib.rs:0"],
                ("definition", shape, 0, 11): ["lib.rs:7"],
                ("definition", shape, 7, 39): ["lib.rs:0"],
                ("definition", shape, 7, 46): ["lib.rs:13"],
                ("definition", shape, 7, 53): ["lib.rs:10"],
                ("implementation", shape, 2, 10): ["shape.rs:4"],
                ("implementation", shape, 2, 20): ["shape.rs:7"],
                ("references", shape, 4, 22): ["shape.rs:10", "shape.rs:4", "shape.rs:7"],
            }
        )
        names = {one["identifier"] for one in vertices(self.out, "moniker")}
        wanted = {"doubled!", "Pair", "Pair::first", "pair", "shape", "shape::Area", "crate"}
        wanted |= {"shape::Area::area", "shape::Side", "shape::Side::side", "shape::Side::pair"}
        self.assertLessEqual(wanted, names)
        self.assertNotIn("own!", names)

    def test_itself(self) -> None:
        """The names that rust-analyzer's own dump leads somewhere lead there in this one, and nowhere
        else but at the shorthand of a literal, which is a field and a variable. Where it has the
        sources of the standard library it leads on from operators too, and the blanks beside them.
        """
        self.assertEqual(self.index()[0], 0)
        own = os.path.join(self.home, "own.lsif")
        with open(own, "wb") as out:
            words = ["rust-analyzer", "lsif", "."]
            subprocess.run(words, cwd=self.folder, stdout=out, stderr=-1, check=True)
        texts = {
            f"file://{self.folder}/{name}": text.splitlines() for name, text in self.files.items()
        }
        wanted, found = definitions(own), definitions(self.out)
        for uri, line, start in [*wanted]:
            if uri in texts and not re.match(r"\w", texts[uri][line][start:]):
                del wanted[uri, line, start]
        self.assertGreater(len(wanted), 40)
        short = next(own for own in found if own[0].endswith("shape.rs") and own[1:] == (10, 41))
        self.assertLessEqual({*wanted.pop(short, [])}, {*found[short]})
        self.assertEqual({spot: found.get(spot) for spot in wanted}, wanted)


@unittest.skipUnless(has_rust_analyzer(), "rust-analyzer isn't installed")
class Files(test_index_again.Again):
    """A module whose file came, or is gone, is asked for again where it's named."""

    files = {
        "Cargo.toml": '[package]\nname = "app"\nversion = "0.1.0"\nedition = "2021"\n',
        "src/lib.rs": "pub mod a;\npub mod other;\npub fn one() -> i32 { a::two() }\n",
        "src/a.rs": "pub fn two() -> i32 { 2 }\n",
    }

    def test_files(self) -> None:
        other = {"src/other.rs": "pub fn three() -> i32 { crate::one() }\n"}
        missing: tuple[test_index_again.Tree, list[str]] = {}, ["lib.rs:1"]
        for more, wanted in missing, (other, ["other.rs:0"]), missing:
            with self.subTest(more=more):
                self.put({**self.files, **more})
                self.again()
                self.assert_answers({("definition", "src/lib.rs", 1, 8): wanted})


if __name__ == "__main__":
    unittest.main()
