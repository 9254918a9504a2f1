"""Which function an edit changes, by checks/edit_files.py. One outside functions that names none has
a check of the whole crate."""

import os
import sys
import unittest

from tests.servers import TOP

sys.path.insert(0, os.path.join(TOP, "checks"))
from edit_files import applied, edits_of, place_at

TEXT = """\
const MOST: u32 = 1;

impl<S: Source> Lines<S> {
    /// Of a reader.
    pub fn new(source: S) -> Lines<S>
    where
        S: Drop,
        ensures { MatchResult result (λ l. l ≡ record {
          left = S.left source;
        }) }
    {
        let lines = 1;
    }
}

fn all<D: Desk>(
    desk: &mut D,
) -> Result<(), Fault>
where
    D::Stream: Read,
    requires { true }
{
    'serving: while 2 < 3 {
        4;
    }
}

fn last() -> u32 {
    5
}
"""


class Edits(unittest.TestCase):
    def test_places(self) -> None:
        for part, name, asked in (
            ("MOST", None, ""),
            ("S.left", "new", "Lines::new"),
            ("let lines", "new", "Lines::new"),
            ("requires", "all", "text::all"),
            ("'serving", "all", "text::all"),
            ("4;", "all", "text::all"),
            ("5", "last", "text::last"),
        ):
            with self.subTest(part):
                place = place_at("src/text.rt", TEXT, TEXT.index(part))
                self.assertEqual((place.name, place.asked), (name, asked))

    def test_each_named_one_has_a_function(self) -> None:
        """Each run of the gate tries these."""
        edits = [it for crate in os.listdir(f"{TOP}/edits") for it in edits_of(crate, False)]
        named = [it for it in edits if it.is_named]
        self.assertGreater(len(named), 30)
        for edit in named:
            with self.subTest(str(edit)):
                self.assertTrue(edit.by or all(it.name for it in applied(edit, {})[1]))


if __name__ == "__main__":
    unittest.main()
