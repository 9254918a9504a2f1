"""The list of the definitions that the promise of `replay` rests on, in docs/inside/DEFINITIONS.md,
beside what checks/promise.py finds in the definitions themselves."""

import subprocess
import sys
import unittest
from pathlib import Path

from tests.servers import TOP


class Promise(unittest.TestCase):
    def test_the_page_lists_what_is_named(self) -> None:
        """Each file with its lines, in the order in which they're named, and the sum."""
        words = [sys.executable, "-B", "checks/promise.py"]
        said = subprocess.run(words, cwd=TOP, capture_output=True, text=True, check=True).stdout
        rows = [line for line in said.splitlines() if line.startswith("|")]
        page = Path(TOP, "docs", "inside", "DEFINITIONS.md").read_text(encoding="utf-8")
        self.assertEqual(
            page.partition("| File | Lines |\n|-|-|\n")[2].split("\n\n")[0].split("\n"), [*rows, ""]
        )
        count = next(line for line in said.splitlines() if " lines of " in line).split()[0]
        self.assertIn(f"matter, {count} in all", page)


if __name__ == "__main__":
    unittest.main()
