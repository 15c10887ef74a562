"""Definitions are read aloud: no line of them is wider than a page. The imports above them are, as the toolchain lays them out."""

import unittest

from program import ROOT

COLUMNS = 100


class Widths(unittest.TestCase):
    def test_definitions_are_wrapped(self):
        files = sorted(ROOT.glob("crates/*/specs/*.antt"))
        self.assertTrue(files)
        wide = [
            f"{path.relative_to(ROOT)}:{number} has {len(line)} columns"
            for path in files
            for number, line in enumerate(path.read_text().splitlines(), 1)
            if len(line) > COLUMNS and not line.startswith("use ")
        ]
        self.assertEqual(wide, [], f"lines of definitions end at column {COLUMNS}")


if __name__ == "__main__":
    unittest.main()
