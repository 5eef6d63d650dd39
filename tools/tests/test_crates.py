"""What tools/proofs/crates prints of the README beside each crate's code."""

import pathlib
import tempfile
import unittest

from . import support

CRATES = "low: bytes\n# tests alone\nhigh: low bytes\n"
LOW = "# low\n\nPaint.\n\n**A contract sees.** Litres.\n\n**Proved.** It dries.\n\n**Only tested.** The colour.\n"


class Crates(unittest.TestCase):
    def table(self, *names, low=LOW):
        """The lines, what was said, and the exit status."""
        with tempfile.TemporaryDirectory() as name:
            top = pathlib.Path(name)
            (top / "crates.txt").write_text(CRATES)
            for crate, text in [("low", low), ("high", LOW.replace("low", "high").replace("Paint", "Walls"))]:
                (top / "crates" / crate).mkdir(parents=True)
                (top / "crates" / crate / "README.md").write_text(text)
            return support.run_at(top, "crates", *names)

    def test_the_table_has_each_crate_in_order(self):
        rows = ["| low | Paint. | It dries. |", "| high | Walls. | It dries. |"]
        self.assertEqual(self.table(), (["| Crate | For | Proved |", "| --- | --- | --- |", *rows], "", 0))
        self.assertEqual(self.table("high")[0][2:], rows[1:])

    def test_a_crate_that_says_too_little_is_refused(self):
        for low in ("", "# low\n\nPaint.\n\n**Proved.** It dries.\n", LOW.replace("# low", "# lower")):
            _, said, status = self.table(low=low)
            self.assertEqual((said.startswith("tools/proofs/crates: crates/low/README.md does not say"), status), (True, 2))
        self.assertEqual(self.table("none")[1:], ("tools/proofs/crates: crates.txt has no crate none\n", 2))

    def test_each_crate_here_says_what_it_is(self):
        lines, said, status = support.run_at(support.TOP, "crates")
        self.assertEqual((said, status), ("", 0))
        self.assertGreater(len(lines), 50)


if __name__ == "__main__":
    unittest.main()
