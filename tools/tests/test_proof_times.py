"""What tools/proofs/proof-times tells of the files that a check wrote."""

import os
import pathlib
import tempfile
import unittest

from . import support

# files of a check, in their order, each with the seconds since the one before
WRITTEN = [
    ("Rattle-low", 9.0),
    ("Rattle-low-proofs.Laws", 0.5),
    ("records/Rattle-low-specs.contracts.map.Map.put.Key.decls", 0.25),
    ("Rattle-low-proofs.map.Map.put.Code.Mir", 0.25),
    ("Rattle-low-proofs.map.Map.put.Kinds-2-0-1", 0.5),
    ("Rattle-low-proofs.map.Map.put.Lts.View", 1.0),
    ("Rattle-low-proofs.map.Map.put.Lts", 4.0),
    ("Rattle-low-proofs.map.Map.put.Answers", 2.0),
    ("Rattle-low-proofs.map.Map.put.Proof", 3.0),
    ("Rattle-low-proofs.map.len.Proof", 1.5),
]


class ProofTimes(unittest.TestCase):
    def told(self, *words, written=WRITTEN):
        """The lines, what was said, and the exit status."""
        with tempfile.TemporaryDirectory() as name:
            top, at = pathlib.Path(name), 1_000_000_000_000
            for file, seconds in written:
                path = top / "crates/low/out/incremental" / f"{file}.oantt"
                path.parent.mkdir(parents=True, exist_ok=True)
                path.write_text("")
                at += int(seconds * 1e9)
                os.utime(path, ns=(at, at))
            return support.run_at(top, "proof-times", *words)

    def test_the_time_is_told_by_function_and_part(self):
        lines, said, status = self.told("low")
        self.assertEqual((said, status), ("", 0))
        self.assertEqual(
            lines[2:],
            [
                "| 11.0 | 5.0 | 3.0 | 2.0 | 1.0 | map::Map::put |",
                "| 1.5 | 0.0 | 1.5 | 0.0 | 0.0 | map::len |",
                "| 0.5 | 0.0 | 0.0 | 0.0 | 0.5 | Laws |",
                "| 13.0 | 5.0 | 4.5 | 2.0 | 1.5 | all 3 |",
            ],
        )

    def test_only_the_greatest_are_told(self):
        lines, _, _ = self.told("low", "--most", "1")
        self.assertEqual([line.split(" | ")[-1] for line in lines[2:]], ["map::Map::put |", "all 3 |"])

    def test_only_those_of_a_name_are_told_beside_the_sum_of_all(self):
        lines, said, status = self.told("low", "--those", "^map::(len|get)$")
        self.assertEqual((said, status), ("", 0))
        self.assertEqual(
            lines[2:],
            [
                "| 1.5 | 0.0 | 1.5 | 0.0 | 0.0 | map::len |",
                "| 1.5 | 0.0 | 1.5 | 0.0 | 0.0 | those 1 |",
                "| 13.0 | 5.0 | 4.5 | 2.0 | 1.5 | all 3 |",
            ],
        )

    def test_those_of_no_name_are_none(self):
        lines, _, status = self.told("low", "--those", "^set::")
        self.assertEqual((lines[2].split(" | ")[-1], status), ("those 0 |", 0))

    def test_a_name_that_is_no_regular_expression(self):
        lines, said, status = self.told("low", "--those", "(")
        self.assertEqual((lines, status), ([], 2))
        self.assertIn("tools/proofs/proof-times: --those (: ", said)

    def test_a_crate_that_was_not_checked(self):
        lines, said, status = self.told("high")
        self.assertEqual((lines, status), ([], 2))
        self.assertEqual(said, "tools/proofs/proof-times: no check has left crates/high/out/incremental\n")
