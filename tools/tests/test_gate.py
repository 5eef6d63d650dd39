"""The gate adds up what its parts say."""

import os
import pathlib
import shutil
import subprocess
import tempfile
import unittest

from . import support

FINE = "echo '3 passed, 0 failed'"


class Gate(unittest.TestCase):
    def gate(self, *words, rt=FINE, check=":", tests=FINE):
        """The last line and the exit status, where the parts are these scripts."""
        with tempfile.TemporaryDirectory() as name:
            folder = pathlib.Path(name)
            scripts = {"bin/rt": rt, "tools/proofs/gate-cost": '[ "$1" = --beside ] && exec sleep 60', "tools/proofs/check-repository": check, "tools/proofs/run-tests": tests}
            for path, script in scripts.items():
                (folder / path).parent.mkdir(parents=True, exist_ok=True)
                (folder / path).write_text(f"#!/bin/sh\n{script}\n")
                (folder / path).chmod(0o755)
            (folder / "crates/copymgr").mkdir(parents=True)
            (folder / "crates/copymgr/args").write_text("gen\n1000\n")
            (folder / "crates/copymgr/stdout").write_text("records 12\n")
            (folder / ".ci").mkdir()
            shutil.copy(support.TOP / ".ci/run", folder / ".ci/run")
            environment = os.environ | {"PATH": f"{folder / 'bin'}:{os.environ['PATH']}"}
            done = subprocess.run([folder / ".ci/run", *words], env=environment, capture_output=True, check=False)
        return (done.stdout.decode().splitlines() or [""])[-1], done.returncode

    def test_all_passed(self):
        rt = "[ $# = 1 ] && [ $1 = ci ] && echo 'crate a: 1 passed, 2 failed' && echo '261 passed, 0 failed; edits: 9'"
        self.assertEqual(self.gate(rt=rt), ("264 passed, 0 failed", 0))

    def test_what_failed_is_counted_and_fails_the_gate(self):
        self.assertEqual(self.gate(rt="echo '2 passed, 1 failed'; exit 1"), ("5 passed, 1 failed", 1))
        self.assertEqual(self.gate(check="exit 1"), ("6 passed, 1 failed", 1))
        self.assertEqual(self.gate(tests="echo '1 passed, 2 failed'; exit 1"), ("4 passed, 2 failed", 1))

    def test_a_part_that_says_nothing_fails_the_gate(self):
        self.assertEqual(self.gate(rt=":"), ("3 passed, 1 failed", 1))
        self.assertEqual(self.gate(tests="exit 127"), ("3 passed, 1 failed", 127))

    def test_the_gate_ends_with_the_first_status(self):
        self.assertEqual(self.gate(rt="exit 9", tests="exit 8"), ("0 passed, 2 failed", 9))
        self.assertEqual(self.gate(rt=FINE + "; exit 3"), ("6 passed, 0 failed", 3))

    def test_the_quick_form_runs_the_program_in_place_of_the_gate(self):
        ran = '[ "$*" = "run -- gen 1000" ] && echo records 12'
        self.assertEqual(self.gate("--quick", rt=ran), ("4 passed, 0 failed", 0))
        self.assertEqual(self.gate("--quick", rt="echo records 11"), ("3 passed, 1 failed", 1))
        self.assertEqual(self.gate("--quick", rt=ran + "; exit 4"), ("3 passed, 1 failed", 1))

    def test_other_words_are_refused(self):
        self.assertEqual(self.gate("--fast"), ("", 2))
        self.assertEqual(self.gate("--quick", "copymgr"), ("", 2))
