"""What tools/proofs/gate-cost tells of a run of the gate."""

import os
import pathlib
import re
import signal
import subprocess
import tempfile
import unittest
import unittest.mock

from . import support

# a gate that checks a crate, its tests, and a wrong body in a folder of its own
RT = """\
#!/bin/sh
echo "$*" > "$LOG"
work='import time; end = time.process_time() + 0.8
while time.process_time() < end: pass'
cd crates/low && python3 -c "$work" build --crate-name low
python3 -c "$work" build --crate-name low --test
cd ../../edit && python3 -c "$work" check --crate-name low
exit 3
"""

CRATES = "low: bytes\n# of all\nhigh: low bytes\n"


# a gate that checks a crate, interrupts the tool, and has no end
ENDLESS = RT.split("python3 -c \"$work\" build --crate-name low --test")[0] + f"kill -$SIGNAL {os.getpid()}\nsleep 600\n"


class GateCost(unittest.TestCase):
    def cost(self, *names, gate=RT):
        """The table, what was said, the exit status, and the words of the gate."""
        with tempfile.TemporaryDirectory() as name:
            top = pathlib.Path(name)
            for path in ("bin", "crates/low/must-fail", "crates/high", "edit"):
                (top / path).mkdir(parents=True)
            (top / "bin/rt").write_text(gate)
            (top / "bin/rt").chmod(0o755)
            (top / "crates.txt").write_text(CRATES)
            (top / "crates/low/must-fail/wrong.edit").write_text("")
            environment = {"PATH": f"{top / 'bin'}:{os.environ['PATH']}", "LOG": str(top / "log")}
            with unittest.mock.patch.dict(os.environ, environment):
                table, said, status = support.run_at(top, "gate-cost", *names)
            ran = (top / "log").read_text().split() if (top / "log").exists() else []
        return table, said, status, ran

    def test_the_time_is_told_by_crate_and_part(self):
        table, _, status, ran = self.cost("low")
        self.assertEqual((status, ran), (3, ["ci", "low", "--anew"]))
        self.assertEqual([line.split(" | ")[0] for line in table], ["| Crate", "| ---", "| low", "| all"])
        check, tests, edits, how_many = [int(cell) for cell in table[2].strip("| ").split(" | ")[1:]]
        self.assertEqual(how_many, 1)
        self.assertTrue(all(seconds == 1 for seconds in (check, tests, edits)), table[2])

    def test_what_earlier_runs_passed_may_be_kept(self):
        self.assertEqual(self.cost("--kept")[3], ["ci"])

    def test_one_line_tells_what_a_gate_beside_it_paid_by_kind(self):
        gate = f"#!/bin/sh\n{support.TOP}/tools/proofs/gate-cost --beside $$ &\n" + RT.partition("\n")[2].replace("exit 3", "kill $! && wait $!")
        with tempfile.TemporaryDirectory() as name:
            top = pathlib.Path(name)
            (top / "crates/cm_base").mkdir(parents=True)
            (top / "edit").mkdir()
            (top / "gate").write_text(gate.replace("low", "cm_base"))
            done = subprocess.run(["setsid", "sh", "gate"], cwd=top, env=os.environ | {"LOG": "log"}, stdout=subprocess.PIPE, check=False)
        told = re.fullmatch(r"processor minutes: checks (.*), tests (.*), wrong bodies (.*), all (.*)\n", done.stdout.decode())
        checks, tests, edits, whole = map(float, told.groups())
        self.assertTrue(min(checks, tests, edits) > 0, done.stdout)
        self.assertAlmostEqual(checks + tests + edits, whole, delta=0.02)

    def test_at_an_interrupt_what_was_seen_is_told(self):
        for number in (signal.SIGINT, signal.SIGTERM):
            with unittest.mock.patch.dict(os.environ, {"SIGNAL": str(number.value)}):
                table, _, status, ran = self.cost("low", gate=ENDLESS)
            self.assertEqual((status, ran), (130, ["ci", "low", "--anew"]))
            self.assertEqual(table[2], "| low | 1 | 0 | 0 | 1 |")

    def test_a_crate_that_is_none_is_refused(self):
        _, said, status, ran = self.cost("none")
        self.assertEqual((said, status, ran), ("tools/proofs/gate-cost: crates.txt has no crate none\n", 2, []))
