"""What held, and what did not."""

import subprocess

from copymgr import Ended

PATIENCE = 120


class Results:
    def __init__(self):
        self.passed = self.failed = 0

    def tell(self, holds, what):
        self.passed += bool(holds)
        self.failed += not holds
        print(("" if holds else "FAILED: ") + what, flush=True)

    def agrees(self, name, number, low, high):
        counted = f"{low}" if low == high else f"{low} to {high}"
        self.tell(low <= number <= high, f"{name}: {number}, and the clients counted {counted}")

    def reported(self, server):
        """The report of a program whose connections have ended; None where it does not come."""
        try:
            return server.report(PATIENCE)
        except (Ended, subprocess.TimeoutExpired) as error:
            self.tell(False, f"the program does not report: {error}")
            return None
