"""The environment of a run in which one allocation is refused."""

import os
import subprocess

HERE = os.path.dirname(os.path.abspath(__file__))


class Refusal:
    """Refuses one allocation of each run: of the number that it is told."""

    def __init__(self, folder):
        self.library, self.mark = os.path.join(folder, "refuse.so"), os.path.join(folder, "mark")
        source = os.path.join(HERE, "../campaigns/fail_allocation.c")
        words = [os.environ.get("CC", "cc"), "-O1", "-fPIC", "-shared", "-o", self.library, source]
        subprocess.run(words, check=True)

    def environment(self, number, of_program=False):
        """That of a run. Of all allocations of the process, or of those that the program itself asks for."""
        if os.path.exists(self.mark):
            os.remove(self.mark)
        more = {"FAIL_ALLOCATION": str(number), "FAIL_MARK": self.mark, "LD_PRELOAD": self.library}
        return os.environ | more | ({"FAIL_OF": "program"} if of_program else {})

    def was_made(self):
        """Whether the last run had an allocation of that number."""
        return os.path.exists(self.mark)
