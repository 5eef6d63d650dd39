"""What the tools have in common: wrong use ends with one line and status 2, and nothing half written."""

import argparse
import os
import sys

WRONG_USE = 2


class Parser(argparse.ArgumentParser):
    """A parser whose faults are one line."""

    def __init__(self, *words, **named):
        super().__init__(*words, formatter_class=argparse.RawDescriptionHelpFormatter, allow_abbrev=False, **named)

    def error(self, message):
        fail(self.prog, f"{message} (see {self.prog} --help)")


def fail(program, why, status=WRONG_USE):
    """Ends the program with one line on standard error."""
    print(f"{program}: {why}".replace("\n", " "), file=sys.stderr)
    sys.exit(status)


def quiet_output():
    """Lets go what was not written to standard output: nothing is written there any more, also not at the exit."""
    os.dup2(os.open(os.devnull, os.O_WRONLY), sys.stdout.fileno())


def end_quietly():
    """Ends the program where what reads its output has ended."""
    quiet_output()
    sys.exit(1)


def write_lines(lines):
    sys.stdout.write("".join(line + "\n" for line in lines))
