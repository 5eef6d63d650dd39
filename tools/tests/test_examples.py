"""The commented examples: each plays as its file says, by the plain replay, and by the program where there is one."""

import unittest

from . import support
from tracetext import playing, traces

EXAMPLES = sorted((support.TOP / "examples").glob("*.txt"))


class Examples(unittest.TestCase):
    def play(self, program=None):
        self.assertGreaterEqual(len(EXAMPLES), 6)
        for path in EXAMPLES:
            with self.subTest(path.name), path.open(encoding="utf-8") as file:
                wanted = path.with_suffix(".out").read_text(encoding="utf-8")
                self.assertEqual(playing.session(traces.read_text(file), program), (wanted.splitlines(), True))

    def test_the_plain_replay_replies_so(self):
        self.play()

    @unittest.skipIf(support.NO_PROGRAM, support.NO_PROGRAM)
    def test_the_program_replies_so(self):
        self.play([support.PROGRAM])
