"""What documents and helps say to type gives what they say."""

import os
import pathlib
import re
import shutil
import subprocess
import tempfile
import unittest

from copymgr_formats import cdbs
from tracetext import requests, traces

from . import support

# seconds
PATIENCE = 300
DOCUMENTS = ["docs/first-trace.md", "clients/python/README.md"]
HELPS = [
    "tools/people/trace", "tools/people/plain-replay", "tools/people/plain-serve", "tools/people/plain-store",
    "tools/people/plain-manage", "tools/people/row", "tools/proofs/headline",
    "clients/python/cmgr", "clients/iscsi/iscsi-target",
]


def typed(lines):
    """Each command behind $, with its lines up to END where it has such, and the lines that are said to come of it."""
    commands = []
    for line in lines:
        if line.startswith("$ "):
            commands.append(([line.removeprefix("$ ")], []))
        elif commands:
            command, output = commands[-1]
            is_open = "<<'END'" in command[0] and command[-1] != "END"
            (command if is_open else output).append(line)
    return [("\n".join(command), output) for command, output in commands]


def blocks(text, margin):
    """The lines of the blocks with a margin, without it."""
    return [line.removeprefix(margin) for line in text.splitlines() if line.startswith(margin)]


class Typed(unittest.TestCase):
    def setUp(self):
        self.folder = self.new_folder()

    def new_folder(self):
        """A folder that has what is typed, and nothing of what was written before."""
        folder = tempfile.TemporaryDirectory()
        self.addCleanup(folder.cleanup)
        for name in ("tools", "clients", "examples", "crates"):
            (pathlib.Path(folder.name) / name).symlink_to(support.TOP / name)
        return pathlib.Path(folder.name)

    def said(self, command):
        """What a command writes, and its exit status."""
        environment = os.environ | {"PATH": f"{os.environ['PATH']}:{self.folder / 'clients/python'}"}
        done = subprocess.run(
            ["bash", "-c", command + "\n"], cwd=self.folder, stdin=subprocess.DEVNULL, stdout=subprocess.PIPE,
            stderr=subprocess.STDOUT, check=False, env=environment, timeout=PATIENCE,
        )
        return done.stdout.decode().splitlines(), done.returncode

    @unittest.skipUnless(shutil.which("xxd"), "there is no xxd")
    def test_documents(self):
        for document in DOCUMENTS:
            commands = typed(blocks((support.TOP / document).read_text(encoding="utf-8"), "    "))
            self.assertGreater(len(commands), 7)
            for command, output in commands:
                wanted = [line for line in output if not line.startswith("tools/people/trace play crates/")]
                self.assertEqual(self.said(command)[0], wanted, command)

    def test_the_table_of_commands(self):
        document = (support.TOP / "docs/trace-text.md").read_text(encoding="utf-8")
        table = document.split("| Command | Fields |")[1].split("\n\n")[0]
        told = {}
        for row in table.splitlines()[2:]:
            commands, fields = (re.findall(r"`([^`=]+)`", column) for column in row.split("|")[1:3])
            told |= {command: fields for command in commands}
        self.assertEqual(set(told), set(requests.COMMANDS))
        for command, key in requests.COMMANDS.items():
            self.assertLessEqual(set(cdbs.FORMS[key].fields), set(told[command]), command)
            values = {"ranges": "1+1", "token": "zero", "cscds": "none", "segments": "none", "data": "00"}
            words = " ".join(f"{name}={values.get(name, 1)}" for name in told[command])
            text = traces.read_text(["unit 0 blocks=9", f"i1 {command} {words}"])
            self.assertTrue(text.lines[0].bytes, command)

    def test_the_examples_of_helps(self):
        for tool in HELPS:
            help_text = subprocess.run([support.TOP / tool, "--help"], capture_output=True, check=True).stdout.decode()
            example = re.search(r"\nexample:\n(.*?)\n\n", help_text, re.S)[1]
            commands = [command for command, _ in typed(blocks(example, "  "))]
            self.assertTrue(commands, tool)
            self.folder = self.new_folder()
            output, status = self.said("set -e\n" + "\n".join(commands))
            self.assertEqual(status, 0, (tool, output))


if __name__ == "__main__":
    unittest.main()
