"""The manual pages name each word, option and status, and none that is not there."""

import re
import subprocess
import unittest

from . import support

PAGES = support.TOP / "docs/man"


def page(name):
    """A page without its font changes and escapes."""
    text = (PAGES / name).read_text(encoding="utf-8")
    return re.sub(r"\\f.", "", text).replace("\\-", "-")


def help_of(*words):
    return subprocess.run([*words, "--help"], capture_output=True, text=True, check=True).stdout


def options(text):
    return set(re.findall(r"(?<![a-z-])(--[a-z][a-z-]*)", text))


class Manuals(unittest.TestCase):
    def test_options_of_the_client(self):
        cmgr = support.TOP / "clients/python/cmgr"
        words = re.search(r"[a-z]+(\|[a-z]+)+", help_of(cmgr))[0].split("|")
        self.assertGreater(len(words), 15)
        known = {option for word in words for option in options(help_of(cmgr, word))} - {"--help"}
        told = page("cmgr.1")
        self.assertEqual(options(told), known | {"--connect"})
        for word in words:
            self.assertRegex(told, rf"cmgr [a-z|]*\b{word}\b", word)

    def test_options_of_the_target(self):
        known = options(help_of(support.TOP / "clients/iscsi/iscsi-target").split("options:")[1]) - {"--help"}
        self.assertEqual(options(page("copymgr-iscsi.8")), known)

    def test_words_and_statuses(self):
        told = page("copymgr.1")
        words = (support.TOP / "docs/words.md").read_text(encoding="utf-8")
        for word in set(re.findall(r"`copymgr ([a-z]+)", words)):
            self.assertIn(f".B copymgr {word}", told)
        statuses = set(re.findall(r"^\| ([0-9]+) \|", words, re.M))
        listed = set(re.findall(r"(?:^|  )([0-9]{1,2})  ", told, re.M))
        self.assertEqual(listed, statuses)


if __name__ == "__main__":
    unittest.main()
