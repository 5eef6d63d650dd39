"""The definitions of a file of specs/."""

import re

from .imports import imported
from .items import File, Item
from .names import clause_names, scan

BEGINS = re.compile(r"abbrev |pub |record |data |module |--|\S+ :")
HEAD = re.compile(r"(?:abbrev )?(?:pub )?(?:(record|data) )?(\S+)")
FIELD = re.compile(r"(?:pub )?(\w+) :")


def indent_of(line):
    return len(line) - len(line.lstrip(" "))


def chunks(lines, indent):
    """The lines in parts, each of which begins at an indent; comments are left out."""
    parts = []
    for line in lines:
        if line.strip().startswith("--"):
            continue
        if indent_of(line) <= indent or not parts:
            parts.append([])
        parts[-1].append(line)
    return ["\n".join(part) for part in parts]


def field_names(lines, bound, is_record):
    """The names that fields or constructors need; a field may be named in those behind it."""
    names = []
    for text in chunks(lines, 2):
        field = FIELD.match(text.strip())
        names += scan(text.strip()[field.end():] if field else text, bound)[0]
        if field and is_record:
            bound = bound | {field[1]}
    return names


def names_of(lines, kind, name, bound):
    """The names that a definition needs."""
    if kind:
        head = next(place for place, line in enumerate(lines) if line.endswith(" where"))
        names, bound = scan(" ".join(lines[:head + 1]).partition(name)[2].removesuffix("where"), bound)
        return names + field_names(lines[head + 1:], bound, kind == "record")
    signature, *clauses = chunks(lines, 0)
    names = scan(signature.partition(" :")[2], bound)[0]
    return names + [name for clause in clauses for name in clause_names(clause, bound)]


class Reader:
    """Goes through the lines of a file; `modules` are the open ones, each with its indent and what it binds."""

    def __init__(self, file):
        self.file, self.modules = file, [(0, set())]
        self.comment, self.section = [], []

    def module(self, line):
        bound = scan(line.partition("_")[2].removesuffix("where"))[1]
        self.modules.append((self.modules[-1][0] + 2, self.modules[-1][1] | bound))
        self.comment = []

    def define(self, lines):
        kind, name = HEAD.match(lines[0]).groups()
        needed = names_of(lines, kind, name, self.modules[-1][1])
        item = Item(self.file, name, lines, self.comment, needed, self.section)
        self.file.items.append(item)
        constructors = [FIELD.match(line.strip()) for line in lines[1:]] if kind == "data" else []
        self.file.named |= {name: item} | {field[1]: item for field in constructors if field}
        self.comment = []

    def read(self, lines):
        place = 0
        while place < len(lines):
            line = lines[place]
            place += 1
            if not line.strip():
                self.section, self.comment = self.comment or self.section, []
                continue
            while indent_of(line) < self.modules[-1][0]:
                self.modules.pop()
            indent = self.modules[-1][0]
            if line.startswith("--", indent):
                self.comment.append(line[indent:])
            elif line.startswith("module ", indent):
                self.module(line)
            elif not line.startswith(("use ", "pub mod "), indent):
                end = place
                while end < len(lines) and not is_over(lines[end], indent):
                    end += 1
                self.define([line[indent:].rstrip() for line in lines[place - 1:end]])
                place = end


def is_over(line, indent):
    """The definition before the line ends there."""
    here = indent_of(line)
    return not line.strip() or here < indent or bool(here == indent and BEGINS.match(line[indent:]))


def read_specs(crate, path, module, text):
    head, _, rest = text.partition("\n")
    file = File(crate, path, module, True, head.removeprefix("--").strip(), imported(text))
    Reader(file).read((rest if head.startswith("--") else text).splitlines())
    return file
