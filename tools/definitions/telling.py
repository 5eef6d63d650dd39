"""What is printed of definitions: they themselves, their numbers, the long ones and those that are not reached."""

import textwrap

from .names import TOKEN, without_comments

MOST_LINES = 15
WIDTH = 120
# the crates whose definitions say how bytes are laid out, as the standards' tables do
LAYOUTS = {
    "scsi_sense", "scsi_cdb", "block_params", "seg_parse", "cm_frame", "copy_plan", "copy_status", "scsi_inquiry", "rod_token",
}


class Headline:
    """Some clauses, with all that they reach."""

    def __init__(self, tree, roots):
        self.tree, self.roots = tree, roots
        self.reached = tree.reached(roots) - set(roots)

    def files(self):
        """Each file with what is reached of it, in reading order: the lowest crate first, types before definitions."""
        for file in self.tree.files:
            items = [item for item in file.items if item in self.reached]
            if items:
                yield file, items

    def kinds(self):
        """What is reached, by what it is: definitions of what is done, those of how bytes are laid out, and types."""
        found = {"definitions": [], "of them on bytes": [], "types of code": []}
        for file, items in self.files():
            layout = "of them on bytes" if file.crate in LAYOUTS else "definitions"
            found[layout if file.is_specs else "types of code"] += items
        found["definitions"] += found["of them on bytes"]
        return found

    # ---- the text

    def text(self):
        lines = ["The public clauses"]
        for file in dict.fromkeys(root.file for root in self.roots):
            lines += heading(file.path) + shown(root for root in self.roots if root.file is file)
        lines += ["", "What they need, the lowest crate first"]
        for file, items in self.files():
            lines += heading(": ".join(filter(None, (file.path, file.sentence)))) + shown(items)
        return lines + ["", "Words of the library", ""] + self.library() + ["", self.total()]

    def library(self):
        """What the text names of other repositories, by where it stands."""
        found = {}
        for item in [*self.roots, *self.reached]:
            tokens = set(TOKEN.findall(without_comments("\n".join(item.lines))))
            for here, path in (item.file.imports | item.imports).items():
                is_named = set(TOKEN.findall(here.replace("◌", " "))) <= tokens
                if is_named and not self.is_own(path):
                    found.setdefault(spelled(path[:-1]), set()).add(path[-1])
        lines = [f"{place}: {', '.join(sorted(names))}" for place, names in sorted(found.items())]
        return [part for line in lines for part in wrapped(line)]

    def is_own(self, path):
        """The path leads to a crate of this repository."""
        return (path[1] if path[0] == "Rattle" else path[0]) in [*self.tree.crates, "crate", "super", "self"]

    # ---- the numbers

    def total(self):
        parts = [f"{len(items)} {kind}: {lines_of(items)} lines" for kind, items in self.kinds().items()]
        return "; ".join([*parts, f"{len(self.roots)} functions with the clauses: {lines_of(self.roots)} lines"])

    def table(self):
        rows = [f"{len(items):6}  {lines_of(items):5}  {file.path}" for file, items in self.files()]
        return ["number  lines  file", *rows, "", self.total()]

    def long(self):
        items = [item for _, items in self.files() for item in items]
        long = sorted((item for item in items if len(item.lines) > MOST_LINES), key=lambda item: -len(item.lines))
        silent = [item for item in items if not item.sentence]
        return [
            *(f"{len(item.lines)} lines: {item.name} ({item.file.path})" for item in long),
            *(f"no sentence: {item.name} ({item.file.path})" for item in silent),
            "",
            f"{len(long)} longer than {MOST_LINES} lines, {len(silent)} without a sentence, of {len(items)}",
        ]

    def twice(self):
        """The names that two definitions or types have."""
        found = {}
        for file, items in self.files():
            for item in items:
                found.setdefault(item.name, []).append(file.path)
        lines = [f"{name}: {', '.join(paths)}" for name, paths in sorted(found.items()) if len(paths) > 1]
        return [*lines, "", f"{len(lines)} names stand twice, of {len(found)}"]

    # ---- what is not reached

    def unreached(self):
        tree, lines, total = self.tree, [], 0
        public = self.reached | tree.reached([*tree.public(), *tree.shared()])
        named = {where: tree.reached(roots()) for where, roots in self.places()}
        for crate in tree.crates:
            files = [file for file in tree.files if file.crate == crate and file.is_specs and not file.is_inner]
            found = [(file, [item for item in file.items if item not in public]) for file in files]
            items = [item for _, some in found for item in some]
            if items:
                lines.append(f"{crate}: {len(items)} definitions, {lines_of(items)} lines")
                lines += [line for file, some in found for line in unreached_of(file, some, named)]
            total += lines_of(items)
        return [*lines, "", f"{total} lines of definitions that no public clause reaches, nor the code of another crate"]

    def misplaced(self):
        """Those of specs/inner/ that a public clause reaches: they belong beside the others."""
        public = self.reached | self.tree.reached(self.tree.public())
        files = [file for file in self.tree.files if file.is_specs and file.is_inner]
        return [f"{file.path}: {item.name}" for file in files for item in file.items if item in public]

    def places(self):
        """Where a definition may be named that no public clause reaches, and what is named there."""
        tree = self.tree
        return ("inside the crate", tree.inner), ("in proofs alone", tree.proved), ("in tests alone", tree.tested)


def unreached_of(file, items, named):
    """Those of a file, by where they are named first; `named` has what is named at each place."""
    groups = {}
    for item in items:
        where = next((where for where, reached in named.items() if item in reached), "nowhere")
        groups.setdefault(where, []).append(item.name)
    for where, names in groups.items():
        yield from wrapped(f"  {file.path}, named {where}: {', '.join(names)}")


def lines_of(items):
    return sum(item.count for item in items)


def spelled(path):
    return ("." if path[0] in ("Rattle", "mathlib", "lib") else "::").join(path)


def heading(text):
    return ["", f"==== {text}", ""]


def wrapped(text):
    indent = text[:len(text) - len(text.lstrip())] + "    "
    return textwrap.wrap(text, WIDTH, subsequent_indent=indent, break_long_words=False, break_on_hyphens=False)


def shown(items):
    """Items as they stand, each with its sentence, and with the comments that stand alone before them."""
    lines, section = [], []
    for item in items:
        if item.section is not section and item.section:
            lines += [*item.section, ""]
        section = item.section
        lines += [*item.sentence, *item.lines, ""]
    return lines[:-1]
