"""All crates of a repository: what a name stands for, and what is reached from some clauses."""

import fnmatch
import re

from .code import read_code, see_as
from .crates import crate_names
from .imports import imported
from .specs import read_specs

TEST_MODULE = re.compile(r"#\[cfg\(test\)\]\s*mod (\w+);")
MODULE = re.compile(r"^(?:pub )?mod (\w+);?$", re.M)


class Tree:
    """The files of the crates that crates.txt names, lowest first."""

    def __init__(self, top):
        self.top = top
        self.crates = crate_names((top / "crates.txt").read_text(encoding="utf-8"))
        self.files = []
        for crate in self.crates:
            self.files += self.read_code(crate) + self.read_specs(crate)
        self.by_module = {(file.crate, file.is_specs, file.module): file for file in self.files}
        for file in self.files:
            for name, seen in file.models:
                see_as(self.code_item(file.crate, file.module, (name,)), seen)

    def read_specs(self, crate):
        folder = self.top / "crates" / crate / "specs"
        order = MODULE.findall(read(folder / "Lib.antt"))
        paths = [path for path in sorted(folder.glob("*.antt")) if path.stem not in ("Lib", "inner")]
        paths.sort(key=lambda path: order.index(path.stem) if path.stem in order else len(order))
        paths += sorted((folder / "inner").glob("*.antt"))
        modules = [path.relative_to(folder).with_suffix("").parts for path in paths]
        return [read_specs(crate, self.short(path), module, read(path)) for path, module in zip(paths, modules)]

    def read_code(self, crate):
        folder = self.top / "crates" / crate / "src"
        paths = sorted(folder.rglob("*.rt"))
        tests = {path.parent / name for path in paths for name in TEST_MODULE.findall(read(path))}
        kept = [path for path in paths if not tests & {path.with_suffix(""), *path.parents}]
        return [read_code(crate, self.short(path), module_of(path.relative_to(folder)), read(path)) for path in kept]

    def short(self, path):
        return str(path.relative_to(self.top))

    # ---- what a name stands for

    def code_item(self, crate, module, path):
        """The type or trait of a path that is used in a module of code; None where that is not of this repository."""
        while path:
            file = self.by_module.get((crate, False, module))
            if len(path) == 1 and file and path[0] in file.named:
                return file.named[path[0]]
            if len(path) == 1:
                path = file.imports.get(path[0]) if file else None
                if not path or len(path) == 1 or path[0] == "Rattle":
                    return None
            crate, module, path = self.step(crate, module, path)
        return None

    def step(self, crate, module, path):
        """One part into a path of code."""
        first, *rest = path
        if first in self.crates:
            return first, (), tuple(rest)
        if first == "crate":
            return crate, (), tuple(rest)
        if first == "super":
            return crate, module[:-1], tuple(rest)
        below = module + (first,)
        return (crate, below, tuple(rest)) if (crate, False, below) in self.by_module else (crate, module, None)

    def imported_item(self, path):
        """What a path such as Rattle.CRATE.specs.FILE.name stands for."""
        if not self.is_specs_path(path):
            return None
        crate, rest = path[1], path[3:]
        if rest[0] not in ("declared", "contracts"):
            file = self.by_module.get((crate, True, rest[:-1]))
            return file.named.get(rest[-1]) if file else None
        for end in range(len(rest) - 1, 1, -1):
            file = self.by_module.get((crate, False, rest[1:end]))
            if file:
                return file.named.get(rest[end])
        return None

    def meant(self, item, parts):
        """The items that a name of an item stands for: none where it is of the library."""
        file, first = item.file, parts[0]
        if first in item.bounds:
            return [self.code_item(file.crate, file.module, (name,)) for name in item.bounds[first]]
        if file.is_specs and first in file.named:
            return [file.named[first]]
        path = item.imports.get(first) or file.imports.get(first)
        if path and path[0] == "Rattle":
            return [self.imported_item(path) or self.imported_item(path + parts[1:2])]
        return [] if file.is_specs else [self.code_item(file.crate, file.module, (first,))]

    # ---- what is reached

    def reached(self, roots):
        """All that some items need, they themselves among it."""
        seen, waiting = set(), list(roots)
        while waiting:
            item = waiting.pop()
            if item not in seen:
                seen.add(item)
                waiting += [found for parts in item.names for found in self.meant(item, parts) if found]
        return seen

    def clauses(self, crate, pattern):
        """The functions of a crate whose names are such; TYPE::NAME names methods."""
        of_type, _, name = pattern.rpartition("::")
        files = [file for file in self.files if file.crate == crate]
        methods = [item for file in files for kind, item in file.members if kind == of_type and item.lines]
        functions = methods if of_type else [item for file in files for item in file.functions]
        return [item for item in functions if item.is_public and fnmatch.fnmatchcase(item.name, name)]

    def public(self):
        """All that the crates say to those who use them."""
        return [item for file in self.files if not file.is_specs for item in self.public_of(file)]

    def public_of(self, file):
        """What a file says publicly; of a library what its root exports, and all of a program."""
        root = self.by_module.get((file.crate, False, ()))
        exported = root.imports if root and root is not file and root.path.endswith("lib.rt") else None
        said = [(item.name, item) for item in file.items + file.functions] + file.members
        return [item for name, item in said if item.is_public and (exported is None or name in exported)]

    def inner(self):
        """What is said inside a crate: clauses of its own functions, views and invariants."""
        for file in self.files:
            if not file.is_specs:
                yield from file.inner + file.functions + file.items + [item for _, item in file.members]

    def shared(self):
        """The definitions that the code of one crate names of another, as its views and invariants do."""
        files = [file for file in self.files if file.is_inner or not file.is_specs]
        paths = [(file, path) for file in files for item in (file, *file.inner) for path in item.imports.values()]
        others = [path for file, path in paths if self.is_specs_path(path) and path[1] != file.crate]
        return filter(None, map(self.imported_item, others))

    def proved(self):
        """The definitions that proofs name."""
        return self.named_in("proofs/**/*.antt")

    def tested(self):
        """The definitions that code for tests names."""
        return self.named_in("src/**/*.rt", {file.path for file in self.files})

    def named_in(self, pattern, left_out=frozenset()):
        for crate in self.crates:
            for path in sorted((self.top / "crates" / crate).glob(pattern)):
                if self.short(path) not in left_out:
                    yield from self.named_by(read(path))

    def named_by(self, text):
        """The definitions that a text brings in, and those that it names through a module."""
        for here, path in imported(text).items():
            if self.is_specs_path(path):
                inside = [(*path, name) for name in re.findall(rf"\b{re.escape(here)}\.([\w-]+)", text)]
                yield from filter(None, map(self.imported_item, [path, *inside]))

    def is_specs_path(self, path):
        return len(path) > 3 and path[0] == "Rattle" and path[1] in self.crates and path[2] == "specs"


def read(path):
    return path.read_text(encoding="utf-8") if path.exists() else ""


def module_of(path):
    """The module of a file of src/: lib.rt and main.rt are the crate's root."""
    parts = path.with_suffix("").parts
    return () if parts in (("lib",), ("main",)) else parts
