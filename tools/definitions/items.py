"""What is read of a file: definitions, types and functions."""

import dataclasses


@dataclasses.dataclass(eq=False)
class Item:
    """A definition, a type, or the clauses of a function; `names` are those that it needs, each in its parts."""

    file: "File"
    name: str
    lines: list  # as they stand, behind its sentence
    sentence: list = dataclasses.field(default_factory=list)
    names: list = dataclasses.field(default_factory=list)
    section: list = dataclasses.field(default_factory=list)  # the comment that stands alone before it
    imports: dict = dataclasses.field(default_factory=dict)  # its own, beside those of its file
    bounds: dict = dataclasses.field(default_factory=dict)  # the traits of its type parameters
    is_public: bool = False

    @property
    def count(self):
        """How many lines it has, with its sentence."""
        return len(self.sentence) + len(self.lines)


@dataclasses.dataclass(eq=False)
class File:
    """A file of a crate; `module` is its path in parts below specs/ or src/."""

    crate: str
    path: str
    module: tuple
    is_specs: bool
    sentence: str
    imports: dict
    items: list = dataclasses.field(default_factory=list)  # definitions, types and traits
    functions: list = dataclasses.field(default_factory=list)  # those with clauses that are no methods
    members: list = dataclasses.field(default_factory=list)  # what an `impl` says, each with its type's name
    models: list = dataclasses.field(default_factory=list)  # what contracts see of types, each with the type's name
    inner: list = dataclasses.field(default_factory=list)  # views and invariants
    named: dict = dataclasses.field(default_factory=dict)  # the items, by their names and those of their constructors

    @property
    def is_inner(self):
        """It has definitions that only the crate's own functions need."""
        return self.module[:1] == ("inner",)
