"""The types of a file of src/, and the clauses of its functions, traits and models."""

import re

from .imports import imported
from .items import File, Item
from .names import scan

HEAD = re.compile(r"(pub(?:\([^)]*\))? )?(?:unsafe )?(struct|enum|type|trait|impl|fn|ghost)\b[<* ]*(\w+)?")
CLAUSE = re.compile(r"\b(?:requires|ensures)\*?(?:\s+\w+)?\s*\{")
MODEL = re.compile(r"impl.*\bModel for (\w+)")
FOR_TYPE = re.compile(r"impl(?:<.*?>)? (?:(.*) for )?&?(\w+)")
USES = re.compile(r"^(?:pub )?(?:ghost )?use [^;]*;", re.M)
ALIAS = re.compile(r"((?:^///.*\n)+)^(pub use [\w:]+ as (\w+);)$", re.M)
VARIANT = re.compile(r"^    [A-Z]\w*", re.M)
TYPE_NAME = re.compile(r"\b[A-Z]\w*")


class Part:
    """An item as it stands: its doc comment, and its lines up to its end."""

    def __init__(self, doc, lines, is_test):
        self.doc, self.lines, self.is_test = doc, lines, is_test
        match = HEAD.match(lines[0])
        self.is_public = match[1] == "pub "
        self.kind, self.name = match[2], match[3]

    @property
    def inside(self):
        """The lines between its braces, moved to the left."""
        return [line.removeprefix("    ") for line in self.lines[1:-1]]

    @property
    def text(self):
        return "\n".join(re.sub(r"\s*//.*", "", line) for line in self.lines)


def begins_body(line, has_clause):
    """A function's body begins with such a line."""
    return line.strip() in ("{", "{}") or (not has_clause and bool(re.search(r" (\{|\{.*\})$", line)))


def end_of(lines, start):
    """Where the item that begins at a line is over."""
    kind, has_clause, is_open = HEAD.match(lines[start])[2], False, False
    for place in range(start, len(lines)):
        line = lines[place]
        has_clause = has_clause or bool(CLAUSE.search(line))
        is_open = is_open or (kind not in ("ghost", "type") and begins_body(line, has_clause))
        if line.startswith(("}", "{}")) or (place == start and line.endswith("}")):
            return place + 1
        if line.endswith(";") and not is_open:
            return place + 1
    return len(lines)


def parts(lines):
    """The items among some lines, in order."""
    doc, is_test, place = [], False, 0
    while place < len(lines):
        line = lines[place]
        start, place = place, place + 1
        if line.startswith("//"):
            doc.append(line)
        elif line.startswith("#["):
            is_test = is_test or line == "#[cfg(test)]"
        elif HEAD.match(line) and not line.startswith("ghost use"):
            place = end_of(lines, start)
            yield Part(doc, lines[start:place], is_test)
            doc, is_test = [], False
        else:
            doc, is_test = [], False


def header(lines):
    """A function's lines up to its body."""
    head = []
    for line in lines:
        if line.strip() in ("{", "{}"):
            break
        if begins_body(line, any(CLAUSE.search(text) for text in [*head, line])):
            return head + [re.sub(r" \{.*$", "", line)]
        head.append(line)
    return head


def type_names(text):
    return [(name,) for name in TYPE_NAME.findall(text)]


def bounds_of(text):
    """The traits of the type parameters in angle brackets."""
    return {name: re.findall(r"\w+", traits) for name, traits in re.findall(r"\b([A-Z]\w*): ([A-Z][\w +]*)", text)}


def function(file, part, imports, bounds):
    """A function with its clauses; None where it has none."""
    lines = header(part.lines)
    text = "\n".join(lines)
    start = CLAUSE.search(text)
    if not start:
        return None
    signature, clauses = text[:start.start()], CLAUSE.sub("{", text[start.start():])
    given = set(re.findall(r"\b([a-z_]\w*): ", signature)) | {"self", "result"}
    item = Item(file, part.name, lines, part.doc, type_names(signature) + scan(clauses, given)[0])
    item.imports, item.bounds, item.is_public = imports, bounds | bounds_of(signature), part.is_public
    return item


def ghost_text(part):
    """The term of a ghost member."""
    return re.sub(r"^ghost \w+ ?[:=] ?|;$", "", part.text)


def model(file, part):
    """The value that contracts see of a type, by the type's name; how it comes from the fields is the type's affair."""
    members = {member.name: member for member in parts(part.inside)}
    value = ghost_text(members["Value"]).strip("{ }")
    imports = file.imports | imported("\n".join(part.inside))
    hidden = "\n".join(ghost_text(member) for name, member in members.items() if name in ("view", "invariant"))
    file.inner.append(Item(file, part.name, [], names=scan(hidden)[0], imports=imports))
    return MODEL.match(part.lines[0])[1], Item(file, part.name, [value], names=scan(value)[0], imports=imports)


def see_as(item, seen):
    """Contracts see a type as a value, and its fields no more."""
    head = re.sub(r" ?[{(;].*$", "", item.lines[0])
    item.lines = [f"{head} // contracts see {seen.lines[0]}"]
    item.names, item.imports = seen.names, seen.imports


def trait(file, part):
    """A trait with what it asks of those who have it."""
    item = Item(file, part.name, part.lines, part.doc, is_public=part.is_public)
    item.imports = imported("\n".join(part.inside))
    members = list(parts(part.inside))
    bound = {member.name for member in members if member.kind == "ghost"}
    for member in members:
        if member.kind == "ghost":
            item.names += scan(ghost_text(member), bound)[0]
        elif (asked := function(file, member, {}, {})):
            item.names += [name for name in asked.names if name[0] not in bound]
    return item


def implemented(file, part):
    """What an `impl` says: the clauses of its functions, and the ghost members by which it has a trait."""
    of_trait, name = FOR_TYPE.match(part.lines[0]).groups()
    imports = imported("\n".join(part.inside))
    for member in parts(part.inside):
        if member.kind == "ghost":
            item = Item(file, member.name, [], names=scan(ghost_text(member))[0], imports=imports)
        elif member.kind == "fn" and not member.is_test:
            item = function(file, member, imports, bounds_of(part.lines[0]))
        else:
            continue
        if item:
            item.is_public = item.is_public or of_trait is not None
            yield (name, item)


def read_code(crate, path, module, text):
    """A file of code: its types and traits by name, its free functions, and what its types have."""
    lines = text.splitlines()
    file = File(crate, path, module, False, "", imported("\n".join(USES.findall(text))))
    read = [part for part in parts(lines) if not part.is_test]
    for part in read:
        if part.kind in ("struct", "enum", "type"):
            needed = type_names(VARIANT.sub("", re.sub(r"#\[.*?\]", "", part.text)))
            kept = [line for line in part.lines if not line.strip().startswith("#[")]
            item = Item(file, part.name, kept, part.doc, needed, is_public=part.is_public)
        elif part.kind == "trait":
            item = trait(file, part)
        else:
            continue
        add(file, item)
    for doc, line, name in ALIAS.findall(text):
        add(file, Item(file, name, [line], doc.splitlines(), is_public=True))
    read_functions(file, read)
    return file


def add(file, item):
    file.items.append(item)
    file.named[item.name] = item


def read_functions(file, read):
    """The clauses of functions, what each `impl` says, and what contracts see of types."""
    for part in read:
        if part.kind == "fn" and (item := function(file, part, {}, {})):
            file.functions.append(item)
        elif part.kind == "impl" and MODEL.match(part.lines[0]):
            file.models.append(model(file, part))
        elif part.kind == "impl":
            file.members += implemented(file, part)
