"""What the `use` lines of a file bring in."""

import re

USE = re.compile(r"^[ \t]*(?:pub(?:\([^)]*\))? )?(?:ghost )?use ([^;\n]+?(?:\{[^}]*\})?(?: as \w+)?);?[ \t]*$", re.M)


def listed(text):
    """The names of a list in braces, by the names that they have here."""
    names = {}
    for part in filter(None, (part.strip() for part in text.split(","))):
        name, _, here = part.partition(" as ")
        names[here or name] = name
    return names


def uses(text):
    """Each `use` of a text: its path in parts, and its names by the names that they have here."""
    for match in USE.finditer(text):
        path, _, names = match[1].partition("{")
        if names:
            yield tuple(re.split(r"::|\.", path.strip().rstrip(":."))), listed(names.rstrip("}"))
            continue
        path, _, here = path.partition(" as ")
        parts = tuple(re.split(r"::|\.", path.strip()))
        yield parts[:-1], {here or parts[-1]: parts[-1]}


def imported(text):
    """The names that a text brings in, each with its path."""
    return {here: (*path, name) for path, names in uses(text) for here, name in names.items()}
