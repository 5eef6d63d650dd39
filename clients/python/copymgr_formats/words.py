"""Lines as words that know their place, and faults with a place."""

import collections
import re


class Fault(Exception):
    """The text does not say what it should: where, and why."""

    def __init__(self, line, column, why):
        super().__init__(f"line {line}, column {column}: {why}")
        self.line = line
        self.column = column


class Word(collections.namedtuple("Word", "text line column")):
    """A word of a line, or the value of a field; the first column is 1."""

    def fault(self, why):
        return Fault(self.line, self.column, why)

    def read(self, reader, *more):
        """What a reader makes of the text; a ValueError of the reader is a fault of this place."""
        try:
            return reader(self.text, *more)
        except ValueError as error:
            raise self.fault(error) from None

    def behind(self, front):
        """The rest of the word behind its first characters, if it begins with them."""
        if not self.text.startswith(front):
            return None
        return Word(self.text[len(front) :], self.line, self.column + len(front))


def words_of(number, line):
    """The words of a line up to a word that begins with #."""
    words = []
    for found in re.finditer(r"\S+", line):
        if found[0].startswith("#"):
            break
        words.append(Word(found[0], number, found.start() + 1))
    return words


class Fields:
    """The words NAME=VALUE of a line, each of which is to be taken once."""

    def __init__(self, words):
        self.values = {}
        for word in words:
            name, is_field, _ = word.text.partition("=")
            if not is_field:
                raise word.fault(f"{word.text} is no field, as NAME=VALUE")
            if name in self.values:
                raise word.fault(f"a second {name}=")
            self.values[name] = word.behind(name + "=")

    def __contains__(self, name):
        return name in self.values

    def take(self, name, reader, default, *more):
        """The value as its reader reads it, or the default where the field is not there."""
        word = self.values.pop(name, None)
        return default if word is None else word.read(reader, *more)

    def number(self, name, default, most, least=0):
        return self.take(name, number_of, default, most, least)

    def finish(self, place):
        """A fault where fields are left that nothing took."""
        for name, word in self.values.items():
            raise Fault(word.line, word.column - len(name) - 1, f"{place} has no field {name}")


MULTIPLIERS = {"c": 1, "w": 2, "b": 512}
for power, letter in enumerate("kmgtp", 1):
    MULTIPLIERS |= {letter: 1024**power, letter.upper(): 1024**power, f"{letter}B": 1000**power, f"{letter.upper()}B": 1000**power}


def number_of(text, most, least=0):
    """A number in decimal digits, behind which a multiplier may stand, or in hexadecimal behind 0x or before h, as
    sg3_utils reads it."""
    if found := re.fullmatch(r"([0-9]+)([cwb]|[kKmMgGtTpP]B?)?", text):
        number = int(found[1]) * MULTIPLIERS.get(found[2], 1)
    elif found := re.fullmatch(r"0[xX]([0-9a-fA-F]+)|([0-9a-fA-F]+)[hH]", text):
        number = int(found[1] or found[2], 16)
    else:
        raise ValueError(f"{text or 'nothing'} is no number")
    if not least <= number <= most:
        raise ValueError(f"{text} does not lie in {least} to {most}")
    return number
