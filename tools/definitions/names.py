"""The names in a term of a definition or a clause, without those that the term binds."""

import re

TOKEN = re.compile(r"λ|\d\w*|\.?[^\W\d][\w'?]*(?:[.-][\w'?]+)*|[(){}\[\],;.]|[^\s\w(){}\[\],;.]+")
NAME = re.compile(r"[^\W\d]")
KEYWORDS = {"if", "then", "else", "record", "let", "in", "Type", "elim", "as", "λ", "_", "Unit", "sem"}
OPEN, CLOSE = set("({["), set(")}]")


def without_comments(text):
    """A term without its comments and texts."""
    return re.sub(r'(^|\s)--.*|"[^"]*"', r"\1", text)


def is_name(token):
    return bool(NAME.match(token)) and token not in KEYWORDS


def bound_at(tokens, place):
    """The names of a group such as (a b : T) that opens at a place."""
    names = []
    for token in tokens[place + 1:]:
        if not is_name(token):
            return names if token == ":" else []
        names.append(token)
    return []


class Scan:
    """Goes through a term once; `free` are the names that nothing binds, `frames` what is bound so far, by brackets."""

    def __init__(self, bound):
        self.frames, self.groups, self.lets = [set(bound)], [], []
        self.free, self.skipped = [], 0
        self.lambda_at = 0  # how many brackets are open where a λ binds

    def is_bound(self, name):
        return any(name in frame for frame in self.frames)

    def bracket(self, tokens, place):
        if tokens[place] in OPEN:
            self.groups.append(bound_at(tokens, place))
            self.skipped = len(self.groups[-1])
            self.frames.append(set())
        elif len(self.frames) > 1:
            self.frames.pop()
            self.frames[-1].update(self.groups.pop())

    def name(self, token, following):
        if self.skipped:
            self.skipped -= 1
        elif self.lambda_at == len(self.frames):
            self.frames[-1].add(token)
        elif following != "=" and not self.is_bound(token.split(".")[0]):
            self.free.append(tuple(token.split(".")))

    def word(self, tokens, place):
        token, following = tokens[place], tokens[place + 1] if place + 1 < len(tokens) else ""
        if token == "λ":
            self.lambda_at = len(self.frames)
        elif token == ".":
            self.lambda_at = 0
        elif token == "let":
            self.lets.append(following)
            self.skipped = 1
        elif token == "in" and self.lets:
            self.frames[-1].add(self.lets.pop())
        elif is_name(token):
            self.name(token, following)


def scan(text, bound=()):
    """The free names of a term, each in its parts, and what is bound behind it."""
    tokens = TOKEN.findall(without_comments(text))
    state = Scan(bound)
    for place, token in enumerate(tokens):
        if token in OPEN | CLOSE:
            state.bracket(tokens, place)
        else:
            state.word(tokens, place)
    return state.free, state.frames[0]


def split_clause(text):
    """A clause's patterns, and its term behind the first = outside brackets."""
    depth = 0
    for token in TOKEN.finditer(text):
        depth += (token[0] in OPEN) - (token[0] in CLOSE)
        if token[0] == "=" and depth == 0:
            return text[:token.start()], text[token.end():]
    return text, ""


def clause_names(text, bound):
    """The names of a clause: the constructors of its patterns, and the free names of its term."""
    patterns, term = split_clause(without_comments(text))
    found = [token for token in TOKEN.findall(patterns)[1:] if is_name(token)]
    constructors = [token for token in found if "." in token or token[0].isupper()]
    variables = set(found) - set(constructors)
    return [tuple(token.split(".")) for token in constructors] + scan(term, bound | variables)[0]
