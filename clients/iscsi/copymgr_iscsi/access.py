"""Who may log in: a list of initiators, and CHAP (RFC 1994, and RFC 7143, 12.1.3), by which an initiator shows that it
has a secret without sending it."""

import hashlib
import hmac
import secrets

# the algorithms of CHAP, the strongest first
ALGORITHMS = {"7": hashlib.sha256, "6": hashlib.sha1, "5": hashlib.md5}
SHORTEST = 12
CHALLENGE = 16


class Access:
    """Names of initiators, of which None is any, and secrets by the names under which CHAP knows them; without secrets
    nobody is asked for one."""

    def __init__(self, initiators=None, chap=None):
        self.initiators, self.chap = initiators, chap or {}

    def admits(self, initiator):
        return self.initiators is None or initiator in self.initiators


def read_secrets(path):
    """The secrets of a file: a name and its secret in each line, with a space between; # begins a comment."""
    found = {}
    with open(path, encoding="utf-8") as file:
        for number, line in enumerate(file, 1):
            words = line.split("#")[0].split()
            if not words:
                continue
            if len(words) != 2 or len(words[1]) < SHORTEST:
                raise ValueError(f"{path}, line {number}: no name and secret of at least {SHORTEST} characters")
            found[words[0]] = words[1].encode()
    if not found:
        raise ValueError(f"{path} has no secret")
    return found


def number_bytes(text):
    """The bytes of a binary value: hexadecimal behind 0x."""
    if text[:2].lower() != "0x":
        raise ValueError("a binary value is hexadecimal here")
    digits = text[2:]
    return bytes.fromhex(digits if len(digits) % 2 == 0 else "0" + digits)


class Challenge:
    """One run of CHAP: what is asked of the initiator, and whether it answered it."""

    def __init__(self, chap, offered):
        self.chap = chap
        self.algorithm = next((one for one in ALGORITHMS if one in offered.split(",")), None)
        self.number, self.challenge = secrets.randbelow(256), secrets.token_bytes(CHALLENGE)

    def told(self):
        """The keys by which it is asked."""
        return [("CHAP_A", self.algorithm), ("CHAP_I", self.number), ("CHAP_C", f"0x{self.challenge.hex()}")]

    def is_met(self, name, response):
        """Whether this response shows the secret of that name."""
        secret = self.chap.get(name)
        if secret is None or response is None:
            return False
        try:
            given = number_bytes(response)
        except ValueError:
            return False
        wanted = ALGORITHMS[self.algorithm](bytes([self.number]) + secret + self.challenge).digest()
        return hmac.compare_digest(given, wanted)
