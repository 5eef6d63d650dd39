"""Where a program is reached."""

import re


def address_of(text):
    """Host and port of HOST:PORT; an IPv6 address may stand in brackets."""
    host, _, port = text.rpartition(":")
    if not host or not re.fullmatch("[0-9]{1,5}", port) or int(port) > 0xFFFF:
        raise ValueError(f"{text} is no HOST:PORT")
    return host.removeprefix("[").removesuffix("]"), int(port)
