"""The words of the plain servers: what they read, where they listen, and how they end. The statuses are copymgr's."""

import os
import pathlib
import signal
import sys
import threading

from copymgr_formats.senses import BadInput

from . import managing, serving
from .player import line_of

DONE, READ_FAULT, WRITE_FAULT, USAGE, ACCEPT_FAULT = 0, 1, 2, 6, 9


class Ending(Exception):
    """How a server ends that did not serve to its end: a status, its line, and a second line that says why."""

    def __init__(self, status, line, cause=None):
        super().__init__(line)
        self.status, self.line, self.cause = status, line, cause


def say(line):
    """A line on standard error, where that is open."""
    try:
        print(f"copymgr: {line}".replace("\n", " "), file=sys.stderr, flush=True)
    except (AttributeError, OSError):
        pass  # nobody hears it


def configuration():
    """The bytes of standard input."""
    try:
        return sys.stdin.buffer.read()
    except (AttributeError, OSError):
        raise Ending(READ_FAULT, "read failed") from None


def listening(address):
    try:
        return serving.listening(address)
    except (OSError, ValueError) as error:
        raise Ending(ACCEPT_FAULT, "accept failed", f"{address}: {getattr(error, 'strerror', None) or error}") from None


def machine_of(data):
    try:
        return serving.read_configuration(data)
    except BadInput as bad:
        raise Ending(bad.status, line_of(bad).removeprefix("copymgr: ").rstrip("\n")) from None


def sessions_of(word):
    try:
        return serving.sessions_of(word)
    except ValueError as error:
        raise Ending(USAGE, str(error)) from None


def serve(address, sessions, new_server):
    """Serves so many connections at an address, over what `new_server` makes of the configuration, and reports. The
    address is told, where the system picked it, when all that serving wants is ready."""
    data = configuration()
    with listening(address) as listener:
        count = sessions_of(sessions)
        server = new_server(machine_of(data))
        serving.tell_address(listener, address, say)
        try:
            server.serve(listener, count)
        except OSError as error:
            raise Ending(ACCEPT_FAULT, "accept failed", f"{address}: {error.strerror}") from None
    write(server.report())


def write(report):
    try:
        sys.stdout.write(report)
        sys.stdout.flush()
    except (AttributeError, OSError):
        raise Ending(WRITE_FAULT, "write failed") from None


def manage(address, file):
    """Serves connections at an address to units of the configuration in a file, until a request asks for the end, and
    reports behind the line `ended`."""
    try:
        data = pathlib.Path(file).read_bytes()
    except OSError as error:
        raise Ending(READ_FAULT, "read failed", f"{file}: {error.strerror}") from None
    with listening(address) as listener:
        manager = managing.Manager(machine_of(data))
        serving.tell_address(listener, address, say)
        place = listener.getsockname()[:2]
        threading.Thread(target=manager.read_requests, args=(place,), daemon=True).start()
        manager.manage(listener)
    write("ended\n" + manager.report())


def run(address, sessions, new_server):
    """Serves as a program, and ends it."""
    end_with(lambda: serve(address, sessions, new_server))


def run_manager(address, file):
    """Manages as a program, and ends it."""
    end_with(lambda: manage(address, file))


def end_with(work):
    """Does it as a program, and ends it. An interrupt ends it at once, as it does any program."""
    signal.signal(signal.SIGINT, signal.SIG_DFL)
    status = DONE
    try:
        work()
    except Ending as ending:
        status = ending.status
        for line in (ending.line, ending.cause):
            if line:
                say(line)
    # what of the report could not be written is not tried once more
    os._exit(status)


def refuse(parser, message):
    """Ends a program whose words are others, as copymgr does."""
    say(f"{message} (see {parser.prog} --help)")
    sys.exit(USAGE)
