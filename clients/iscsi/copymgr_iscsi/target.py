"""The command iscsi-target.

example:
  $ clients/python/cmgr new disks --unit 1000000 --unit 1000000
  $ tools/people/plain-serve 127.0.0.1:0 256 < disks 2> where &
  $ until grep -q serving where; do sleep 0.1; done
  $ clients/iscsi/iscsi-target --connect $(sed 's/.* //' where) --listen 127.0.0.1:0 2> target &
  $ until grep serving target; do sleep 0.1; done; kill %1 %2

It is the target NAME of iSCSI, at HOST:PORT, and LUN n is unit n of a program that serves. Each session has a
connection of its own to that program, and so is an initiator of its own; when all connections that the program takes
are used, a login is refused. It listens at 127.0.0.1:3260 unless it is told otherwise, and warns where others may reach
it and neither --chap nor --initiator says who may log in: then who reaches HOST:PORT can read and write all units.
The file of --chap has a name and its secret, of at least 12 characters, in each line. What goes over the network is
not encrypted. Where the port is 0 it says which one it was given. It goes on until it is interrupted.
"""

import argparse
import datetime
import ipaddress
import re
import socket
import sys
import threading

from copymgr_formats.command_line import Parser, fail

from . import login, pdus
from .access import Access, read_secrets
from .session import Session
from .units import Units
from .wire import Connection, Ended, address_of

PROGRAM = "iscsi-target"
NAME = "iqn.2026-01.example.copymgr:units"
LISTEN = "127.0.0.1:3260"
# how long a program may take to reply to the first command of a session
SECONDS = 10


def is_loopback(host):
    """Whether only this machine can reach an address."""
    if host == "localhost":
        return True
    try:
        return ipaddress.ip_address(host).is_loopback
    except ValueError:
        return False


def shown(address):
    host, port = address[:2]
    return f"[{host}]:{port}" if ":" in host else f"{host}:{port}"


def say(what):
    """One line on standard error, also where many threads say something."""
    sys.stderr.write(f"{PROGRAM}: {what}\n")
    sys.stderr.flush()


def say_of(initiator):
    """Says what an initiator asks, with the time."""
    return lambda what: say(f"{datetime.datetime.now().astimezone().isoformat(timespec='milliseconds')} {initiator} {what}")


# the forms of RFC 3721: iqn, eui and naa
NAMES = r"iqn\.[0-9]{4}-[0-9]{2}\.[a-z0-9.:-]+|eui\.[0-9a-fA-F]{16}|naa\.[0-9a-fA-F]{16}([0-9a-fA-F]{16})?"
LONGEST_NAME = 223


def iscsi_name(text):
    """A name of a target or of an initiator."""
    if len(text) > LONGEST_NAME or not re.fullmatch(NAMES, text):
        raise argparse.ArgumentTypeError(f"{text or 'nothing'} is no iSCSI name, as {NAME}")
    return text


def chap_file(path):
    try:
        return read_secrets(path)
    except OSError as error:
        raise argparse.ArgumentTypeError(f"{path}: {error.strerror}") from None
    except ValueError as error:
        raise argparse.ArgumentTypeError(str(error)) from None


class Target:
    """A name, and where the program is that serves its units."""

    def __init__(self, name, program, is_verbose, access=None):
        self.name, self.program, self.is_verbose = name, program, is_verbose
        self.access = access or Access()
        self.turn = threading.Lock()
        self.last, self.sessions = 0, {}

    def new_number(self):
        """The number of a session, 1 to 65535."""
        with self.turn:
            self.last = self.last % 0xFFFF + 1
            return self.last

    def begin(self, key, link):
        """The session of an initiator begins; one that it had before, and left without a word, ends."""
        with self.turn:
            before, self.sessions[key] = self.sessions.get(key), link
        if before:
            try:
                before.shutdown(socket.SHUT_RDWR)
            except OSError:
                pass  # it has ended

    def end(self, key, link):
        with self.turn:
            if self.sessions.get(key) is link:
                del self.sessions[key]

    def connected(self):
        """A connection to the program that is served."""
        host = None
        try:
            host = Connection(self.program, SECONDS)
            host.ask(0, bytes(16))
            host.link.settimeout(None)
            return host
        except (OSError, Ended):
            if host:
                host.close()
            raise login.Refused(login.NO_SERVICE) from None

    def serve(self, link):
        """A connection from its begin to its end."""
        with link:
            link.setsockopt(socket.IPPROTO_TCP, socket.TCP_NODELAY, 1)
            try:
                self.log_in(link, link.makefile("rb"))
            except (OSError, pdus.Broken, Ended) as error:
                say(f"a connection ended: {error}")

    def log_in(self, link, source):
        hosts = []

        def opens(name):
            if name != self.name:
                raise login.Refused(login.NO_TARGET)
            hosts.append(self.connected())

        request = pdus.read_pdu(source)
        try:
            one, number = request and login.Login(request, link.sendall, opens, self.access), self.new_number()
            while request and not one.take(request, number):
                request = pdus.read_pdu(source)
            if request:
                self.run(link, source, one, hosts)
        except login.Refused as refused:
            one.respond(request, 0, status=refused.status)
        finally:
            for host in hosts:
                host.close()

    def run(self, link, source, one, hosts):
        """The session behind a login."""
        key = one.agreed.told["InitiatorName"], one.isid
        if hosts:
            self.begin(key, link)
        try:
            its_units = Units(hosts[0], say_of(key[0]) if self.is_verbose else None) if hosts else None
            Session(link, one.counters, one.agreed, lambda name: self.targets(name, link), its_units).run(source)
        finally:
            self.end(key, link)

    def targets(self, name, link):
        """What SendTargets tells."""
        if name not in ("All", "", self.name):
            return []
        return [("TargetName", self.name), ("TargetAddress", f"{shown(link.getsockname())},{login.PORTAL_GROUP}")]


def parser():
    top = Parser(prog=PROGRAM, description=__doc__)
    top.add_argument("--connect", required=True, metavar="HOST:PORT", type=address_of, help="a program that serves")
    top.add_argument("--listen", default=LISTEN, metavar="HOST:PORT", type=address_of, help=f"{LISTEN} if left out")
    top.add_argument("--verbose", action="store_true", help="tells each command and its status on standard error")
    top.add_argument("--name", default=NAME, type=iscsi_name, help=f"{NAME} if left out")
    top.add_argument("--chap", metavar="FILE", type=chap_file, help="names and secrets of those that may log in, by CHAP")
    top.add_argument("--initiator", metavar="NAME", type=iscsi_name, action="append", help="an initiator that may log in; any if left out")
    return top


def main(arguments=None):
    words = parser().parse_args(arguments)
    host, port = words.listen
    try:
        listener = socket.create_server((host, port), family=socket.AF_INET6 if ":" in host else socket.AF_INET)
    except OSError as error:
        fail(PROGRAM, f"{shown(words.listen)}: {error.strerror}", 15)
    try:
        if not is_loopback(host) and not words.chap and not words.initiator:
            say(f"warning: who reaches {shown(words.listen)} can read and write all units")
        if port == 0:
            say(f"serving at {shown(listener.getsockname())}")
        accept_all(listener, Target(words.name, words.connect, words.verbose, Access(words.initiator, words.chap)))
    except KeyboardInterrupt:
        pass


def accept_all(listener, target):
    with listener:
        while True:
            link, _ = listener.accept()
            threading.Thread(target=target.serve, args=(link,), daemon=True).start()
