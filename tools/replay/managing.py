"""A plain manager of units that forget: any number of connections, until a request asks for the end.

It takes the words, the configuration, the requests and the frames that `copymgr manage` takes, and answers as it does. Its
configuration is a header.
"""

import os
import socket
import sys
import threading
import time

from . import serving
from .unit import Unit

PLACES = 256


class ForgettingUnit(Unit):
    """A unit that gives up each entry as soon as it was made."""

    def act(self, actor, moment, act):
        try:
            return super().act(actor, moment, act)
        finally:
            self.folded = self.entries
            self.payload = 0


class OpenLink:
    def __init__(self, link, session):
        self.link, self.session = link, session
        self.since = time.time()

    def close(self):
        try:
            self.link.shutdown(socket.SHUT_RDWR)
        except OSError:
            pass  # it ended by itself


class Manager(serving.Server):
    """Units that forget, served to connections that come and go, at most 256 at a time."""

    def __init__(self, machine):
        super().__init__(machine, units=[ForgettingUnit(machine, number) for number in range(len(machine.shapes))])
        self.is_recorded = False
        self.places = threading.Semaphore(PLACES)
        self.changed = threading.Lock()
        self.open = {}
        self.ends = False

    def manage(self, listener):
        """Serves until the end was asked for, and those that are open have ended."""
        pumps = [threading.Thread(target=self.pump_when_rung, args=(unit,)) for unit in self.units]
        for pump in pumps:
            pump.start()
        self.accept_all(listener)
        for opened in list(self.open.values()):
            opened.session.join()
        for bell, pump in zip(self.bells, pumps):
            bell.end()
            pump.join()
        for unit in self.units:
            self.pump(unit)

    def accept_all(self, listener):
        number = 0
        while True:
            self.places.acquire()
            if self.ends:
                return
            link, _ = listener.accept()
            if self.ends:
                link.close()
                return
            link.setsockopt(socket.IPPROTO_TCP, socket.TCP_NODELAY, 1)
            session = threading.Thread(target=self.one, args=(number, link))
            with self.changed:
                self.open[number] = OpenLink(link, session)
            session.start()
            number += 1

    def one(self, number, link):
        self.session(number, link)
        with self.changed:
            del self.open[number]
        link.close()
        self.places.release()

    def end(self, address):
        """Asks for the end: an accept that waits returns, and who waits for a place has one."""
        self.ends = True
        self.places.release()
        try:
            socket.create_connection(address).close()
        except OSError:
            pass  # it listens no more

    def answer(self, line):
        """The lines of an answer to a request that does not end the manager."""
        words = line.split(" ")
        if line == "report":
            with self.changed, self.turn:
                return [line, *self.report_lines(), f"open {len(self.open)}"]
        if line == "units":
            with self.turn:
                return [line, *self.unit_lines()]
        if line == "connections":
            with self.changed:
                return [line, *(f"{number} {int(time.time() - opened.since)}" for number, opened in self.open.items())]
        if words[0] == "close" and len(words) == 2 and words[1].isascii() and words[1].isdigit() and int(words[1]) < 1 << 32:
            with self.changed:
                opened = self.open.get(int(words[1]))
                if opened:
                    opened.close()
                return [f"close {int(words[1])}", "closed" if opened else "none"]
        return ["unknown"]

    def close_all(self):
        with self.changed:
            for opened in self.open.values():
                opened.close()

    def read_requests(self, address):
        """Answers what stands on standard input, up to a request that asks for the end."""
        for line in sys.stdin.buffer:
            request = line.decode(errors="replace").removesuffix("\n")
            if request in ("end", "stop"):
                self.end(address)
                if request == "stop":
                    self.close_all()
                return
            os.write(1, "".join(line + "\n" for line in [*self.answer(request), ""]).encode())
