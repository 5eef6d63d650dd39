"""Connections that do what no client should, and beside them some that have to be served on."""

import errno
import resource
import select
import socket
import struct
import threading
import time

from copymgr import Connection, Ended, Server, Shape
from copymgr_formats import cdbs, frames

from . import memory

SECONDS, PATIENCE = 120, 60
BLOCKS, LENGTH = 4096, 4096
# of a READ whose reply is as long as one may be
MOST = 2048
BEYOND = 1000
PROBES = 2
READ_MOST = frames.Request(0, cdbs.encode(0x88, lba=0, count=MOST), b"")
READ_ONE = frames.Request(0, cdbs.encode(0x88, lba=BLOCKS - 1, count=1), b"")
ZEROS = frames.good(bytes(LENGTH))


class Probe:
    """A client as it should be: it writes a block, reads it, and notes the longest time to a reply."""

    def __init__(self, address, number):
        self.host = Connection(address, SECONDS)
        self.lba = MOST + number
        self.commands, self.longest, self.fault = 0, 0.0, None
        self.is_over = threading.Event()
        self.thread = threading.Thread(target=self.run, daemon=True)
        self.thread.start()

    def run(self):
        try:
            while not self.is_over.wait(0.02):
                self.look()
        except (Ended, OSError, ValueError) as error:
            self.fault = f"{type(error).__name__}: {error}"

    def look(self):
        data = struct.pack(">Q", self.commands) * (LENGTH // 8)
        begin = time.monotonic()
        self.host.execute(0, cdbs.encode(0x8A, lba=self.lba, count=1), data)
        if self.host.execute(0, cdbs.encode(0x88, lba=self.lba, count=1)) != data:
            raise ValueError("a block is not as it was written")
        self.longest = max(self.longest, time.monotonic() - begin)
        self.commands += 2

    def end(self):
        self.is_over.set()
        self.thread.join()
        self.host.close()


class Kind:
    """Some connections of one kind. It says how many faults and commands each brings, at least and at most."""

    COUNT, FAULTS, COMMANDS, LONGEST = 4, (1, 1), (0, 0), 0

    def __init__(self, address):
        self.links = []
        for _ in range(self.COUNT):
            self.links.append(socket.create_connection(address, SECONDS))
            self.links[-1].setsockopt(socket.IPPROTO_TCP, socket.TCP_NODELAY, 1)

    def begin(self):
        """What they do at first; whether it went as it should."""
        return True

    def end(self):
        for link in self.links:
            link.close()

    def reset(self):
        for link in self.links:
            link.setsockopt(socket.SOL_SOCKET, socket.SO_LINGER, struct.pack("ii", 1, 0))
            link.close()

    def got(self, link, size):
        data = b""
        while len(data) < size and (more := link.recv(min(size - len(data), 1 << 20))):
            data += more
        return data


class Slow(Kind):
    """a request byte by byte, and its reply"""

    FAULTS, COMMANDS = (0, 0), (1, 1)

    def begin(self):
        for byte in frames.request_bytes(READ_ONE):
            for link in self.links:
                link.sendall(bytes([byte]))
            time.sleep(0.05)
        return all(self.got(link, len(ZEROS)) == ZEROS for link in self.links)


class Half(Kind):
    """half a request, and then silence"""

    def begin(self):
        for link in self.links:
            link.sendall(frames.request_bytes(READ_ONE)[:11])
        return True


class Endless(Kind):
    """a request of 8 MiB of which half never comes"""

    COUNT, LONGEST = 8, frames.DATA_LIMIT

    def begin(self):
        front = struct.pack(">IH16s", frames.DATA_LIMIT, 0, cdbs.encode(0x8A, lba=0, count=MOST))
        for link in self.links:
            link.sendall(front + bytes(frames.DATA_LIMIT // 2))
        return True


class Unread(Kind):
    """sixteen replies of 8 MiB that nobody reads"""

    COMMANDS, LONGEST = (0, 15), frames.DATA_LIMIT

    def begin(self):
        for link in self.links:
            link.sendall(frames.request_bytes(READ_MOST) * 16)
        return True

    def end(self):
        self.reset()


class Resets(Kind):
    """a reset in the middle of a reply"""

    COUNT, COMMANDS, LONGEST = 8, (0, 2), frames.DATA_LIMIT

    def begin(self):
        for link in self.links:
            link.sendall(frames.request_bytes(READ_MOST) * 3)
        fronts = [self.got(link, 100_000)[:6] for link in self.links]
        self.reset()
        return all(front == struct.pack(">BBI", frames.GOOD, 0, MOST * LENGTH) for front in fronts)


class Gone(Kind):
    """a reset at once"""

    COUNT, FAULTS = 8, (0, 1)

    def begin(self):
        self.reset()
        return True


KINDS = [Slow, Half, Endless, Unread, Resets, Gone]


def begun(kind):
    """Whether connections of a kind did what they should, and were told what they should be."""
    try:
        return kind.begin()
    except OSError as error:
        print(f"{kind.__doc__}: {error}")
        return False


def beyond(address):
    """Connections more than the program takes: how many came to stand, and whether one was told anything."""
    links = []
    for _ in range(BEYOND):
        link = socket.socket(socket.AF_INET6 if ":" in address[0] else socket.AF_INET)
        link.setblocking(False)
        if link.connect_ex(address) in (0, errno.EINPROGRESS):
            links.append(link)
    time.sleep(2)
    poll = select.poll()
    for link in links:
        poll.register(link, select.POLLOUT | select.POLLIN)
    events = [event for _, event in poll.poll(0)]
    for link in links:
        link.close()
    standing = sum(1 for event in events if event & select.POLLOUT and not event & (select.POLLERR | select.POLLHUP))
    return standing, any(event & select.POLLIN for event in events)


def served_on(results, probes, what):
    """The probes were replied to since this was called, and are still."""
    counts = [probe.commands for probe in probes]
    end = time.monotonic() + PATIENCE
    while any(probe.commands < count + 4 and not probe.fault for probe, count in zip(probes, counts)):
        if time.monotonic() > end:
            break
        time.sleep(0.05)
    fine = all(probe.commands >= count + 4 and not probe.fault for probe, count in zip(probes, counts))
    results.tell(fine, f"served on, beside {what}" + "".join(f"; {probe.fault}" for probe in probes if probe.fault))


def part(results, words, is_program):
    """All kinds at once, each beside those before it."""
    soft, hard = resource.getrlimit(resource.RLIMIT_NOFILE)
    resource.setrlimit(resource.RLIMIT_NOFILE, (max(soft, min(hard, BEYOND + 500)), hard))
    sessions = PROBES + sum(kind.COUNT for kind in KINDS)
    with Server([Shape(BLOCKS, LENGTH)], sessions, words) as server:
        needed = sum(kind.COUNT * (2 * kind.LONGEST + memory.CONNECTION) for kind in KINDS) + 16 * memory.MEGABYTE
        watch = memory.Watch(server.program.pid, lambda: int(memory.SPARE * needed))
        probes = [Probe(server.address, number) for number in range(PROBES)]
        served_on(results, probes, "nothing else")
        others = []
        for kind in KINDS:
            others.append(kind(server.address))
            results.tell(begun(others[-1]), f"{kind.COUNT} connections: {kind.__doc__}")
            served_on(results, probes, kind.__doc__)
        standing, told = beyond(server.address)
        results.tell(not told, f"{BEYOND} connections more than it takes: {standing} stood, none was told anything")
        served_on(results, probes, f"{BEYOND} connections more")
        for probe in probes:
            probe.end()
        for other in others:
            other.end()
        report = results.reported(server)
        watch.end()
    if report:
        judge(results, report, probes)
    print(f"the longest time to two replies: {max(probe.longest for probe in probes):.2f} s")
    memory.show(results, watch, sessions, 1, is_program)


def judge(results, report, probes):
    wanted = sum(probe.commands for probe in probes)
    results.agrees("sessions", report.sessions, *[PROBES + sum(kind.COUNT for kind in KINDS)] * 2)
    results.agrees("faults", report.faults, *(sum(kind.COUNT * kind.FAULTS[at] for kind in KINDS) for at in (0, 1)))
    commands = [wanted + sum(kind.COUNT * kind.COMMANDS[at] for kind in KINDS) for at in (0, 1)]
    results.agrees("commands", report.commands, *commands)
    results.agrees("mapped", report.units[0].mapped, PROBES, PROBES)
