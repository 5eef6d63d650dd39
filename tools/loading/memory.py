"""What memory, threads and files a program has, and what it may need for what it was asked."""

import os
import pathlib
import threading

MEGABYTE = 1_000_000
# of an entry of a unit's record, with what the unit keeps of it; of a connection: its thread and its buffers
ENTRY, CONNECTION = 1024, 512 * 1024
# how much more than it keeps a program may have had from the system
SPARE = 1.5


# the files of a program that serves, beside its connections: the standard streams and the socket that listens
FILES = 4


def status_of(process, name):
    """A number of /proc/PID/status, 0 where the process has ended."""
    try:
        for line in pathlib.Path(f"/proc/{process}/status").read_text(encoding="ascii").splitlines():
            if line.startswith(name + ":"):
                return int(line.split()[1])
    except OSError:
        pass
    return 0


def resident(process):
    """The bytes of memory that a process has, 0 where it has ended."""
    return status_of(process, "VmRSS") * 1024


def files_of(process):
    """How many files and sockets a process has open."""
    try:
        return len(os.listdir(f"/proc/{process}/fd"))
    except OSError:
        return 0


def need(tallies, units):
    """What records, payloads and the connections with a frame each need: each byte of a WRITE is kept once, and of the
    longest request and reply of each connection there may be two at once."""
    rows = tallies.rows()
    entries = sum(row[f"high {unit}"] for row in rows for unit in range(units))
    payload = sum(row["written"] for row in rows)
    frames = sum(2 * row["largest"] + CONNECTION for row in rows if row["sent"])
    return int(SPARE * (entries * ENTRY + payload + frames))


class Watch:
    """Looks at a process all the time, until it is ended, and keeps the most that it had and the most memory beyond its
    need."""

    SECONDS = 0.5

    def __init__(self, process, needed):
        self.process, self.needed = process, needed
        self.base = resident(process)
        self.most, self.excess, self.looks = self.base, -self.base, []
        self.threads = self.files = 0
        self.is_over = threading.Event()
        self.thread = threading.Thread(target=self.run, daemon=True)
        self.thread.start()

    def run(self):
        while not self.is_over.wait(self.SECONDS):
            now, need_now = resident(self.process), self.base + self.needed()
            self.looks.append((now, need_now))
            self.most = max(self.most, now)
            self.excess = max(self.excess, now - need_now)
            self.threads = max(self.threads, status_of(self.process, "Threads"))
            self.files = max(self.files, files_of(self.process))

    def end(self):
        self.is_over.set()
        self.thread.join()


def show(results, watch, connections, units, is_program):
    """A thread for each connection and for each unit, and the first; a socket for each connection. The plain server keeps
    each block as an object, so of it the memory is only shown."""
    threads, files = connections + units + 1, connections + FILES
    results.tell(watch.threads <= threads, f"most threads: {watch.threads}, and there may be {threads}")
    results.tell(watch.files <= files, f"most files and sockets: {watch.files}, and there may be {files}")
    looks = watch.looks[:: max(1, len(watch.looks) // 6)]
    shown = ", ".join(f"{now / MEGABYTE:.0f}/{bound / MEGABYTE:.0f}" for now, bound in looks)
    print(f"memory and its bound, MB: {shown}; at first {watch.base / MEGABYTE:.0f}")
    if is_program:
        results.tell(watch.excess <= 0, f"most memory: {watch.most / MEGABYTE:.0f} MB, never above its bound")
