#!/usr/bin/env python3
"""A floor to measure a server beside: a loop that reads a request, copies bytes, and writes the reply.

    floor.py ADDRESS SESSIONS

example:
  $ bench/floor.py 127.0.0.1:0 1 < HEADER

It takes the words and the configuration of `copymgr serve`, and nothing of it is verified. A unit is memory that all
connections share, with a lock; each connection is served by a process of its own, so that they use as many processors
as there are. It answers READ and WRITE, (10) and (16), TEST UNIT READY, INQUIRY, READ CAPACITY, (10) and (16), and
REPORT LUNS, and refuses all else. It knows neither mapped blocks nor quotas, and keeps no record of what it did, so it
reports how many commands there were and no more.
"""

import mmap
import multiprocessing
import os
import socket
import struct
import sys

import house  # pylint: disable=unused-import

from copymgr_formats import frames, senses
from copymgr_formats.command_line import Parser
from replay import commands, serving

HERE = os.path.dirname(os.path.abspath(__file__))

FRONT = struct.Struct(">IH16s")
LONG = 1 << 16
# of Linux; older Pythons have no name for it
NO_RESERVE = 0x4000
# where the LBA and the number of blocks stand
READS = {0x28: struct.Struct(">2xIxH"), 0x88: struct.Struct(">2xQI")}
WRITES = {0x2A: READS[0x28], 0x8A: READS[0x88]}


class Memory:
    """The blocks of a unit. What is not touched takes no memory."""

    def __init__(self, shape):
        self.shape = shape
        flags = mmap.MAP_SHARED | mmap.MAP_ANONYMOUS | NO_RESERVE
        self.bytes = mmap.mmap(-1, shape.blocks * shape.block_length, flags)
        self.turn = multiprocessing.Lock()

    def place(self, fields, cdb):
        """From which byte to which the blocks of a command lie."""
        lba, count = fields.unpack_from(cdb)
        senses.refuse_if(lba + count > self.shape.blocks, senses.OUT_OF_RANGE)
        return lba * self.shape.block_length, (lba + count) * self.shape.block_length

    def read(self, begin, end):
        with self.turn:
            return self.bytes[begin:end]

    def write(self, begin, end, out):
        senses.refuse_if(len(out) != end - begin, senses.BAD_CDB)
        with self.turn:
            self.bytes[begin:end] = out
        return b""


class Floor:
    def __init__(self, machine):
        self.machine = machine
        self.units = [Memory(shape) for shape in machine.shapes]
        self.commands = multiprocessing.Value("Q", 0)

    def answer(self, unit, cdb, out):
        """The data of the reply."""
        senses.refuse_if(unit >= len(self.units), senses.NO_SUCH_UNIT)
        memory = self.units[unit]
        if cdb[0] in READS:
            return memory.read(*memory.place(READS[cdb[0]], cdb))
        if cdb[0] in WRITES:
            return memory.write(*memory.place(WRITES[cdb[0]], cdb), out)
        asked = commands.judged(self.machine, frames.Request(unit, cdb, out))
        senses.refuse_if(asked.cdb.name not in commands.FIXED, senses.UNKNOWN_OPERATION)
        return commands.FIXED[asked.cdb.name](asked)

    def reply(self, link, unit, cdb, out):
        try:
            data = self.answer(unit, cdb, out)
        except senses.Refused as refused:
            link.sendall(frames.check(refused.sense))
            return
        if len(data) < LONG:
            link.sendall(frames.good(data))
        else:
            link.sendall(struct.pack(">BBI", frames.GOOD, 0, len(data)))
            link.sendall(data)

    def session(self, link):
        """Serves one connection to its end."""
        served = 0
        with link.makefile("rb", 1 << 17) as source:
            while len(front := source.read(FRONT.size)) == FRONT.size:
                length, unit, cdb = FRONT.unpack(front)
                if length > frames.DATA_LIMIT:
                    break
                self.reply(link, unit, cdb, source.read(length) if length else b"")
                served += 1
        with self.commands.get_lock():
            self.commands.value += served

    def serve(self, listener, sessions):
        served = []
        for _ in range(sessions):
            link, _ = listener.accept()
            link.setsockopt(socket.IPPROTO_TCP, socket.TCP_NODELAY, 1)
            served.append(multiprocessing.Process(target=self.session, args=(link,)))
            served[-1].start()
            link.close()
        for session in served:
            session.join()


def main():
    parser = Parser(prog="bench/floor.py", description=__doc__)
    parser.add_argument("address", metavar="ADDRESS", help="HOST:PORT")
    parser.add_argument("sessions", metavar="SESSIONS", help="how many connections, 1 to 256")
    words = parser.parse_args()
    try:
        sessions = serving.sessions_of(words.sessions)
        floor = Floor(serving.read_configuration(sys.stdin.buffer.read()))
        listener = serving.listening(words.address)
        serving.tell_address(listener, words.address, lambda line: print(f"copymgr: {line}", file=sys.stderr, flush=True))
    except (ValueError, senses.BadInput) as error:
        parser.error(str(error))
    with listener:
        floor.serve(listener, sessions)
    print(f"sessions {sessions}\nfaults 0\nmemory 0\ncommands {floor.commands.value}\ntotal 0")


if __name__ == "__main__":
    multiprocessing.set_start_method("fork")
    main()
