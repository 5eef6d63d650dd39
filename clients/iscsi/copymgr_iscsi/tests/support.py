"""What the tests of the target have in common: units behind a target, and a small initiator."""

import pathlib
import signal
import socket
import struct
import subprocess
import threading

from copymgr_iscsi import pdus, target
from copymgr_iscsi.wire import TOP, cdbs, frames
from copymgr import Ended, Server, Shape
from copymgr.wire import PLAIN_SERVE

COMMAND = pathlib.Path(TOP / "clients/iscsi/iscsi-target")
SHAPES = [Shape(100_000), Shape(1000, 4096)]
SECONDS = 60
INITIATOR = "iqn.2026-01.example:tester"


class Behind:
    """A target in a thread of the test, before a plain server."""

    def __init__(self, test, sessions=8, access=None):
        try:
            self.server = Server(SHAPES, sessions, [str(PLAIN_SERVE)])
        except Ended as error:
            test.skipTest(f"no sockets here: {error}")
        test.addCleanup(self.server.close)
        self.target = target.Target(target.NAME, self.server.address, False, access)
        self.listener = socket.create_server(("127.0.0.1", 0))
        test.addCleanup(self.listener.close)
        # the socket's own accept is not ended by its close
        test.addCleanup(self.listener.shutdown, socket.SHUT_RDWR)
        threading.Thread(target=self.accept, daemon=True).start()

    def accept(self):
        while True:
            try:
                link, _ = self.listener.accept()
            except OSError:
                return
            threading.Thread(target=self.target.serve, args=(link,), daemon=True).start()

    def initiator(self, test, **keys):
        """One that has logged in."""
        one = Initiator(test, self.listener.getsockname())
        test.assertEqual(one.login(**keys), 0)
        return one


class Answer:
    """What a command was answered: its status, its sense, its data, and the flags and number of its residual."""

    def __init__(self):
        self.status = self.sense = None
        self.data, self.parts, self.flags, self.residual = b"", 0, 0, 0

    @property
    def told(self):
        return self.status, self.sense, self.data

    def over(self):
        """How many bytes there were more than expected, or less where it is negative."""
        return self.residual if self.flags & 0x04 else -self.residual if self.flags & 0x02 else 0


class Initiator:
    """Speaks iSCSI, as plainly as may be."""

    def __init__(self, test, address):
        self.test = test
        self.link = socket.create_connection(address, SECONDS)
        test.addCleanup(self.link.close)
        self.source = self.link.makefile("rb")
        test.addCleanup(self.source.close)
        self.number = self.tag = 7
        self.told = {}

    # ---- PDUs

    def send(self, code, flags, rest=b"", lun=bytes(8), data=b"", immediate=False, tag=None, second=0):
        """One PDU; its tag. Without `rest` behind them, bytes 20..31 have the numbers that each request has."""
        self.tag += tag is None
        used = self.tag if tag is None else tag
        code |= pdus.IMMEDIATE if immediate else 0
        self.link.sendall(pdus.pdu_bytes(code, flags, used, rest, lun, second, data=data))
        return used

    def request(self, code, flags, front=0, rest=b"", immediate=False, **named):
        """A request that counts, with the field of bytes 20..23, and what stands behind byte 31."""
        numbers = struct.pack(">III", front, self.number, 0)
        self.number += not immediate
        return self.send(code, flags, numbers + rest, immediate=immediate, **named)

    def next(self):
        pdu = pdus.read_pdu(self.source)
        self.test.assertIsNotNone(pdu, "the target closed the connection")
        return pdu

    def is_closed(self):
        return pdus.read_pdu(self.source) is None

    # ---- login

    def login_request(self, pairs, flags=0x87, session=0, version=0, data=None):
        """One request of a login; the answer."""
        data = pdus.text_bytes(pairs) if data is None else data
        header = struct.pack(">BBBBI", pdus.LOGIN | pdus.IMMEDIATE, flags, version, version, len(data))
        header += b"\x80\0\0\0\0\1" + struct.pack(">HIHxxII16x", session, self.tag, 0, self.number, 0)
        self.link.sendall(header + data + bytes(-len(data) % 4))
        return self.next()

    def login(self, flags=0x87, **keys):
        """The status of a login in one request, and what was answered is kept. A key that is None is left out."""
        found = {"InitiatorName": INITIATOR, "SessionType": "Normal", "TargetName": target.NAME} | keys
        answer = self.login_request([(key, value) for key, value in found.items() if value is not None], flags)
        self.told = dict(pdus.read_text(answer.data))
        return answer.number(36, 2)

    # ---- commands

    def begin(self, cdb, lun=0, expected=0, data=b"", write=False, **named):
        """Sends a command; its tag."""
        flags = pdus.FINAL | (0x20 if write else 0x40)
        return self.request(
            pdus.COMMAND, flags, expected, cdb, lun=struct.pack(">H6x", lun), data=data, **named
        )

    def data_out(self, tag, to, number, offset, data, is_last=True):
        rest = struct.pack(">III4xII", to, 0, 0, number, offset)
        self.send(pdus.DATA_OUT, pdus.FINAL if is_last else 0, rest, data=data, tag=tag)

    def answer(self, tag, out=b"", most=1 << 30):
        """The answer to a command, for which data is sent as it is asked for, so many bytes at most in one PDU."""
        found = Answer()
        while True:
            pdu = self.next()
            self.test.assertEqual(pdu.tag, tag)
            if pdu.code == pdus.READY:
                self.send_parts(pdu, out, most)
            elif pdu.code == pdus.DATA_IN:
                self.test.assertEqual((pdu.number(36), pdu.number(40)), (found.parts, len(found.data)))
                found.data += pdu.data
                found.parts += 1
                if pdu.flags & 1:
                    found.status, found.flags, found.residual = pdu.header[3], pdu.flags, pdu.number(44)
                    return found
            else:
                self.test.assertEqual((pdu.code, pdu.header[2]), (pdus.RESPONSE, 0))
                found.status, found.flags, found.residual = pdu.header[3], pdu.flags, pdu.number(44)
                found.sense = frames.sense_of(pdu.data[2:]) if pdu.data else None
                return found

    def send_parts(self, ready, out, most):
        offset, length = ready.number(40), ready.number(44)
        ends = [*range(offset + most, offset + length, most), offset + length]
        for number, (begin, end) in enumerate(zip([offset, *ends], ends)):
            self.data_out(ready.tag, ready.number(20), number, begin, out[begin:end], end == offset + length)

    def command(self, code, action=None, lun=0, expected=0, **fields):
        """A command that brings no data."""
        return self.answer(self.begin(cdbs.encode(code, action, **fields), lun, expected))

    def raw(self, cdb, lun=0, expected=255):
        return self.answer(self.begin(cdb.ljust(16, b"\0"), lun, expected))

    def write(self, lba, out, lun=0, immediate=b"", block=512, **named):
        cdb = cdbs.encode(0x8A, lba=lba, count=len(out) // block)
        return self.answer(self.begin(cdb, lun, len(out), immediate, True), out, **named)


def run_command(*words):
    """The command iscsi-target as a process, which SIGINT reaches also where the tests run in the background of a shell."""
    # pylint: disable-next=subprocess-popen-preexec-fn
    return subprocess.Popen(
        [COMMAND, *words], stderr=subprocess.PIPE, preexec_fn=lambda: signal.signal(signal.SIGINT, signal.SIG_DFL)
    )
