"""The target by its PDUs."""

import contextlib
import hashlib
import io
import os
import signal
import socket
import struct
import tempfile
import unittest

from copymgr_iscsi import access, login, pdus, target, units
from copymgr_iscsi.wire import cdbs, frames, lists

from .support import SHAPES, Behind, Initiator, run_command

GOOD, CHECK, CONFLICT = frames.GOOD, frames.CHECK, frames.CONFLICT


class Logins(unittest.TestCase):
    def setUp(self):
        self.behind = Behind(self)
        self.address = self.behind.listener.getsockname()

    def new(self):
        return Initiator(self, self.address)

    def test_what_is_agreed(self):
        one = self.new()
        offered = {
            "HeaderDigest": "CRC32C,None", "DataDigest": "None", "MaxConnections": "8", "InitialR2T": "No",
            "ImmediateData": "Yes", "MaxRecvDataSegmentLength": "65536", "MaxBurstLength": "16776192",
            "FirstBurstLength": "0x4000", "DefaultTime2Wait": "2", "DefaultTime2Retain": "20", "MaxOutstandingR2T": "4",
            "DataPDUInOrder": "No", "DataSequenceInOrder": "No", "ErrorRecoveryLevel": "2", "X-example": "1",
        }
        self.assertEqual(one.login(**offered), 0)
        self.assertEqual(one.told, {
            "HeaderDigest": "None", "DataDigest": "None", "MaxConnections": "1", "InitialR2T": "Yes",
            "ImmediateData": "Yes", "MaxBurstLength": "1048576", "FirstBurstLength": "16384", "DefaultTime2Wait": "2",
            "DefaultTime2Retain": "0", "MaxOutstandingR2T": "1", "DataPDUInOrder": "Yes", "DataSequenceInOrder": "Yes",
            "ErrorRecoveryLevel": "0", "X-example": "NotUnderstood", "TargetPortalGroupTag": "1",
            "MaxRecvDataSegmentLength": "262144",
        })
        self.assertEqual(one.command(0x00).status, GOOD)

    def test_by_stages_and_in_pieces(self):
        one = self.new()
        names = pdus.text_bytes([("InitiatorName", "iqn.2026-01.example:tester"), ("TargetName", target.NAME)])
        answer = one.login_request([], 0x40, data=names[:20])
        self.assertEqual((answer.flags, answer.data, answer.number(36, 2)), (0, b"", 0))
        answer = one.login_request([], 0x81, data=names[20:] + b"AuthMethod=CHAP,None\0")
        self.assertEqual((answer.flags, dict(pdus.read_text(answer.data))["AuthMethod"]), (0x81, "None"))
        answer = one.login_request([("ImmediateData", "No")], 0x04)
        self.assertEqual((answer.flags, answer.number(14, 2)), (0x04, 0))
        answer = one.login_request([], 0x87)
        self.assertEqual((answer.flags, answer.number(36, 2)), (0x87, 0))
        self.assertGreater(answer.number(14, 2), 0)
        self.assertEqual(one.command(0x00).status, GOOD)

    def test_refusals(self):
        for status, keys in [
            (login.MISSING, {"InitiatorName": None}),
            (login.MISSING, {"TargetName": None}),
            (login.NO_TARGET, {"TargetName": "iqn.2026-01.example:none"}),
            (login.NO_AUTHENTICATION, {"AuthMethod": "CHAP"}),
            (login.INITIATOR_ERROR, {"MaxBurstLength": "many"}),
        ]:
            with self.subTest(keys):
                one = self.new()
                self.assertEqual(one.login(**keys), status)
                self.assertTrue(one.is_closed())
        for status, named in [(login.NO_VERSION, {"version": 1}), (login.NO_SUCH_SESSION, {"session": 5})]:
            answer = self.new().login_request([("InitiatorName", "i"), ("TargetName", target.NAME)], **named)
            self.assertEqual((answer.code, answer.number(36, 2)), (pdus.LOGGED_IN, status))

    def test_what_is_no_login(self):
        for data, why in [
            (b"GET / HTTP/1.0\r\n\r\n".ljust(48), "a PDU has 2115668 bytes of data, and may have 262144"),
            (b"\x43\x87\0\0\0\xff\xff\xff" + bytes(40), "a PDU has 16777215 bytes of data, and may have 262144"),
            (bytes(48), "00h before the end of the login"),
        ]:
            one = self.new()
            with contextlib.redirect_stderr(io.StringIO()) as said:
                one.link.sendall(data)
                self.assertTrue(one.is_closed())
            self.assertEqual(said.getvalue(), f"iscsi-target: a connection ended: {why}\n")

    def test_a_program_that_takes_no_more(self):
        self.behind = Behind(self, sessions=1)
        self.address = self.behind.listener.getsockname()
        first = self.new()
        self.assertEqual(first.login(), 0)
        target.SECONDS, before = 0.5, target.SECONDS
        self.addCleanup(setattr, target, "SECONDS", before)
        self.assertEqual(self.new().login(), login.NO_SERVICE)
        self.assertEqual(first.command(0x00).status, GOOD)

    def test_discovery(self):
        one = self.new()
        self.assertEqual(one.login(SessionType="Discovery", TargetName=None), 0)
        one.request(pdus.TEXT, pdus.FINAL, pdus.NO_TAG, data=b"SendTargets=All\0")
        found = pdus.read_text(one.next().data)
        self.assertEqual(found, [("TargetName", target.NAME), ("TargetAddress", f"127.0.0.1:{self.address[1]},1")])
        one.begin(bytes(16))
        self.assertEqual(one.next().code, pdus.REJECT)
        self.assertEqual(self.behind.server.address[0], "127.0.0.1")

    def test_a_session_that_comes_again_ends_the_one_before(self):
        first = self.behind.initiator(self)
        second = self.behind.initiator(self)
        self.assertTrue(first.is_closed())
        self.assertEqual(second.command(0x00).status, GOOD)


class Admitted(unittest.TestCase):
    """Who may log in."""

    SECRET = b"a secret that is long"

    def new(self, access):
        return Initiator(self, Behind(self, access=access).listener.getsockname())

    def test_a_list_of_initiators(self):
        one = access.Access(["iqn.2026-01.example:tester"])
        self.assertEqual(self.new(one).login(), 0)
        self.assertEqual(self.new(one).login(InitiatorName="iqn.2026-01.example:other"), login.NO_AUTHORIZATION)

    def asked(self, algorithms="5,7"):
        """An initiator that is asked who it is, and what it is asked."""
        one = self.new(access.Access(None, {"host": self.SECRET}))
        self.assertEqual(one.login(0x81, AuthMethod="CHAP,None"), 0)
        self.assertEqual(one.told["AuthMethod"], "CHAP")
        answer = one.login_request([("CHAP_A", algorithms)], 0x00)
        return one, dict(pdus.read_text(answer.data)), answer.number(36, 2)

    def response(self, told, secret, algorithm=hashlib.sha256):
        digest = algorithm(bytes([int(told["CHAP_I"])]) + secret + bytes.fromhex(told["CHAP_C"][2:])).hexdigest()
        return [("CHAP_N", "host"), ("CHAP_R", f"0x{digest}")]

    def test_chap(self):
        for algorithms, taken, algorithm in [("5,7", "7", hashlib.sha256), ("5", "5", hashlib.md5)]:
            one, told, _ = self.asked(algorithms)
            self.assertEqual(told["CHAP_A"], taken)
            answer = one.login_request(self.response(told, self.SECRET, algorithm), 0x81)
            self.assertEqual((answer.flags, answer.number(36, 2)), (0x81, 0))
            self.assertEqual(one.login_request([], 0x87).flags, 0x87)
            self.assertEqual(one.command(0x00).status, GOOD)

    def test_who_is_not_known(self):
        for change in [
            lambda told: self.response(told, b"another secret"),
            lambda told: [("CHAP_N", "other"), self.response(told, self.SECRET)[1]],
            lambda told: [("CHAP_N", "host"), ("CHAP_R", "0xzz")],
            lambda told: [("CHAP_N", "host")],
            lambda told: [*self.response(told, self.SECRET), ("CHAP_I", "1"), ("CHAP_C", "0x00")],
        ]:
            one, told, _ = self.asked()
            answer = one.login_request(change(told), 0x81)
            self.assertEqual(answer.number(36, 2), login.NO_AUTHENTICATION)
            self.assertTrue(one.is_closed())
        self.assertEqual(self.asked("9")[2], login.NO_AUTHENTICATION)

    def test_nobody_goes_around_it(self):
        for flags, keys in [(0x87, {}), (0x87, {"AuthMethod": "None"}), (0x81, {}), (0x83, {})]:
            one = self.new(access.Access(None, {"host": self.SECRET}))
            self.assertEqual(one.login(flags, **keys), login.NO_AUTHENTICATION, (flags, keys))
        one, told, _ = self.asked()
        # the response to another challenge
        other = self.asked()[1]
        answer = one.login_request(self.response(other, self.SECRET), 0x81)
        self.assertEqual(answer.number(36, 2), login.NO_AUTHENTICATION)

    def test_files_of_secrets(self):
        with tempfile.NamedTemporaryFile("w+", encoding="utf-8") as file:
            for text, found in [
                ("# hosts\nhost a-long-secret-1 # the first\n\n", {"host": b"a-long-secret-1"}),
                ("host short\n", None), ("host\n", None), ("# none\n", None),
            ]:
                file.seek(0)
                file.truncate()
                file.write(text)
                file.flush()
                if found:
                    self.assertEqual(access.read_secrets(file.name), found)
                else:
                    self.assertRaises(ValueError, access.read_secrets, file.name)


class Sessions(unittest.TestCase):
    def setUp(self):
        self.behind = Behind(self)
        self.one = self.behind.initiator(self, MaxRecvDataSegmentLength="8192", MaxBurstLength="65536")

    def test_data_in_parts(self):
        out = os.urandom(512 * 500)
        answer = self.one.write(7, out, immediate=out[:5000], most=30_000)
        self.assertEqual((answer.told, answer.over()), ((GOOD, None, b""), 0))
        answer = self.one.command(0x88, lba=7, count=500, expected=len(out))
        self.assertEqual((answer.told, answer.over(), answer.parts), ((GOOD, None, out), 0, 32))

    def test_commands_wait_for_the_data_of_those_before(self):
        cdb = cdbs.encode(0x8A, lba=0, count=2)
        first = self.one.begin(cdb, 0, 1024, write=True)
        ready = self.one.next()
        self.assertEqual((ready.code, ready.number(40), ready.number(44)), (pdus.READY, 0, 1024))
        second = self.one.begin(cdbs.encode(0x88, lba=0, count=2), 0, 1024)
        ping = self.one.request(pdus.NOP_OUT, pdus.FINAL, pdus.NO_TAG, data=b"here?")
        answer = self.one.next()
        self.assertEqual((answer.code, answer.tag, answer.data), (pdus.NOP_IN, ping, b"here?"))
        self.one.send_parts(ready, b"w" * 1024, 600)
        self.assertEqual(self.one.answer(first).status, GOOD)
        self.assertEqual(self.one.answer(second).data, b"w" * 1024)

    def test_residuals(self):
        self.one.write(0, b"r" * 1024)
        for expected, over in [(1024, 0), (1500, -476), (1000, 24), (0, 1024)]:
            answer = self.one.command(0x28, lba=0, count=2, expected=expected)
            self.assertEqual((answer.status, answer.data, answer.over()), (GOOD, b"r" * min(1024, expected), over))
        self.assertEqual(self.one.command(0x00, expected=10).over(), -10)
        answer = self.one.command(0x28, lba=99_999, count=2, expected=1024)
        self.assertEqual((answer.status, answer.sense, answer.over()), (CHECK, (5, 0x21, 0), -1024))
        cdb = cdbs.encode(0x2A, lba=0, count=2)
        answer = self.one.answer(self.one.begin(cdb, 0, 1500, b"s" * 1500, True))
        self.assertEqual((answer.status, answer.over()), (GOOD, -476))
        answer = self.one.answer(self.one.begin(cdb, 0, 1000, b"t" * 1000, True))
        self.assertEqual((answer.status, answer.sense, answer.over()), (CHECK, (5, 0x0E, 3), 24))
        self.assertEqual(self.one.command(0x28, lba=0, count=2, expected=1024).data, b"s" * 1024)

    def test_data_that_is_not_the_next(self):
        for number, offset in [(1, 0), (0, 512), (0, 4096)]:
            tag = self.one.begin(cdbs.encode(0x2A, lba=0, count=4), 0, 2048, write=True)
            ready = self.one.next()
            self.one.data_out(tag, ready.number(20), number, offset, bytes(512), False)
            answer = self.one.answer(tag)
            self.assertEqual((answer.status, answer.sense), (CHECK, (0x0B, 0x47, 0x05)))
        tag = self.one.begin(cdbs.encode(0x2A, lba=0, count=4), 0, 2048, write=True)
        self.one.data_out(tag, self.one.next().number(20), 0, 0, bytes(512), True)
        self.assertEqual(self.one.answer(tag).sense, (0x0B, 0x47, 0x05))
        status = self.one.command(0x9E, 0x12, lba=0, length=24, expected=24)
        self.assertEqual(status.data[20], 1)

    def test_lists(self):
        out = lists.unmap_bytes([(0, 1)])
        self.one.write(0, b"u" * 1024)
        cdb = cdbs.encode(0x42, length=len(out))
        self.assertEqual(self.one.answer(self.one.begin(cdb, 0, len(out), b"", True), out).status, GOOD)
        self.assertEqual(self.one.command(0x28, lba=0, count=2, expected=1024).data, bytes(512) + b"u" * 512)
        answer = self.one.answer(self.one.begin(cdb, 0, 10, out[:10], True))
        self.assertEqual((answer.status, answer.sense), (CHECK, (5, 0x1A, 0)))

    def test_units(self):
        answer = self.one.command(0x12, lun=1, length=36, expected=36)
        self.assertEqual((answer.status, answer.data[0]), (GOOD, 0))
        answer = self.one.command(0x12, lun=9, length=36, expected=36)
        self.assertEqual((answer.status, answer.data[:5], len(answer.data)), (GOOD, b"\x7f\0\6\2\x1f", 36))
        self.assertEqual(self.one.command(0x12, lun=9, length=5, expected=36).over(), -31)
        answer = self.one.command(0x12, lun=9, first=1, page=0x83, length=36, expected=36)
        self.assertEqual(answer.sense, (5, 0x24, 0))
        self.assertEqual(self.one.command(0x00, lun=9).sense, (5, 0x25, 0))
        self.assertEqual(self.one.command(0xA0, length=100, expected=100).data[:4], b"\0\0\0\x10")
        self.assertEqual(self.one.command(0x9E, 0x10, lun=1, length=32, expected=32).data[8:12], b"\0\0\x10\0")
        self.assertEqual(self.one.write(0, b"4" * 8192, lun=1, block=4096).status, GOOD)

    def test_numbers_of_units(self):
        for lun, unit in [(b"\0\5", 5), (b"\x40\5", 5), (b"\x41\5", 0x105)]:
            self.assertEqual(units.unit_of(lun.ljust(8, b"\0")), unit)
        for lun in [b"\1\0", b"\x80\0", b"\xc1\1", b"\0\0\0\1"]:
            self.assertEqual(units.unit_of(lun.ljust(8, b"\0")), units.NOWHERE)

    def test_mode_sense(self):
        caching, control = bytes([8, 18]) + bytes(18), bytes([10, 10]) + bytes(10)
        both = caching + control
        for page, pages in [(0x08, caching), (0x0A, control), (0x3F, both), (0x48, caching), (0x88, caching)]:
            told = bytes([3 + len(pages), 0, 0, 0]) + pages
            self.assertEqual(self.one.raw(bytes([0x1A, 0, page, 0, 255])).told, (GOOD, None, told))
            told = bytes([0, 6 + len(pages)]) + bytes(6) + pages
            self.assertEqual(self.one.raw(bytes([0x5A, 8, page, 0, 0, 0, 0, 0, 255])).told, (GOOD, None, told))
        self.assertEqual(self.one.raw(bytes([0x1A, 0, 8, 0, 4])).data, bytes([23, 0, 0, 0]))
        self.assertEqual(self.one.raw(bytes([0x1A, 0, 0xC8, 0, 255])).sense, (5, 0x39, 0))
        for page, subpage in [(1, 0), (8, 1), (0x3F, 1)]:
            self.assertEqual(self.one.raw(bytes([0x1A, 0, page, subpage, 255])).sense, (5, 0x24, 0))
        self.assertEqual(self.one.raw(bytes([0x1A, 0, 8, 0, 255]), lun=9).sense, (5, 0x25, 0))

    def test_synchronize_cache(self):
        last = SHAPES[0].blocks
        for cdb, sense in [
            (bytes([0x35]) + bytes(9), None),
            (struct.pack(">BxIxHx", 0x35, last - 1, 1), None),
            (struct.pack(">BxIxHx", 0x35, last - 1, 2), (5, 0x21, 0)),
            (struct.pack(">BxQI2x", 0x91, last, 0), None),
            (struct.pack(">BxQI2x", 0x91, 2**64 - 1, 1), (5, 0x21, 0)),
        ]:
            answer = self.one.raw(cdb, expected=0)
            self.assertEqual((answer.status, answer.sense), (CHECK if sense else GOOD, sense))

    def test_what_is_refused(self):
        for cdb in [b"\xa3\x0c", b"\x5e\x02", b"\x5f\x07", b"\x1b\0", b"\x93\0", b"\x08\0", b"\x7f\0"]:
            self.assertEqual(self.one.raw(cdb).sense, (5, 0x20, 0))

    def test_reservations(self):
        def register(key, action_key):
            cdb = cdbs.encode(cdbs.RESERVE_OUT, 0x00, length=24).ljust(16, b"\0")
            return self.one.answer(self.one.begin(cdb, 0, 24, b"", True), lists.reserve_bytes(key, action_key)).status

        self.assertEqual(register(0, 0x11), GOOD)
        self.assertEqual(register(0x12, 0x13), CONFLICT)
        read_keys = cdbs.encode(cdbs.RESERVE_IN, cdbs.READ_KEYS, length=255)
        self.assertEqual(self.one.raw(read_keys).told, (GOOD, None, struct.pack(">IIQ", 1, 8, 0x11)))
        self.assertEqual(register(0x11, 0), GOOD)
        self.assertEqual(self.one.raw(read_keys).told, (GOOD, None, struct.pack(">II", 2, 0)))

    def test_task_management(self):
        waits = self.one.begin(cdbs.encode(0x2A, lba=0, count=4), 0, 2048, write=True)
        self.assertEqual(self.one.next().code, pdus.READY)
        reads = self.one.begin(cdbs.encode(0x28, lba=0, count=1), 0, 512)
        for function, lun, task, response in [
            (1, 0, 0, 1), (1, 0, waits, 0), (1, 0, waits, 1), (5, 0, 0, 0), (5, 9, 0, 2), (6, 0, 0, 0), (8, 0, 0, 5),
            (3, 0, 0, 5),
        ]:
            rest = struct.pack(">III", task, self.one.number, 0)
            self.one.send(pdus.TASK, pdus.FINAL | function, rest, struct.pack(">H6x", lun), immediate=True)
            answer = self.one.next()
            self.assertEqual((answer.code, answer.header[2]), (pdus.TASK_DONE, response), (function, task))
            if task == waits and response == 0:
                self.assertEqual(self.one.answer(reads).data, bytes(512))
        self.assertEqual(self.one.command(0x00).status, GOOD)

    def test_commands_whose_number_is_not_the_next_are_ignored(self):
        for number in (self.one.number + 1, self.one.number - 1, self.one.number + 1000):
            self.one.send(pdus.COMMAND, pdus.FINAL, struct.pack(">III", 0, number, 0))
        self.assertEqual(self.one.command(0x00).status, GOOD)

    def test_what_is_not_supported_is_rejected(self):
        self.one.send(pdus.SNACK, pdus.FINAL)
        answer = self.one.next()
        self.assertEqual((answer.code, answer.header[2], len(answer.data)), (pdus.REJECT, pdus.NOT_SUPPORTED, 48))

    def test_logout(self):
        self.one.request(pdus.LOGOUT, pdus.FINAL | 2)
        self.assertEqual(self.one.next().header[2], 2)
        self.one.request(pdus.LOGOUT, pdus.FINAL)
        answer = self.one.next()
        self.assertEqual((answer.code, answer.header[2]), (pdus.LOGGED_OUT, 0))
        self.assertTrue(self.one.is_closed())

    def test_each_session_is_an_initiator(self):
        """An operation is known to the session that began it alone."""
        out = lists.populate_bytes(0, [(0, 1)])
        cdb = cdbs.encode(0x83, 0x10, id=5, length=len(out))
        self.assertEqual(self.one.answer(self.one.begin(cdb, 0, len(out), out, True)).status, GOOD)
        self.assertEqual(self.one.command(0x84, 0x05, id=5, length=100, expected=100).status, GOOD)
        other = self.behind.initiator(self, InitiatorName="iqn.2026-01.example:other")
        self.assertEqual(other.command(0x84, 0x05, id=5, length=100, expected=100).sense, (5, 0x24, 0))


class Good:
    """A host all of whose commands are GOOD."""

    @staticmethod
    def ask(*_):
        return units.good(bytes(32))


class Command(unittest.TestCase):
    def said(self, listen):
        """What the command says before it serves at a port of its choice."""
        process = run_command("--connect", "127.0.0.1:1", "--listen", f"{listen}:0")
        self.addCleanup(process.stderr.close)
        self.addCleanup(process.wait)
        self.addCleanup(process.kill)
        lines = []
        while not lines or "serving at" not in lines[-1]:
            lines.append(process.stderr.readline().decode())
            self.assertTrue(lines[-1], lines)
        process.send_signal(signal.SIGINT)
        self.assertEqual(process.wait(60), 0)
        return lines

    def test_it_warns_where_others_may_reach_it(self):
        self.assertEqual(len(self.said("127.0.0.1")), 1)
        lines = self.said("0.0.0.0")
        self.assertRegex(lines[0], "^iscsi-target: warning: who reaches 0.0.0.0:0 can read and write all units\n$")
        self.assertEqual(target.LISTEN, "127.0.0.1:3260")

    def test_a_port_that_is_taken(self):
        with socket.create_server(("127.0.0.1", 0)) as taken:
            process = run_command("--connect", "127.0.0.1:1", "--listen", f"127.0.0.1:{taken.getsockname()[1]}")
            _, said = process.communicate(timeout=60)
        self.assertEqual((process.returncode, said.count(b"\n")), (15, 1))
        self.assertRegex(said.decode(), "^iscsi-target: 127.0.0.1:[0-9]+: ")

    def test_names(self):
        for name in ["", "disks", "iqn.2026.example", "iqn.2026-01.example:" + "x" * 223]:
            process = run_command("--connect", "127.0.0.1:1", "--name", name)
            _, said = process.communicate(timeout=60)
            self.assertEqual((process.returncode, said.count(b"\n")), (2, 1), name)
            self.assertIn(b"is no iSCSI name", said)
        for name in [target.NAME, "eui.02004567A425678D", "naa.52004567BA64678D"]:
            self.assertEqual(target.iscsi_name(name), name)

    def test_a_line_of_the_log(self):
        with contextlib.redirect_stderr(io.StringIO()) as said:
            tells = target.say_of("iqn.2026-01.example:tester")
            units.Units(Good(), tells).answer(3, cdbs.encode(0x88, lba=5, count=9), b"")
        time = r"[0-9]{4}-[0-9]{2}-[0-9]{2}T[0-9:.]+[+-][0-9:]+"
        self.assertRegex(
            said.getvalue(), f"^iscsi-target: {time} iqn.2026-01.example:tester unit 3 read lba=5 count=9: good\n$",
        )

    def test_loopback(self):
        self.assertTrue(all(map(target.is_loopback, ["127.0.0.1", "127.9.9.9", "::1", "localhost"])))
        self.assertFalse(any(map(target.is_loopback, ["0.0.0.0", "::", "10.0.0.1", "example.org"])))
