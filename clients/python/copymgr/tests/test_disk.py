"""A disk over each kind of host."""

import unittest

from copymgr import (
    Busy, Capacity, CheckCondition, Disk, Ended, Inquiry, Replay, Reservation, ReservationConflict, Run, State, TaskSetFull,
)
from copymgr.hosts import Reply, data_of
from copymgr.wire import PLAIN_REPLAY, rod_token

from .support import SHAPES, PlainHost, PlainServedHost, ProgramHost, ProgramServedHost


class Disks:
    """The same of each kind of host."""

    def setUp(self):
        self.here = self.host()
        self.disks = [Disk(self.here, lun) for lun in range(len(SHAPES))]

    def refused(self, sense):
        test = self

        class Context:
            def __enter__(self):
                self.inner = test.assertRaises(CheckCondition)
                self.caught = self.inner.__enter__()

            def __exit__(self, *error):
                done = self.inner.__exit__(*error)
                test.assertEqual(self.caught.exception.sense, sense)
                return done

        return Context()

    def test_what_a_disk_is(self):
        self.assertEqual(self.disks[2].capacity(), Capacity(500, 4096))
        self.assertEqual(self.disks[0].inquiry(), Inquiry("COPYMGR", "ROD TOKEN UNIT", "0001"))
        self.assertEqual(self.disks[3].inquiry(0x83)[8:], rod_token.unit_name(3))

    def test_blocks_are_read_as_written(self):
        disk = self.disks[0]
        data = bytes(range(256)) * 2 * 5000
        disk.write(7, data)
        self.assertEqual(disk.read(7, 5000), data)
        self.assertEqual(disk.read(6, 2), bytes(512) + data[:512])
        self.assertEqual(disk.read(0, 0), b"")
        self.assertEqual(disk.map(), [Run(0, 7, False), Run(7, 5000, True), Run(5007, 4993, False)])

    def test_unmap(self):
        disk = self.disks[0]
        disk.write(0, bytes(512 * 200))
        disk.unmap([(2 * at, 1) for at in range(100)])
        self.assertEqual(len(disk.lba_status()), 64)
        self.assertEqual(len(disk.map()), 201)

    def test_a_part_of_a_block_is_not_written(self):
        with self.assertRaisesRegex(ValueError, "no whole blocks"):
            self.disks[0].write(0, b"abc")
        self.assertEqual(self.disks[0].map(), [Run(0, 10_000, False)])

    def test_refusals(self):
        with self.refused((5, 0x21, 0)):
            self.disks[0].read(9999, 2)
        with self.refused((5, 0x25, 0)):
            Disk(self.here, 9).read(0, 1)
        with self.refused((5, 0x20, 0)):
            self.here.execute(0, b"\xff" * 16)
        with self.refused((7, 0x27, 7)):
            self.disks[3].write(0, bytes(512 * 1501))
        with self.refused((5, 0x24, 0)):
            self.disks[0].status(77)

    def test_a_full_record(self):
        for _ in range(4):
            self.disks[4].read(0, 1)
        with self.assertRaises(TaskSetFull):
            self.disks[4].read(0, 1)
        self.assertEqual(self.disks[4].capacity().blocks, 100)

    def test_a_reservation(self):
        disk = self.disks[0]
        disk.register(0, 0x1234)
        disk.reserve(0x1234, 3)
        self.assertEqual(disk.keys(), (1, [0x1234]))
        self.assertEqual(disk.reservation(), (1, Reservation(0x1234, 3)))
        disk.write(0, bytes(512))
        with self.assertRaises(ReservationConflict):
            disk.release(0x1235, 3)
        with self.refused((5, 0x24, 0)):
            disk.release(0x1234, 1)
        disk.release(0x1234, 3)
        disk.preempt(0x1234, 0x1234, 1)
        disk.clear(0x1234)
        self.assertEqual(disk.keys(), (3, []))
        self.assertEqual(disk.reservation(), (3, None))

    def test_a_token_keeps_its_blocks(self):
        source, target = self.disks[:2]
        source.write(5, b"3" * 1024)
        token = source.populate([(6, 1), (5, 1)], timeout=60, list_id=9)
        self.assertEqual(source.token_information(9).token, token)
        self.assertEqual(source.status(9)[:2], (State.DONE, 2))
        source.write(5, b"4" * 1024)
        list_id = target.write_using_token(token, [(9, 1)], offset=1, delete=True)
        self.assertEqual(target.read(9, 1), b"3" * 512)
        self.assertEqual(target.status(list_id).count, 1)
        with self.refused((5, 0x23, 9)):
            target.write_using_token(token, [(9, 1)])

    def test_a_copy_in_the_background(self):
        source, target = self.disks[:2]
        source.write(0, b"x" * 512 * 4096)
        seen = []
        source.copy_to(target, 0, 100, 4100, seen.append)
        self.assertEqual((seen[-1], sorted(seen)), (4100, seen))
        self.assertEqual(target.map(), [Run(0, 100, False), Run(100, 4096, True), Run(4196, 5804, False)])

    def test_a_copy_of_extents(self):
        source, target = self.disks[:2]
        source.write(0, b"".join(bytes([1 + at]) * 512 for at in range(200)))
        seen, apart = [], [(2 * at, 1) for at in range(70)]
        source.copy_extents(target, apart, [(500, 3), (100, 67)], seen.append)
        self.assertEqual((seen[-1], sorted(seen)), (70, seen))
        self.assertEqual(target.read(500, 4)[::512], bytes([1, 3, 5, 0]))
        self.assertEqual(target.read(100, 67)[::512], bytes(range(7, 141, 2)))
        target.copy_extents(source, [(100, 67)], [(1000 - 3 * at, 1) for at in range(67)])
        self.assertEqual(source.read(802, 199)[::-512][::3], bytes(range(7, 141, 2)))

    def test_extents_that_are_no_copy(self):
        for extents, to_extents in [
            ([(0, 2)], [(0, 1)]),
            ([(0, 2), (1, 1)], [(0, 3)]),
            ([(0, 2)], [(5, 1), (5, 1)]),
            ([(0, 1), (2, 0)], [(0, 1)]),
            ([(2**64 - 1, 2)], [(0, 2)]),
            ([(0, 2**32), (2**40, 1)], [(0, 2**32), (2**40, 1)]),
            ([(2 * at, 1) for at in range(65_537)], [(0, 65_537)]),
        ]:
            with self.subTest(extents=extents[:2], to=to_extents), self.assertRaises(ValueError):
                self.disks[0].copy_extents(self.disks[1], extents, to_extents)
        self.assertEqual(self.disks[1].map(), [Run(0, 10_000, False)])

    def test_a_copy_that_meets_the_quota(self):
        self.disks[0].write(0, b"x" * 512 * 2048)
        with self.refused((7, 0x27, 7)):
            self.disks[0].copy_to(self.disks[3], 0, 0, 2048)
        self.assertEqual(self.disks[3].map()[0], Run(0, 1024, True))

    def test_a_copy_of_other_blocks_is_refused(self):
        with self.refused((5, 0x23, 2)):
            self.disks[0].copy_to(self.disks[2], 0, 0, 1)

    def test_a_copy_of_segments(self):
        source, target = self.disks[:2]
        source.write(0, b"".join(bytes([at]) * 512 for at in range(8)))
        list_id = source.extended_copy(target, [(0, 4, 2), (6, 0, 2)])
        self.assertEqual(target.read(4, 2), b"\0" * 512 + b"\1" * 512)
        self.assertEqual(target.read(0, 2), b"\6" * 512 + b"\7" * 512)
        self.assertEqual(source.copy_status(list_id), (State.DONE, 2, 2048))
        with self.refused((0x0A, 0x21, 0)):
            source.extended_copy(target, [(0, 9999, 2)])


class PlainReplays(Disks, PlainHost, unittest.TestCase):
    pass


class Programs(Disks, ProgramHost, unittest.TestCase):
    pass


class PlainConnections(Disks, PlainServedHost, unittest.TestCase):
    pass


class ProgramConnections(Disks, ProgramServedHost, unittest.TestCase):
    pass


class Replays:
    """What a program that replays has beside."""

    def test_an_abort_leaves_what_was_written(self):
        source, target = Disk(self.here, 0), Disk(self.here, 1)
        source.write(0, b"x" * 512 * 2048)
        token = source.populate([(0, 2048)])
        list_id = target.write_using_token(token, [(0, 2048)], background=True)
        self.assertTrue(target.status(list_id).is_running)
        self.here.let_work(1)
        target.abort(list_id)
        self.assertEqual(target.status(list_id)[:2], (State.TERMINATED, 1024))
        self.assertEqual(target.map(), [Run(0, 1024, True), Run(1024, 8976, False)])

    def test_a_token_expires(self):
        disk = Disk(self.here, 0)
        token = disk.populate([(0, 1)], timeout=10)
        self.here.moment = 11
        with self.assertRaisesRegex(CheckCondition, "token expired"):
            disk.write_using_token(token, [(1, 1)])

    def test_a_trace_that_was_kept_is_gone_on_with(self):
        disk = Disk(self.here, 0)
        disk.write(3, b"3" * 512 * 3000)
        disk.read(3, 3000)
        with Replay(program=[str(PLAIN_REPLAY)], trace=self.here.trace()) as again:
            self.assertEqual(Disk(again, 0).read(2, 2), bytes(512) + b"3" * 512)
            self.assertEqual(Disk(again, 0).map(), disk.map())

    def test_disks_of_two_hosts(self):
        with self.assertRaisesRegex(ValueError, "one host"):
            Disk(self.here, 0).copy_to(Disk(self.host(), 1), 0, 0, 1)


class PlainTraces(Replays, PlainHost, unittest.TestCase):
    def setUp(self):
        self.here = self.host()


class ProgramTraces(Replays, ProgramHost, unittest.TestCase):
    def setUp(self):
        self.here = self.host()


class Ends(unittest.TestCase):
    def test_a_program_that_ends(self):
        with self.assertRaisesRegex(Ended, "status 5: copymgr: bad header at byte 0"):
            Replay(trace=b"X" * 42, program=[str(PLAIN_REPLAY)])
        with self.assertRaisesRegex(Ended, "the program ended with status 0"):
            Replay(SHAPES, ["true"])

    def test_statuses(self):
        self.assertEqual(data_of(Reply(0, b"", b"data")), b"data")
        with self.assertRaises(Busy):
            data_of(Reply(8, b"", b""))
