"""The plan of a copy."""

import random
import unittest

from copymgr import plans


def blocks_of(ranges):
    """The block numbers of some ranges, in order."""
    return [lba + at for lba, count in ranges for at in range(count)]


def scattered(rng, extents, blocks):
    """So many extents in any order, of so many blocks at most each, of which none touch each other."""
    places = rng.sample(range(0, 4 * extents * (blocks + 1), blocks + 1), extents)
    return [(place, rng.randint(1, blocks)) for place in places]


class Plans(unittest.TestCase):
    def ends(self, extents, to_extents=None):
        total = sum(count for _, count in extents)
        found = plans.parts(extents, [(0, total)] * bool(total) if to_extents is None else to_extents)
        return [part.first + sum(count for _, count in part.ranges) for part in found]

    def test_worked_plans(self):
        self.assertEqual(self.ends([(2 * at, 1) for at in range(65)]), [64, 65])
        self.assertEqual(self.ends([(9, 1_048_577)]), [1_048_576, 1_048_577])
        self.assertEqual(self.ends([(at << 20, 16_384) for at in range(64)]), [1_048_576])
        self.assertEqual(self.ends([]), [])
        long = [(2 * at, 1) for at in range(64)] + [(1000, 2_000_000), (500, 100)]
        self.assertEqual(self.ends(long), [64, 1_048_640, 2_000_164])
        self.assertEqual(len(self.ends([(0, 2**32 - 1), (2**40, 1)])), 4096)

    def test_every_block_goes_where_it_belongs(self):
        rng = random.Random(1)
        for extents, to_extents in [(1, 200), (200, 1), (200, 70), (64, 64), (5, 130)]:
            source = scattered(rng, extents, 3 if extents > 5 else 200)
            total = sum(count for _, count in source)
            target, left = [], total
            while left:
                count = min(left, rng.randint(1, 3 if to_extents > 64 else 50))
                target.append((1000 * len(target), count))
                left -= count
            read, written = [], []
            for part in plans.parts(source, target):
                self.assertLessEqual(len(part.ranges), 64)
                self.assertEqual(part.first, len(read))
                read += blocks_of(part.ranges)
                for offset, ranges in part.writes:
                    self.assertLessEqual(len(ranges), 64)
                    self.assertEqual(part.first + offset, len(written))
                    written += blocks_of(ranges)
                self.assertEqual(len(written), len(read))
            self.assertEqual((read, written), (blocks_of(source), blocks_of(target)))

    def test_no_plan_has_fewer_parts(self):
        """By all ways to cut a few blocks, where a token has at most 5 blocks of 3 extents."""
        rng = random.Random(2)
        limits = plans.RANGES, plans.BLOCKS_OF_TOKEN
        self.addCleanup(lambda: (setattr(plans, "RANGES", limits[0]), setattr(plans, "BLOCKS_OF_TOKEN", limits[1])))
        plans.RANGES, plans.BLOCKS_OF_TOKEN = 3, 5
        for _ in range(300):
            source = scattered(rng, rng.randint(1, 9), rng.randint(1, 6))
            owners = [at for at, (_, count) in enumerate(source) for _ in range(count)]
            fewest = [0] + [None] * len(owners)
            for end in range(1, len(owners) + 1):
                fewest[end] = 1 + min(
                    fewest[first] for first in range(max(0, end - 5), end) if len(set(owners[first:end])) <= 3
                )
            self.assertEqual(len(self.ends(source)), fewest[-1], source)

    def test_pieces_in_one_extent_on_either_side(self):
        self.assertEqual(plans.moves([(0, 3), (9, 2)], [(50, 1), (40, 4)]), [(0, 50, 1), (1, 40, 2), (9, 42, 2)])
        self.assertEqual(plans.moves([], []), [])
