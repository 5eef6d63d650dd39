"""What tools/proofs/headline prints: of a small made-up repository, and of this one."""

import pathlib
import tempfile
import unittest
import unittest.mock

from . import support
from definitions.telling import Headline
from definitions.tree import Tree

CRATES = "low: bytes\nhigh: low bytes\n"

PAINT = """\
use crate::shop::Shop;

/// A colour.
#[derive(Drop)]
pub enum Colour {
    Red,
    /// Of two.
    Mixed(Can),
    Shop,
}

/// A can of paint.
pub struct Can {
    hidden: Secret,
}

struct Secret;

/// What gives paint.
pub trait Giver {
    // what is left
    ghost left: { Self → ℕ };

    /// Gives some.
    fn give(&mut self) -> Colour
        ensures { left self.new ≡ left self.old };
}
"""

SHOP = """\
use crate::paint::{Can, Colour, Giver};

/// Nobody's.
pub struct Shop {
    colour: u8,
}

impl Model for Can {
    ghost use Rattle.low.specs.Pots.{Pot, tight};

    ghost Value = { Pot };

    ghost view = { λ c. record { litres = c.hidden } };

    ghost invariant = { λ c. tight c.hidden };
}

impl Giver for Can {
    ghost use Rattle.low.specs.Pots.{spilt, dripped};

    ghost left = { λ c. spilt };

    fn give(&mut self) -> Colour
        ensures drips { dripped }
    {
        Colour::Red
    }
}
"""

POTS = """\
-- Pots of paint
use Rattle.std.specs.Prelude.{ℕ, suc, List, [], ◌∷◌, ◌+◌, map, length}
use Rattle.low.specs.declared.paint.Colour.{Colour}

-- how many litres, of what
pub record Pot : Type 0 where
  pub litres : ℕ
  pub colour : Colour

-- ---- how much

-- all of it
-- and a spare one
abbrev pub in-all : List Pot → ℕ
in-all pots = length (map (λ (lone : Pot). lone.litres) pots) + spare

abbrev pub spare : ℕ
spare = 1

abbrev pub tight : ℕ → ℕ
tight n = n

-- it binds what it seems to name
abbrev pub bound : ℕ → (lone : ℕ) → Pot
bound lone tight =
    let unused = lone in
    record { litres = unused; colour = Colour.Red }

abbrev pub lone : ℕ
lone = 2

abbrev pub unused : ℕ
unused = lone

abbrev pub tried : ℕ
tried = 3

abbrev pub spilt : ℕ
spilt = 4

abbrev pub dripped : ℕ
dripped = 5

-- where a pot stands
pub data Shelf : Type 0 where
  High : Shelf
  Low : Pot → Shelf

module _ {T : Type 0} where
  -- a shelf's number
  abbrev pub number : T → Shelf → ℕ
  number t High = 0
  number t (Low pot) = pot.litres
"""

PAINTS = """\
-- What is painted
use Rattle.low.specs.Pots as pots
use Rattle.low.specs.Pots.{High, number}
use Rattle.std.specs.Prelude.{ℕ, List, [], ◌≡◌}

-- so much is painted
abbrev pub IsPainted : List ℕ → ℕ → Type 0
IsPainted walls litres = pots.in-all [] ≡ number litres High

abbrev pub painted_so : ℕ
painted_so = 0
"""

HIGH = """\
ghost use Rattle.std.specs.Prelude.{◌≡◌};
ghost use Rattle.high.specs.Paints.{IsPainted, painted_so};
ghost use Rattle.low.specs.Pots.{bound};

use low::{Colour, Giver};

#[cfg(test)]
mod tests;

pub use bytes::Bytes;

/// Paints walls.
pub fn paint<G: Giver>(
    giver: &mut G,
    painted_so: u64,
) -> Colour
    requires some { painted_so ≡ G.left giver.old }
    ensures { IsPainted [] painted_so }
{
    inner(giver)
}

fn inner() -> u64
    ensures { result ≡ painted_so }
{
    7
}

/// Mixes.
pub fn mix_law()
    ensures { bound 1 2 ≡ bound 2 1 }
{}
"""

FILES = {
    "crates.txt": CRATES,
    "crates/low/src/lib.rt": "mod paint;\nmod shop;\n\npub use paint::{Can, Colour, Giver};\n",
    "crates/low/src/paint.rt": PAINT,
    "crates/low/src/shop.rt": SHOP,
    "crates/low/specs/Lib.antt": "pub mod Pots\n",
    "crates/low/specs/Pots.antt": POTS,
    "crates/low/proofs/Lemmas.antt": "use Rattle.low.specs.Pots as p\n\nlemma : p.unused ≡ 2\nlemma = ?\n",
    "crates/high/src/lib.rt": HIGH,
    "crates/high/src/tests.rt": "ghost use Rattle.low.specs.Pots.{tried};\n",
    "crates/high/specs/Lib.antt": "pub mod Paints\n",
    "crates/high/specs/Paints.antt": PAINTS,
}


def names(items):
    return {item.name for item in items}


class MadeUp(unittest.TestCase):
    def setUp(self):
        folder = tempfile.TemporaryDirectory()
        self.addCleanup(folder.cleanup)
        top = pathlib.Path(folder.name)
        for path, text in FILES.items():
            (top / path).parent.mkdir(parents=True, exist_ok=True)
            (top / path).write_text(text, encoding="utf-8")
        self.tree = Tree(top)

    def headline(self, crate="high", name="paint"):
        return Headline(self.tree, self.tree.clauses(crate, name))

    def test_what_the_clauses_reach(self):
        reached = self.headline().reached
        self.assertEqual(
            names(reached),
            {"Colour", "Can", "Giver", "Pot", "in-all", "spare", "Shelf", "number", "IsPainted"},
        )

    def test_what_a_definition_binds_is_not_reached(self):
        self.assertEqual(names(self.headline(name="mix_law").reached), {"bound", "Pot", "Colour", "Can"})

    def test_functions_are_named_by_patterns(self):
        self.assertEqual(names(self.tree.clauses("high", "*_law")), {"mix_law"})
        self.assertEqual(self.tree.clauses("high", "inner"), [])

    def test_methods_are_named_by_their_type(self):
        self.assertEqual(names(self.tree.clauses("low", "Can::*")), {"give"})
        self.assertEqual(self.tree.clauses("low", "Shop::give") + self.tree.clauses("low", "give"), [])
        self.assertIn("dripped", names(self.headline("low", "Can::give").reached))

    def test_the_reading_order(self):
        text = "\n".join(self.headline().text())
        order = [
            "/// Paints walls.\npub fn paint<G: Giver>(\n", "    ensures { IsPainted [] painted_so }\n",
            "==== crates/low/src/paint.rt\n\n/// A colour.\npub enum Colour {\n    Red,\n    /// Of two.\n",
            "\n/// A can of paint.\npub struct Can // contracts see Pot\n", "\npub trait Giver {\n",
            "==== crates/low/specs/Pots.antt: Pots of paint\n\n-- how many litres, of what\npub record Pot",
            "\n-- ---- how much\n\n-- all of it\n-- and a spare one\nabbrev pub in-all",
            "\n-- a shelf's number\nabbrev pub number : T → Shelf → ℕ\nnumber t High = 0\n",
            "==== crates/high/specs/Paints.antt: What is painted\n\n-- so much is painted\n",
            "\nRattle.std.specs.Prelude: List, [], length, map, ℕ, ◌+◌, ◌≡◌\n",
        ]
        places = [text.find(part) for part in order]
        self.assertNotIn(-1, places)
        self.assertEqual(places, sorted(places))
        self.assertNotIn("hidden", text)
        self.assertNotIn("inner(giver)", text)

    def test_the_numbers(self):
        self.assertEqual(
            self.headline().table(),
            [
                "number  lines  file",
                "     3     18  crates/low/src/paint.rt",
                "     5     18  crates/low/specs/Pots.antt",
                "     1      3  crates/high/specs/Paints.antt",
                "",
                "6 definitions: 21 lines; 0 of them on bytes: 0 lines; 3 types of code: 18 lines; 1 functions with the clauses: 7 lines",
            ],
        )

    def test_what_lays_out_bytes(self):
        with unittest.mock.patch("definitions.telling.LAYOUTS", {"low"}):
            self.assertIn("; 5 of them on bytes: 18 lines; ", self.headline().total())

    def test_names_that_stand_twice(self):
        self.assertEqual(self.headline().twice(), ["", "0 names stand twice, of 9"])
        path = self.tree.top / "crates/high/specs/Paints.antt"
        path.write_text(path.read_text(encoding="utf-8").replace("IsPainted", "Pot"), encoding="utf-8")
        code = self.tree.top / "crates/high/src/lib.rt"
        code.write_text(code.read_text(encoding="utf-8").replace("IsPainted", "Pot"), encoding="utf-8")
        self.tree = Tree(self.tree.top)
        self.assertEqual(self.headline().twice()[0], "Pot: crates/low/specs/Pots.antt, crates/high/specs/Paints.antt")

    def test_long_ones_and_those_without_a_sentence(self):
        path = self.tree.top / "crates/low/specs/Pots.antt"
        path.write_text(POTS.replace("spare = 1\n", "spare =\n" + "    1 +\n" * 14 + "    1\n"), encoding="utf-8")
        self.tree = Tree(self.tree.top)
        self.assertEqual(
            self.headline().long(),
            [
                "17 lines: spare (crates/low/specs/Pots.antt)",
                "no sentence: spare (crates/low/specs/Pots.antt)",
                "",
                "1 longer than 15 lines, 1 without a sentence, of 9",
            ],
        )

    def test_inner_definitions_that_are_reached(self):
        inner = self.tree.top / "crates/high/specs/inner"
        inner.mkdir()
        paints = self.tree.top / "crates/high/specs/Paints.antt"
        (inner / "Paints.antt").write_text(paints.read_text(encoding="utf-8"), encoding="utf-8")
        code = self.tree.top / "crates/high/src/lib.rt"
        text = code.read_text(encoding="utf-8")
        code.write_text(text.replace("high.specs.Paints", "high.specs.inner.Paints"), encoding="utf-8")
        self.tree = Tree(self.tree.top)
        self.assertIn("crates/high/specs/inner/Paints.antt: IsPainted", self.headline().misplaced())

    def test_what_another_crate_names(self):
        code = self.tree.top / "crates/high/src/lib.rt"
        code.write_text("ghost use Rattle.low.specs.Pots.{tight};\n" + code.read_text(encoding="utf-8"), encoding="utf-8")
        self.assertTrue(any("tight" in line for line in self.headline().unreached()))
        self.tree = Tree(self.tree.top)
        self.assertFalse(any("tight" in line for line in self.headline().unreached()))

    def test_what_no_public_clause_reaches(self):
        self.assertEqual(
            self.headline().unreached(),
            [
                "low: 4 definitions, 8 lines",
                "  crates/low/specs/Pots.antt, named inside the crate: tight",
                "  crates/low/specs/Pots.antt, named in proofs alone: lone, unused",
                "  crates/low/specs/Pots.antt, named in tests alone: tried",
                "high: 1 definitions, 2 lines",
                "  crates/high/specs/Paints.antt, named inside the crate: painted_so",
                "",
                "10 lines of definitions that no public clause reaches, nor the code of another crate",
            ],
        )


class Here(unittest.TestCase):
    """This repository."""

    @classmethod
    def setUpClass(cls):
        cls.tree = Tree(support.TOP)
        script = support.tool("headline")
        cls.headline = Headline(cls.tree, script.roots(cls.tree, script.CLAUSES))
        cls.reached = {(item.file.path, item.name) for item in cls.headline.reached}

    def test_what_is_reached(self):
        for path, name in [
            ("crates/trace_replay/specs/Played.antt", "played"),
            ("crates/trace_replay/specs/ReplayState.antt", "after_item"),
            ("crates/cm_history/specs/Answers.antt", "answer_after"),
            ("crates/cm_history/specs/Laws.antt", "TokenPromise"),
            ("crates/cm_history/specs/Laws.antt", "CountPromise"),
            ("crates/cm_history/src/act.rt", "Act"),
            ("crates/cm_base/src/source.rt", "Source"),
            ("crates/scsi_cdb/specs/Decoded.antt", "plain_rows"),
        ]:
            self.assertIn((path, name), self.reached)

    def test_what_is_not_reached(self):
        for path, name in [
            ("crates/trace_replay/specs/inner/Counting.antt", "with_item"),
            ("crates/unit_core/specs/inner/Agreeing.antt", "TablesAgree"),
            ("crates/lba_ranges/specs/inner/HeldBlocks.antt", "items_of"),
        ]:
            self.assertIn(name, {item.name for file in self.tree.files if file.path == path for item in file.items})
            self.assertNotIn((path, name), self.reached)

    def test_all_that_is_imported_is_found(self):
        for file in self.tree.files:
            for path in file.imports.values() if file.is_specs else ():
                is_module = (path[1], True, path[3:]) in self.tree.by_module or "contracts" in path
                if self.tree.is_specs_path(path) and not is_module:
                    self.assertIsNotNone(self.tree.imported_item(path), (file.path, path))

    def test_helpers_stand_apart(self):
        self.assertEqual(self.headline.unreached()[-1], "0 lines of definitions that no public clause reaches, nor the code of another crate")
        self.assertEqual(self.headline.misplaced(), [])


class Wrong(unittest.TestCase):
    def test_wrong_use_is_one_line(self):
        for words in (["--bad"], ["cm_history::none"], ["none"], ["--long", "--count"]):
            output, said, status = support.run("headline", *words)
            self.assertEqual((output, status, said.count("\n")), (b"", 2, 1), words)


if __name__ == "__main__":
    unittest.main()
