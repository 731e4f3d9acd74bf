"""The reading of the definitions: each form of a definition, of a `use` and of a block, and that a changed edge is
noticed."""
from __future__ import annotations

import pathlib
import tempfile
import unittest

from vidlakost_tools.pages.spec_graph import Graph
from vidlakost_tools.pages.spec_reader import Key, imported, split_names
from vidlakost_tools.pages.trusted_pages import wrong_claims
from vidlakost_tools.tool import ToolError


class Uses(unittest.TestCase):
    def test_each_form(self) -> None:
        for line, wanted in (
            (
                "use Rattle.low.specs.Parts.{Half, Whole as All};",
                {"Half": ("low", "Parts", "Half"), "All": ("low", "Parts", "Whole")},
            ),
            ("use Rattle.low.specs.inner.Parts as P;", {"P": ("low", "inner.Parts", "")}),
            ("ghost use Rattle.low.specs.Parts.{Half};", {"Half": ("low", "Parts", "Half")}),
            ("pub use Rattle.low.specs.Parts.{Half};", {"Half": ("low", "Parts", "Half")}),
            ("unfoldable pub use Rattle.low.specs.Parts.{Half}", {"Half": ("low", "Parts", "Half")}),
            ("use Rattle.low.specs.declared.tree.Item.{Leaf};", {"Leaf": ("low", "declared.tree", "Item")}),
            ("use Rattle.low.specs.declared.tree.Item as Item;", {"Item": ("low", "declared.tree", "Item")}),
            ("use Rattle.low.specs.declared.tree.Item.TheVariants.{Leaf};", {"Leaf": ("low", "declared.tree", "Item")}),
            ("use Rattle.low.proofs.Parts.{half_fits};", {}),
            ("use Rattle.std.{Nat};", {}),
            ("use std::vec::Vec;", {}),
        ):
            self.assertEqual(dict(imported(line)), wanted, line)

    def test_names(self) -> None:
        self.assertEqual(list(split_names("a, b as c ,d")), [("a", "a"), ("b", "c"), ("d", "d")])
        self.assertEqual(list(split_names(None)), [])


LOW = """-- Trusted. What halves are.

use Rattle.std.{Nat};

-- A half.
Half : Nat → Prop
Half n = n ≤ 1

record Pair : Type where
  left : Nat
  right : Half left

data Kind : Type where
  one : Kind
  many : Nat → Kind

abbrev Twice : Nat → Prop
Twice n = Half n × Half n

mutual
  Even : Nat → Prop
  Even n = Odd n
  Odd : Nat → Prop
  Odd n = Even n × Half n

module _ (size : Nat) where
  Fits : Nat → Prop
  Fits n = Half n × Twice size
"""
HIGH = """-- Public. What uses halves.

use Rattle.low.specs.Parts.{Half as Part,
  Twice};
use Rattle.low.specs.Parts as Parts;

Uses : Nat → Prop
Uses n = Part n

Qualified : Nat → Prop
Qualified n = Parts.Even n

Shadows : (Twice : Nat) → Prop
Shadows Twice = Twice ≤ 1

Quotes : Nat → Prop
Quotes n = n ≡ "Twice"  -- Twice is a word of a comment here
"""
SOURCE = """ghost use Rattle.high.specs.Uses.{Uses};

pub struct Boxed {
    kind: Inner,
}

pub enum Inner {
    Leaf,
    Deep(Boxed),
}

pub fn shown(n: u32) -> bool
    ensures told { Uses n }
{
    true
}

fn hidden(n: u32) -> bool
    ensures kept { Uses n }
{
    true
}
"""


class Graphs(unittest.TestCase):
    def graph(self, **changed: tuple[str, str]) -> Graph:
        """The graph of two crates, where `low` or `high` has one text in place of another."""
        with tempfile.TemporaryDirectory() as name:
            root = pathlib.Path(name)
            texts = {"low": LOW, "high": HIGH, "source": SOURCE}
            for which, (old, new) in changed.items():
                self.assertIn(old, texts[which])
                texts[which] = texts[which].replace(old, new)
            for path, text in (
                ("low/specs/Parts.antt", texts["low"]),
                ("high/specs/Uses.antt", texts["high"]),
                ("low/src/lib.rt", "pub mod parts;\n"),
                ("high/src/lib.rt", "pub mod calls;\n"),
                ("high/src/calls.rt", texts["source"]),
            ):
                (root / "crates" / path).parent.mkdir(parents=True, exist_ok=True)
                (root / "crates" / path).write_text(text)
            return Graph(root)

    def uses(self, graph: Graph, name: str) -> list[str]:
        definition = next(one for one in graph.by_key.values() if name in one.names)
        return sorted(key.name for key in definition.uses)

    def test_each_form_of_a_definition(self) -> None:
        graph = self.graph()
        kinds = {one.key.name: (one.kind, one.names) for one in graph.by_key.values() if one.key.crate == "low"}
        self.assertEqual(
            kinds,
            {
                "Half": ("definition", ["Half"]),
                "Pair": ("record", ["Pair"]),
                "Kind": ("data", ["Kind", "one", "many"]),
                "Twice": ("definition", ["Twice"]),
                "Even": ("block", ["Even", "Odd"]),
                "Fits": ("block", ["Fits"]),
            },
        )
        for name, wanted in (
            ("Half", []),
            ("Pair", ["Half"]),
            ("Twice", ["Half"]),
            ("Even", ["Half"]),
            ("Fits", ["Half", "Twice"]),
        ):
            self.assertEqual(self.uses(graph, name), wanted, name)

    def test_comments_and_heads(self) -> None:
        graph = self.graph()
        self.assertEqual(graph.by_key[Key("low", "Parts", "Half")].comment, ["A half."])
        self.assertEqual({spec.name: spec.head for spec in graph.specs}["Uses"], ["Public. What uses halves."])

    def test_names_are_followed_as_they_are_imported(self) -> None:
        graph = self.graph()
        self.assertEqual(self.uses(graph, "Uses"), ["Half"])
        self.assertEqual(self.uses(graph, "Qualified"), ["Even"])

    def test_what_a_definition_binds_refers_to_nothing(self) -> None:
        graph = self.graph()
        self.assertEqual(self.uses(graph, "Shadows"), [])
        self.assertEqual(self.uses(graph, "Quotes"), [])

    def test_a_record_that_is_changed_in_a_type_binds_nothing(self) -> None:
        kind = "data Kind : Type where\n  one : Kind\n  many : Nat → Kind"
        many = "(p : Pair) → double p.left ≡ 1 → p ≡ record p { left = 0 } → Kind"
        graph = self.graph(
            low=(kind, kind.replace("data", "double : Nat → Nat\ndouble n = n\n\ndata").replace("Nat → Kind", many))
        )
        self.assertEqual(self.uses(graph, "Kind"), ["Pair", "double"])

    def test_clauses_of_public_calls(self) -> None:
        graph = self.graph()
        found = [(one.call, one.name) for one in graph.clauses]
        self.assertEqual(found, [("high::shown", "told")])
        self.assertEqual([key.name for key in graph.below(graph.clauses[0].uses)], ["Half", "Uses"])

    def test_a_clause_with_a_star_is_one(self) -> None:
        graph = self.graph(source=("ensures told { Uses n }", "ensures* told { Uses n }"))
        self.assertEqual(
            [(one.call, one.name, [key.name for key in one.uses]) for one in graph.clauses],
            [("high::shown", "told", ["Uses"])],
        )

    def test_declared_types_stand_on_their_parts(self) -> None:
        graph = self.graph()
        self.assertEqual(self.uses(graph, "Boxed"), ["Inner"])
        self.assertEqual(self.uses(graph, "Inner"), ["Boxed"])

    def test_a_changed_edge_is_noticed(self) -> None:
        for changed, name, wanted in (
            ({"high": ("Uses n = Part n", "Uses n = Twice n")}, "Uses", ["Twice"]),
            ({"high": ("Half as Part", "Pair as Part")}, "Uses", ["Pair"]),
            ({"low": ("Half n × Half n", "n ≤ 2")}, "Twice", []),
            ({"low": ("right : Half left", "right : Twice left")}, "Pair", ["Twice"]),
            ({"low": ("Even n × Half n", "Even n")}, "Even", []),
            ({"source": ("kind: Inner", "kind: u32")}, "Boxed", []),
        ):
            self.assertEqual(self.uses(self.graph(**changed), name), wanted, str(changed))
        clauses = self.graph(source=("ensures told { Uses n }", "ensures told { n ≤ 1 }")).clauses
        self.assertEqual([one.uses for one in clauses], [set()])

    def test_a_call_that_is_made_public(self) -> None:
        found = [one.call for one in self.graph(source=("fn hidden", "pub fn hidden")).clauses]
        self.assertEqual(found, ["high::shown", "high::hidden"])

    def test_no_part_of_a_definition_is_lost(self) -> None:
        for line in ("Half n = n ≤ 1", "  many : Nat → Kind", "  Odd n = Even n × Half n"):
            with self.assertRaises(ToolError, msg=line):
                self.graph(low=(line, f"-- ---- the rest\n{line}"))

    def test_claims_name_what_there_is(self) -> None:
        graph = self.graph(source=("fn hidden", "pub fn hidden"))
        for line, wanted in (
            ("- `high::shown` (`told`), with `hidden`: they show.", []),
            ("- `high::shown`, with `seen`: they show.", ["1: there is no public call seen beside high::shown"]),
            ("- `high::seen` and `high::hidden`: they show.", ["1: there is no public call high::seen"]),
            ("- `high::shown` (`told`, `heard`): it shows.", ["1: high::shown has no clause heard"]),
            ("- `shown`: it shows.", ["1: names no call"]),
            ("Of `seen` nothing is claimed.", []),
        ):
            self.assertEqual(wrong_claims(graph, line), wanted, line)


if __name__ == "__main__":
    unittest.main()
