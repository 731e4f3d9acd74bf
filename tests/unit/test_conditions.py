"""Sources with conditions: what is left is what Icarus' own preprocessor leaves."""
from __future__ import annotations

import pathlib
import random
import subprocess
import tempfile
import unittest

from tests.unit.controllers import needs
from vidlakost_tools.tool import ToolError
from vidlakost_tools.verilog.conditions import asked_in, taken

NAMES = ("A", "B", "C")


def branches(chosen: random.Random, depth: int) -> list[str]:
    """Some lines with conditions in one another, and words that tell the branches apart."""
    lines: list[str] = []
    for _ in range(chosen.randint(1, 3)):
        lines.append(f"w{chosen.randrange(1000)}")
        what = chosen.choice(("define", "undef", "ifdef", "ifndef", "`not /* `else"))
        if what.startswith("`"):
            lines.append("/* `ifdef A `else */ // `endif")
        elif what in ("define", "undef"):
            lines.append(f"`{what} {chosen.choice(NAMES)}")
        elif depth < 4:
            lines += [f"`{what} {chosen.choice(NAMES)} x{chosen.randrange(1000)}", *branches(chosen, depth + 1)]
            for _ in range(chosen.randrange(3)):
                lines += [f"`elsif {chosen.choice(NAMES)}", *branches(chosen, depth + 1)]
            lines += ["`else", *branches(chosen, depth + 1)] if chosen.random() < 0.5 else []
            lines.append("`endif")
    return lines


def words(text: str) -> list[str]:
    """The words that tell branches apart."""
    return [word for word in text.split() if word[0] in "wx" and word[1:].isdigit()]


class Conditions(unittest.TestCase):
    def test_by_hand(self) -> None:
        text = "a\n`ifdef P b\n`elsif Q // `else\nc `ifndef Q d `else e `endif\n`else f\n`endif\ng"
        for defined, left in (("", "a f g"), ("P", "a b g"), ("Q", "a // `else c e g"), ("P Q", "a b g")):
            self.assertEqual(" ".join(taken("a.v", text, defined.split()).split()), left, defined)

    def test_lines_keep_their_numbers(self) -> None:
        text = "`ifdef P\nno\n`define Q\n/*\n`else*/`endif\nhere\n"
        self.assertEqual(taken("a.v", text).split("\n")[5], "here")
        self.assertEqual(taken("a.v", text).strip(), "here")

    def test_a_mark_that_means_nothing(self) -> None:
        for text in ('"`ifdef"', "/* `ifdef P */", "// `else", "\\`endif ", "`define P `ifdef \\\n `endif", "`ifdefs"):
            self.assertEqual(taken("a.v", text), text)

    def test_what_is_not_closed(self) -> None:
        for text, told in (
            ("\n`else\n", "a.v:2: `else without a begin"),
            ("`endif", "a.v:1: `endif without a begin"),
            ("`ifdef\n P `endif", "a.v:1: `ifdef without a plain name"),
            ("`ifdef (P && Q)\n`endif", "a.v:1: `ifdef without a plain name"),
            ("`ifdef P\n`else\n", "a.v:3: a condition has no `endif"),
        ):
            with self.assertRaises(ToolError) as refused:
                taken("a.v", text)
            self.assertEqual(str(refused.exception), told)

    def test_names_that_are_asked_for(self) -> None:
        text = "`ifdef P `ifndef Q // `ifdef R\n`elsif S `endif `else `define T `ifdef U\n`endif `ifdef P `endif"
        self.assertEqual(asked_in(text), ["P", "Q", "S"])

    def test_long_texts_are_read_once(self) -> None:
        for text in ("/* x ", '" ', "`define A \\\n", "`ifdef A ", "`ifdef A\n`else\n`endif\n"):
            try:
                taken("a.v", text * 100000)
            except ToolError as error:
                self.assertIn("has no `endif", str(error))

    @needs("iverilog")
    def test_as_icarus_reads_it(self) -> None:
        with tempfile.TemporaryDirectory() as name:
            source, out = pathlib.Path(name) / "a.v", pathlib.Path(name) / "out.v"
            for seed in range(60):
                chosen = random.Random(seed)
                source.write_text("\n".join(branches(chosen, 0)) + "\n")
                defined = [word for word in NAMES if chosen.random() < 0.4]
                options = [f"-D{word}" for word in defined]
                subprocess.run(["iverilog", "-E", *options, "-o", str(out), str(source)], check=True)
                self.assertEqual(words(taken("a.v", source.read_text(), defined)), words(out.read_text()), seed)


if __name__ == "__main__":
    unittest.main()
