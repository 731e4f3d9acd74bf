"""The readers of BSDL, ICL, PDL, STIL and WGL, with texts that were written by hand."""
from __future__ import annotations

import dataclasses
import unittest

from vidlakost_tools.access import ijtag, network, standards, stil, tap_run, wgl
from vidlakost_tools.access.target import Target, Unit
from vidlakost_tools.in_place.sequencer import reading
from vidlakost_tools.tester_files import bsdl, icl, pdl, scan_path, stil as stil_reader, svf, wgl as wgl_reader
from vidlakost_tools.tester_files.cycles import Cycle, joined, listing
from vidlakost_tools.tester_files.retarget import Session
from vidlakost_tools.texts.memory import Memory
from vidlakost_tools.tool import ToolError

# two bits behind one segment insertion bit, which stands in front of them
SMALL = """
Module two { ScanInPort si; SelectPort sel; ScanOutPort so { Source r[0]; }
  ScanRegister r[1:0] { ScanInSource si; CaptureSource in; ResetValue 2'b00; }
  DataInPort in[1:0]; Alias low = r[0]; Alias turned[1:0] = r[0], r[1];
}
Module sib { ScanInPort si; SelectPort sel; ScanOutPort so { Source way; } ScanInPort back; ScanOutPort on { Source b; }
  ToSelectPort to_sel { Source b; } ScanInterface client { Port si; Port so; Port sel; }
  ScanRegister b { ScanInSource si; CaptureSource b; ResetValue 1'b0; }
  ScanMux way SelectedBy b { 1'b0 : b; 1'b1 : back; }
}
Module net { ScanInPort si; SelectPort sel; ScanOutPort so { Source s.so; }
  ScanInterface client { Port si; Port so; Port sel; }
  Instance s Of sib { InputPort si = si; InputPort sel = sel; InputPort back = t.so; }
  Instance t Of two { InputPort si = s.on; InputPort sel = s.to_sel; }
}
Module top { ScanInPort tdi; ScanOutPort tdo { Source n.so; } Instance n Of net;
  AccessLink a Of STD_1149_1_2001 { BSDLEntity chip; NET { ScanInterface { n.client; } } }
}
"""
ENTITY = """entity chip is generic (PHYSICAL_PIN_MAP : string := "M");
port (TCK, TMS, TDI : in bit; TDO : out bit); use STD_1149_1_2001.all;
attribute COMPONENT_CONFORMANCE of chip : entity is "STD_1149_1_2001";
attribute PIN_MAP of chip : entity is PHYSICAL_PIN_MAP;
constant M : PIN_MAP_STRING := "TCK : 1, TMS : 2, " & "TDI : 3, TDO : 4";
attribute TAP_SCAN_IN of TDI : signal is true; attribute TAP_SCAN_MODE of TMS : signal is true;
attribute TAP_SCAN_OUT of TDO : signal is true; attribute TAP_SCAN_CLOCK of TCK : signal is (1.0e6, LOW);
attribute INSTRUCTION_LENGTH of chip : entity is 2;
attribute INSTRUCTION_OPCODE of chip : entity is "EXTEST (00), SAMPLE (01), PRELOAD (01), NET (10), BYPASS (11)";
attribute INSTRUCTION_CAPTURE of chip : entity is "01";
attribute REGISTER_ACCESS of chip : entity is "NETREG[1] (NET)";
attribute BOUNDARY_LENGTH of chip : entity is 1;
attribute BOUNDARY_REGISTER of chip : entity is "0 (BC_1, *, internal, X)";
end chip;
"""
PROCEDURES = """iPDLLevel 0 -version STD_1687_2014
iProcsForModule two
iProc set { } {
  iWrite turned 0b01
  iRead low 1; iApply
  iRunLoop 3 -tck
}
"""


def shifted(bits: str, compared: str) -> list[Cycle]:
    """A scan of the data register, the first bit first, as the figure of the states of a TAP has it."""
    cycles = [Cycle(1, 0, 1, "X"), Cycle(0, 0, 1, "X", 2)]
    last = len(bits) - 1
    cycles += [Cycle(int(place == last), int(bit), 1, told) for place, (bit, told) in enumerate(zip(bits, compared))]
    return [*cycles, Cycle(1, 0, 1, "X"), Cycle(0, 0, 1, "X")]


class Retargeting(unittest.TestCase):
    def test_the_path_opens(self) -> None:
        modules = icl.read(SMALL)
        state: dict[scan_path.Bit, int] = {(("n", "s"), "b", 0): 0, **{(("n", "t"), "r", bit): 0 for bit in (0, 1)}}
        self.assertEqual(scan_path.path(modules, "top", "NET", state), [(("n", "s"), "b", 0)])
        state[(("n", "s"), "b", 0)] = 1
        inner = [(("n", "t"), "r", 0), (("n", "t"), "r", 1), (("n", "s"), "b", 0)]
        self.assertEqual(scan_path.path(modules, "top", "NET", state), inner)

    def test_a_write_of_a_turned_alias(self) -> None:
        """The instruction 10, its lowest bit first; a scan of one bit that opens; then r[0], r[1] and the bit, which
        stays 1."""
        session = Session(icl.read(SMALL), bsdl.read(ENTITY))
        found = list(session.run(pdl.read(PROCEDURES), "two", "set"))
        to_instruction = [Cycle(1, 0, 1, "X", 2), Cycle(0, 0, 1, "X", 2), Cycle(0, 0, 1, "X"), Cycle(1, 1, 1, "X")]
        instruction = [*to_instruction, Cycle(1, 0, 1, "X"), Cycle(0, 0, 1, "X")]
        wanted = [*instruction, *shifted("1", "0"), *shifted("011", "1X1"), Cycle(0, 0, 1, "X", 3)]
        self.assertEqual(list(joined(found)), list(joined(wanted)))

    def test_a_call_gives_what_is_written_and_read(self) -> None:
        """The same cycles as with the numbers in the text."""
        text = PROCEDURES.replace("set { }", "set { first second }")
        text = text.replace("0b01", "$first").replace("low 1", "low $second")
        found = [
            list(Session(icl.read(SMALL), bsdl.read(ENTITY)).run(pdl.read(told), "two", "set", *given))
            for told, given in ((text, ("0b01", "1")), (PROCEDURES, ()))
        ]
        self.assertEqual(found[0], found[1])
        session = Session(icl.read(SMALL), bsdl.read(ENTITY))
        for given in ((), ("1",), ("1", "$first"), ("1", "1", "1"), ("7", "1")):
            with self.assertRaises(ToolError, msg=given):
                list(session.run(pdl.read(text), "two", "set", *given))
        for new in ("{ first }", "{ first first }", "{ 1st second }", "first second"):
            with self.assertRaises(ToolError, msg=new):
                pdl.read(text.replace("{ first second }", new))

    def test_a_length_that_bsdl_does_not_tell(self) -> None:
        with self.assertRaisesRegex(ToolError, "has 1 bits by ICL"):
            Session(icl.read(SMALL), bsdl.read(ENTITY.replace("NETREG[1]", "NETREG[3]")))

    def test_a_run_in_svf(self) -> None:
        """A reset, an instruction of two bits, a scan of three of which the middle one is compared, and both kinds of
        waits: two microseconds are 14 cycles at 7 MHz, and half of one is 3.5."""
        text = "! one\nTRST OFF;\nSTATE RESET;\nSTATE IDLE;\nSIR 2 TDI (2);\nSDR 3 TDI (5) TDO (2) MASK (2);\n"
        found = svf.read(text + "RUNTEST IDLE 3 TCK;\nRUNTEST IDLE 2.0E-06 SEC;\nRUNTEST IDLE 5E-7 SEC;\n", 7.0)
        wanted = [Cycle(1, 0, 0, "X"), Cycle(1, 0, 1, "X", 5), Cycle(0, 0, 1, "X"), Cycle(1, 0, 1, "X", 2)]
        wanted += [Cycle(0, 0, 1, "X", 2), Cycle(0, 0, 1, "X"), Cycle(1, 1, 1, "X"), Cycle(1, 0, 1, "X")]
        wanted += [Cycle(0, 0, 1, "X"), *shifted("101", "X1X"), Cycle(0, 0, 1, "X", 3 + 14 + 4)]
        self.assertEqual(list(joined(found)), list(joined(wanted)))
        for old, new in (("SIR 2", "SIR 1"), ("MASK (2)", "MASK (8)"), ("STATE IDLE;\n", ""), ("SDR", "SDQ")):
            with self.assertRaises(ToolError, msg=new):
                svf.read(text.replace(old, new), 7.0)
        with self.assertRaisesRegex(ToolError, "semicolon"):
            svf.read(text.rstrip(";\n"), 7.0)

    def test_what_is_no_icl(self) -> None:
        for old, new in (
            ("Source r[0]", "Source r[1]"), ("Source way", "Source ways"), ("r[1:0] {", "r[2:0] {"),
            ("2'b00", "2'b100"), ("InputPort sel = s.to_sel", "InputPort sel = s.so"), ("back = t.so", "back = t.si"),
            ("Of two {", "Of three {"), ("1'b1 : back;", ""), ("Alias low = r[0]", "Alias low = r"),
            ("Instance n Of net;", ""), ("Module two", "Modul two"),
            ("ScanOutPort so { Source r[0]; }", "ScanOutPort so;"),
            ("{ Port si; Port so; Port sel; }", "{ Port si; Port so; Port x; }"),
        ):
            self.assertIn(old, SMALL)
            with self.assertRaises(ToolError, msg=new):
                icl.read(SMALL.replace(old, new, 1))

    def test_what_is_no_pdl(self) -> None:
        for old, new in (
            ("iPDLLevel 0", "iPDLLevel 1"), ("0b01", "0b012"), ("iApply", "iApply now"), ("-tck", "-sck"),
            ("}\n", "\n"), ("iWrite", "iSet"),
        ):
            with self.assertRaises(ToolError, msg=new):
                pdl.read(PROCEDURES.replace(old, new, 1))

    def test_what_is_no_bsdl(self) -> None:
        bsdl.read(ENTITY.lower())
        for old, new in (
            ("NET (10)", "NET (01)"), ("NET (10)", "NET (1)"), ("(11)", "(10)"), ('"01"', '"00"'),
            ("[1] (NET)", "[1] (NIL)"), ("TDO : 4", "TDO : 3"), ("TDO : out", "TDO : in"), ("is 2;", "is 3;"),
            ("end chip", "end"), ("0 (BC_1", "1 (BC_1"),
        ):
            self.assertIn(old, ENTITY)
            with self.assertRaises(ToolError, msg=new):
                bsdl.read(ENTITY.replace(old, new))


class Waits(unittest.TestCase):
    def test_the_first_failure_is_read_in_the_wait(self) -> None:
        """A bit takes 16 cycles at most, and a failure of 70 bits has 32 + 2 * 70. At 4 MHz 100 cycles and 16 take 29
        microseconds, and one more is waited: 300 cycles of a TCK of 10 MHz."""
        self.assertEqual(reading(32 + 2 * 70), 16 * (32 + 140 + 1))
        self.assertEqual(tap_run.waiting(100, 4.0, 10.0), 300 + 16)
        self.assertEqual(tap_run.waiting(100, None, 10.0), 116)


class Runs(unittest.TestCase):
    def setUp(self) -> None:
        memory = Memory("m", words=4, bits=4, latency=2, polarity=5, pause=3, rows=None, backgrounds=[0, 0xA])
        self.target: Target = Target.of_memory(memory, 41)

    def test_stil_and_wgl_have_the_steps_of_the_run(self) -> None:
        for target in (self.target, dataclasses.replace(self.target, has_sib=True, depth=3, identity=0x2468ACE1)):
            tdo = {"L": "0", "H": "1", "X": "X"}
            wanted = [Cycle(it.tms, it.tdi, it.trst_n, tdo[it.tdo], it.times) for it in tap_run.vectors(target)]
            self.assertEqual(stil_reader.read(stil.stil(target)), wanted)
            self.assertEqual(wgl_reader.read(wgl.wgl(target)), wanted)

    def test_the_first_cycles_of_a_run(self) -> None:
        """A reset, five cycles with TMS at 1, the instruction 0010 from its lowest bit on, and 32 bits of which the
        lowest is 1."""
        text = listing(joined(stil_reader.read(stil.stil(self.target)))).splitlines()
        begins = ["1 0 0 x 1", "1 0 1 x 5", "0 0 1 x 1", "1 0 1 x 2", "0 0 1 x 3", "0 1 1 x 1", "0 0 1 x 1"]
        self.assertEqual(text[:9], [*begins, "1 0 1 x 2", "0 0 1 x 1"])
        self.assertEqual(text[9:12], ["1 0 1 x 1", "0 0 1 x 2", "0 0 1 1 1"])

    def test_a_run_of_two_words_is_spoilt(self) -> None:
        text = stil.stil(self.target)
        spoilt = [("STIL 1.0", "STIL 9"), ("tck + tms", "tms + tck"), ("P1", "Q1"), ("Loop 5 {", "Loop 5 ")]
        spoilt += [("\n}\n", "\n")]
        for old, new in spoilt:
            with self.assertRaises(ToolError, msg=old):
                stil_reader.read(text[::-1].replace(old[::-1], new[::-1], 1)[::-1])
        self.assertNotEqual(stil_reader.read(text.replace("Loop 57", "Loop 56")), stil_reader.read(text))

    def test_names_and_lengths_of_the_network(self) -> None:
        target = dataclasses.replace(self.target, has_sib=True, depth=3)
        self.assertEqual(network.segments(target), ["log", "bist"])
        self.assertIn("BISTREG[2] (BIST)", standards.bsdl(target))
        names = {f"m_{part}" for part in ("register", "log_register", "sib", "network", "tap")}
        self.assertEqual(set(icl.read(ijtag.icl(target))), names)
        plain = dataclasses.replace(self.target, depth=3)
        self.assertEqual(set(icl.read(ijtag.icl(plain))["m_tap"].links), {"BIST", "LOG"})
        self.assertNotIn("sib", standards.bsdl(plain) + ijtag.icl(plain) + standards.svf(plain, None))

    def test_the_first_failure_of_each_memory(self) -> None:
        """Four digits of state, the cycle, two words, the unit and three fails stand below the highest part, ignore."""
        memories = [dataclasses.replace(self.target.units[0].memory, name=name) for name in "abc"]
        units = [Unit(memory, f"_{number}") for number, memory in enumerate(memories)]
        target = dataclasses.replace(Target("m", "m", units, True, 41), each=True)
        size = 4 + 32 + 2 * 4 + 2 + 3 + 3
        self.assertEqual(network.choosing(target, size), "{ignored, 49'd1}")
        behind = dataclasses.replace(target, has_sib=True)
        self.assertEqual(network.choosing(behind, size), "{1'd1, ignored, 49'd1}")
        self.assertEqual(network.choosing(dataclasses.replace(behind, depth=3), size), "{2'd1, ignored, 49'd1}")
        told = icl.read(ijtag.icl(behind))
        parts = told["m_register"].aliases["ignore"][1]
        self.assertEqual([(part.name, part.bits) for part in parts], [("data", (51, 49))])
        self.assertEqual(pdl.read(ijtag.pdl(behind))["m_register"]["read_first"].arguments, ["others"])
        self.assertIn("behind done it may change", ijtag.icl(behind))
        plain = dataclasses.replace(behind, each=False)
        self.assertNotIn("read_first", ijtag.pdl(plain))
        self.assertIn("it stays as it is while start is 1", ijtag.icl(plain))


if __name__ == "__main__":
    unittest.main()
