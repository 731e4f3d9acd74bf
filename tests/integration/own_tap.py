"""A chip that has a TAP already, which somebody else wrote: the camera, and the register of its memories under it."""
from __future__ import annotations

import re
import shutil

from tests.integration.access import CAMERA, PLACED
from tests.integration.bench import Bench

# an instruction register of six bits, a hot one for each state, and the states by their numbers
TAP = """module own_tap(input tck, input tms, input tdi, input trst_n, output reg tdo, output reg tdo_en,
  output reset_n, output select, output capture, output shift, output update, input from_register);
  reg [3:0] at;
  reg [5:0] shifted, instruction;
  reg bypass;
  always @(posedge tck or negedge trst_n)
    if (!trst_n) at <= 4'd15;
    else
      case (at)
        4'd15: at <= tms ? 4'd15 : 4'd12;
        4'd12, 4'd5, 4'd13: at <= tms ? 4'd7 : 4'd12;
        4'd7: at <= tms ? 4'd4 : 4'd6;
        4'd6, 4'd2: at <= tms ? 4'd1 : 4'd2;
        4'd1: at <= tms ? 4'd5 : 4'd3;
        4'd3: at <= tms ? 4'd0 : 4'd3;
        4'd0: at <= tms ? 4'd5 : 4'd2;
        4'd4: at <= tms ? 4'd15 : 4'd14;
        4'd14, 4'd10: at <= tms ? 4'd9 : 4'd10;
        4'd9: at <= tms ? 4'd13 : 4'd11;
        4'd11: at <= tms ? 4'd8 : 4'd11;
        default: at <= tms ? 4'd13 : 4'd10;
      endcase
  assign reset_n = trst_n & at != 4'd15;
  assign select = instruction == 6'h2c;
  assign capture = at == 4'd6;
  assign shift = at == 4'd2;
  assign update = at == 4'd5;
  always @(posedge tck) begin
    if (at == 4'd14) shifted <= 6'd1;
    if (at == 4'd10) shifted <= {tdi, shifted[5:1]};
    if (at == 4'd6) bypass <= 1'b0;
    if (at == 4'd2) bypass <= tdi;
  end
  always @(negedge tck or negedge trst_n)
    if (!trst_n) instruction <= 6'h3f;
    else if (at == 4'd15) instruction <= 6'h3f;
    else if (at == 4'd13) instruction <= shifted;
  always @(negedge tck) begin
    tdo <= at == 4'd10 ? shifted[0] : select ? from_register : bypass;
    tdo_en <= at == 4'd10 || at == 4'd2;
  end
endmodule
"""
PORTS = "input tck,\n  input tms,\n  input tdi,\n  input trst_n,\n  output tdo,\n  output tdo_en"
OWN = (
    "own_tap own(.tck(tck), .tms(tms), .tdi(tdi), .trst_n(trst_n), .tdo(tdo), .tdo_en(tdo_en), .reset_n(reset_n),"
    " .select(select), .capture(capture), .shift(shift), .update(update), .from_register(from_register));\n"
)
WIRES = "  wire reset_n, select, capture, shift, update, from_register;\n  "
REGISTER = (
    "camera_register tap(.tck(tck), .reset_n(reset_n), .select(select), .capture(capture), .shift(shift),"
    " .update(update), .tdi(tdi), .tdo(from_register), .clk(clk), .test(in_test)"
)
# what is wrong between the TAP and the register, and whether the testbench tells it
WRONG = [
    (".select(select), .capture(capture), .shift(shift),\n", ".select(1'b1), .capture(capture), .shift(shift),\n"),
    (".tdo(from_register), .clk", ".tdo(), .clk"),
    (".capture(capture), .shift(shift), .update(update), .tdi(tdi), .tdo",
     ".capture(shift), .shift(capture), .update(update), .tdi(tdi), .tdo"),
    (".update(update), .tdi", ".update(capture), .tdi"),
    (".tdi(tdi), .tdo(from_register)", ".tdi(tms), .tdo(from_register)"),
    (".reset_n(reset_n), .select(select), .capture(capture), .shift(shift), .update(update), .tdi",
     ".reset_n(1'b0), .select(select), .capture(capture), .shift(shift), .update(update), .tdi"),
]


def chip(after: str) -> str:
    """The camera with its own TAP, and the register under it."""
    begin = after.index("  camera_tap tap(")
    end = after.index(".test(in_test)", begin) + len(".test(in_test)")
    return f"{TAP}{after[:begin]}{WIRES}{OWN}  {REGISTER}{after[end:]}"


def chip_before(before: str) -> str:
    """The camera as it was, with its own TAP."""
    head, _, rest = before.partition("module camera(")
    ports, _, body = rest.partition("\n);")
    wires = WIRES.replace("from_register", "unused")
    wires += OWN.replace("from_register(from_register)", "from_register(1'b0)")
    return f"{TAP}{head}module camera({ports},\n  {PORTS}\n);\n{wires}{body}"


def judged(bench: Bench) -> None:
    """The use of the chip is what it was, its test finds what is planted, and each wrong connection is told."""
    if not all(map(shutil.which, ("iverilog", "yosys"))):
        print("iverilog or yosys is not installed, so no register is tried under a TAP of somebody else's")
        return
    bench.run(["tools/top", CAMERA, *PLACED, "own", "--in-place"])
    done = bench.run(["tools/access", CAMERA, *PLACED, "own", "--in-place", "--under-tap"])
    bench.is_so(not done.returncode, f"--under-tap: {done.stderr}")
    call = "cd own && iverilog -g2012 -o reg -c camera_register.f && vvp -n reg && vvp -n reg +planted +unit=2 +bit=1"
    done = bench.run(["bash", "-c", call])
    is_so = done.stdout.count("camera_register_tb: passed") == 2 and "unit 2 cycle 9 expected 00" in done.stdout
    bench.is_so(is_so, f"the register by itself: {done.stdout}{done.stderr}")
    after = chip((bench.folder / "examples/in_place/camera.v").read_text())
    before = (bench.folder / "examples/in_place/camera_before.v").read_text()
    (bench.folder / "own_before.v").write_text(chip_before(before))
    text = (bench.folder / "examples/in_place/camera.places").read_text() + "under 6 2c\n"
    text = text.replace("examples/in_place/camera_before.v", "own_before.v")
    (bench.folder / "own.places").write_text(text.replace("examples/in_place/camera.v", "own_after.v"))
    looks(bench, after, True)
    flowed(bench)
    for old, new in WRONG:
        bench.is_so(after.count(old.strip()) > 0, f"{old!r} does not stand in the chip")
        looks(bench, after.replace(old.strip(), new.strip()), False)


def flowed(bench: Bench) -> None:
    """The makefile makes the register in place of a TAP, and the chip with its own TAP passes by it; the constraints
    are of the register."""
    if not shutil.which("make"):
        return
    words = [CAMERA, *PLACED, "own_flow", "--in-place", "--under-tap"]
    bench.run(["tools/flow", *words, "--places", "own.places"])
    make = ["make", "-s", f"LAUNCHER={bench.folder}/vidlakost", "SIM=iverilog", "-C", "own_flow"]
    done = bench.run([*make, "chip/access", "places/passed"])
    told = ("camera_register_tb: passed\n", "places: right: in use each memory", "camera: passes once more\n")
    is_so = not done.returncode and all(one in done.stdout for one in told)
    bench.is_so(is_so, f"the makefile of a chip with its own TAP: {done.stdout}{done.stderr}")
    bench.run(["tools/sdc", *words, "--mhz", "100", "--places", "own.places"])
    timed = (bench.folder / "own_flow/camera_test.sdc").read_text()
    bench.is_so("[get_ports {select capture shift update tdi}]" in timed, f"sdc --under-tap: {timed}")


def looks(bench: Bench, after: str, is_right: bool) -> None:
    """What the proof and the testbench say of a chip."""
    (bench.folder / "own_after.v").write_text(after)
    proved = bench.run(["tools/places", "own.places", CAMERA, *PLACED, "own"])
    call = "cd own && iverilog -g2012 -o tb -c camera_places.f && vvp -n tb && vvp -n tb +planted=left"
    done = bench.run(["bash", "-c", call])
    passes = not done.returncode and done.stdout.count("camera_places_tb: passed") == 2 and not proved.returncode
    told = re.sub(r"(?m)^.*each bit.*\n", "", f"{proved.stdout}{proved.stderr}{done.stdout}{done.stderr}")
    bench.is_so(passes == is_right, f"a chip with its own TAP, {'right' if is_right else 'wrong'}: {told[-600:]}")


PARTS = [judged]
