@@{mark}: every step of @@{name}, from @@{chip}
# make -j runs it, and its status is that of the whole; SIM is iverilog or verilator, LAUNCHER the command vidlakost. What is
# planted in the whole runs in PARTS at once. MORE is what a simulator is told besides, as a -D that a vendor's model wants,
# LINT_MORE what Verilator's lint is, and SYNTH_MORE what Yosys is as it reads. LIBERTY is the library to whose cells Yosys maps,
# MACRO_LIBERTY are those of the macros, for OpenSTA, and MHZ is the clock of the test.
ROOT := @@{root}
OUT := @@{out}
LAUNCHER ?= vidlakost
SIM ?= $(if $(shell command -v iverilog),iverilog,verilator)
MORE ?=
LINT_MORE ?=
SYNTH_MORE ?=
LIBERTY ?=
MACRO_LIBERTY ?=
MHZ ?= 100
PARTS ?= 1
SHELL := /bin/bash
.SHELLFLAGS := -o pipefail -c
LINTED := $(shell command -v verilator)
MADE := $(shell command -v yosys)
TIMED := $(shell command -v sta)

.PHONY: all @@{kinds} clean FORCE
.DELETE_ON_ERROR:

all: @@{kinds}
	@echo "@@{name}: every step is done"

# A step is run again unless each file that it reads or writes is as it was when the step was done, whatever its date: beside
# the step $(1) stand the sums of the files $(2), and of those that a simulator was seen to read.
sums = { echo "$(SIM) $(MORE) $(LINTED) $(LINT_MORE) $(MADE) $(SYNTH_MORE) $(LIBERTY) $(MACRO_LIBERTY) $(MHZ)"; sha256sum -- $(2); \
  test ! -e $(1).read || (cd $(dir $(1)) && xargs sha256sum -- <$(notdir $(1)).read); } 2>&1
kept = $(call sums,$(1),$(2)) | cmp -s - $(1).sums
again = rm -f -- $(1).sums $(1).read
# what a model opens while it runs no compiler tells: beside such a model a step is run each time
opens = test -e $(1).read && (cd $(dir $(1)) && xargs grep -qE '[$$](readmem|fopen|sdf_annotate|system)' <$(notdir $(1)).read)
done = { $(call opens,$(1)) || $(call sums,$(1),$(2)) >$(1).sums; }

# What the steps write stands in these folders and files. One that is there before the first run is somebody's, and stays.
STEPS := @@{steps}
OWNED := $(sort $(foreach step,$(STEPS),$(firstword $(subst /, ,$(step)))))
MARKS := .vidlakost-flow
theirs = for it in $(OWNED); do test -e $(MARKS)/$$it || for one in $$it $$it.sums $$it.read; do test ! -e $$one -a ! -L $$one || { \
  echo "@@{name}: $$one is there, and this makefile did not make it, so nothing is done: take another folder" >&2; exit 1; }; done; done
# the steps are those of this chip file as it was when the makefile was written
FORCE:
	@$(theirs)
	@mkdir -p $(MARKS) && touch $(addprefix $(MARKS)/,$(OWNED))
	@cd $(ROOT) && printf '%s\n'@@{sums} | sha256sum -c --status 2>/dev/null || { \
	  echo "@@{name}: @@{chip} is another than the one that this makefile is of: run vidlakost flow again" >&2; exit 1; }

# in a folder with files.f: the testbench, sound and with what it plants; each passes where its last line says so, and only there
ifeq ($(SIM),verilator)
build = verilator --binary @@{theirs}$(MORE) --top-module $(1) --Mdir built -f files.f >built.log && \
  sed 's/^.* : *//' built/V$(1)__ver.d | xargs -n 1 | grep -v verilator_bin >$(2).read
run = built/V$(1)
else
build = iverilog -g2012 $(MORE) -M $(2).read -o tb -c files.f
run = vvp -n tb
endif
passed = { tail -n 1 $(2) | grep -qx "$(1): passed" || { echo "$(1): not passed"; exit 1; }; }
sound = $(run) | tee run.log && $(call passed,$(1),run.log)
simulate = $(build) && $(sound) && $(run) +planted | tee run.log && $(call passed,$(1),run.log)
# what is planted, side by side, each run with a log of its own
shares = $$(seq 0 $$(($(PARTS) - 1)))
sides = { rm -f run_*.log; for part in $(shares); do $(run) +planted +parts=$(PARTS) +part=$$part >run_$$part.log & done; wait; \
  for part in $(shares); do cat run_$$part.log; $(call passed,$(1),run_$$part.log); done; }

# to the cells of a library, where one is named, whose models Yosys makes of their functions; else to gates of its own
CELLS := $(if $(LIBERTY),$(abspath $(LIBERTY)))
MACRO_CELLS := $(if $(MACRO_LIBERTY),$(abspath $(MACRO_LIBERTY)))
# without a library of the macros what they answer has no time, and OpenSTA says so; with one it may tell of the pins of the
# macros in sta.known alone: those that are tied, and the clocks that the test chooses
untimed = { grep -E "^Error|port .* not found" sta.txt || { test -n "$(MACRO_CELLS)" && { \
  grep "^Warning" sta.txt | grep -vE "pins? with multiple clocks|unconstrained endpoint" || \
  grep "^  [^ ]" sta.txt | grep -vxF -f $(1); }; }; }
# behind that Yosys is told which pins of the cells are outputs, or it would find that nothing drives what they drive
mapped = $(if $(CELLS),dfflibmap -liberty $(CELLS); abc -liberty $(CELLS); clean; read_liberty -lib -ignore_miss_func $(CELLS))
counted = stat $(if $(CELLS),-liberty $(CELLS))
modelled = $(if $(CELLS),read_liberty -ignore_miss_func $(CELLS); write_verilog -noattr cells.v)
# a flip-flop begins with a bit by chance: gates of a few kinds hand an unknown one on where the module does not
drawn = sed -i 's/^  reg \([A-Za-z_0-9]*\);/  reg \1 = $$random;/' cells.v
# the netlist of the module $(1), of the files $(2) beside the boxes $(3): simulated as the module was, but for what is planted
netlist = yosys -q -p "read_verilog -nodpi $(SYNTH_MORE) -lib $(3); read_verilog -nodpi $(SYNTH_MORE) $(2); \
  synth -flatten -top $(1); $(mapped); check -assert; write_verilog -noattr $(1)_gates.v" >gates.log 2>&1 && \
  $(if $(CELLS),yosys -q -p "$(modelled)" >>gates.log 2>&1 && $(drawn),true) || { tail -n 5 gates.log; exit 1; }
# what other tools say of the module $(1) of the files $(2) beside the boxes $(3): what lint does, and how many cells it takes
linted = verilator --lint-only -Wall -Wno-DECLFILENAME $(LINT_MORE) --top-module $(1) $(2) $(3) >lint.txt 2>&1 || \
  { cat lint.txt; exit 1; }
synthesized = yosys -q -E synthesis.d -p "read_verilog -nodpi $(SYNTH_MORE) -lib $(3); read_verilog -nodpi $(SYNTH_MORE) $(2); \
  synth -top $(1); $(mapped); check -assert; write_verilog -noattr $(1)_cells.v; \
  tee -q -o synthesis.txt $(counted)" >synthesis.log 2>&1 || { tail -n 5 synthesis.log; exit 1; }; \
  sed 's/^[^:]*: //' synthesis.d | xargs -n 1 >synthesis.txt.read
# that module as cells, by the constraints $(4) in OpenSTA, which may tell of the pins of macros in the list $(5) alone
timed = rm -f sta.txt && yosys -q -p "read_verilog -nodpi $(SYNTH_MORE) -lib $(3); read_verilog -nodpi $(SYNTH_MORE) $(2); synth -flatten -top $(1); \
  $(mapped); splitnets -ports; clean; write_verilog -noattr $(1)_timed.v" >sta.log 2>&1 && \
  { for file in $(CELLS) $(MACRO_CELLS); do echo "read_liberty $$file"; done; \
  printf '%s\n' "read_verilog $(1)_timed.v" "link_design $(1)" "read_sdc $(4)" \
  "check_setup -verbose" "report_checks -format summary"; } >sta.tcl && \
  sta -no_splash -exit sta.tcl >sta.txt 2>&1 && ! $(call untimed,$(5)) || { tail -n 5 sta.log; head -n 12 sta.txt 2>/dev/null; exit 1; }

@@{targets}

clean:
	@$(theirs)
	rm -f -- $(foreach step,$(STEPS),$(step) $(step).sums $(step).read)
# what is gone is nobody's: one that comes in its place later is not ours
	@for it in $(OWNED); do rmdir -- $$it 2>/dev/null; test -e $$it || rm -f -- $(MARKS)/$$it; done; rmdir -- $(MARKS) 2>/dev/null || true
