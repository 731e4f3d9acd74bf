"""Verilog and VHDL: the subset of the program, and what Yosys and GHDL make of any other source."""
