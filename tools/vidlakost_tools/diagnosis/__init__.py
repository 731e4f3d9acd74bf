"""From a log of wrong reads to the defects that give exactly this log: primitives at each place, lines of the array,
bits of the data and of the address, and faults of the decoder."""
