"""The texts that the program reads and writes, as objects: marches, memories, chips and reports, with the plain models
that play them."""
