"""The memories of a whole chip: their test in steps, the module that joins them, and its makefile."""
