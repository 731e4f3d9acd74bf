"""A memory macro with its self-test: its pins, its collar, a model and a testbench."""
