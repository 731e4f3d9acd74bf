"""Modules round a self-test, by which a tester starts it and reads what it found, over a bus or a TAP."""
