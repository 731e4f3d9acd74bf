"""Signals as a shell at a terminal leaves them. Whoever begins the tests in the background may have some ignored, and a
process that is begun would ignore them too."""
from __future__ import annotations

import signal
import unittest

OURS = (signal.SIGINT, signal.SIGQUIT, signal.SIGHUP, signal.SIGTERM)


def as_at_a_terminal(test: unittest.TestCase) -> None:
    """Answers these signals as usual until a test is over."""
    for number in OURS:
        before = signal.getsignal(number)
        test.addCleanup(signal.signal, number, before)
        signal.signal(number, signal.default_int_handler if number == signal.SIGINT else signal.SIG_DFL)
