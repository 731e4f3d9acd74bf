"""Each part as a test, for `python3 -m unittest` and pytest."""
from __future__ import annotations

import unittest

from tests.integration.parts import PARTS, tried
from vidlakost_tools.program import quick_program


@unittest.skipIf(quick_program() is None, "no proved program is here; ./vidlakost --prove makes one")
class Parts(unittest.TestCase):
    """What the launcher and the tools do with right, wrong and hostile input."""


def looked_at(name: str) -> None:
    def test(self: unittest.TestCase) -> None:
        self.assertEqual(tried(name).wrong, 0)

    setattr(Parts, f"test_{name}", test)


for part in PARTS:
    looked_at(part)
