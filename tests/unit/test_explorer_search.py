"""A search of the page of `explore`, whose process is a few lines here: what it says is heard, and it is ended."""
from __future__ import annotations

import pathlib
import time
import types
import unittest
from typing import Callable
from unittest import mock

from tests.unit.stand_in import Tools
from vidlakost_tools import program
from vidlakost_tools.explorer import search, search_run
from vidlakost_tools.explorer.questions import Object, Wrong

# says a march, and once it is asked to end what it has found
SLOW = """
import json, signal, sys, time
asked = json.loads(sys.argv[1])
def end(*_):
    print(json.dumps({"ended": {"march": "any(w0)", "asked": asked}}), flush=True)
    sys.exit()
signal.signal(signal.SIGINT, end)
print(json.dumps({"length": "3n", "march": "any(w0)"}), flush=True)
time.sleep(60)
"""
BREAKS = 'print("{\\"march\\": \\"any(w0)\\"}", flush=True)\nprint("no object", flush=True)\nraise SystemExit(1)\n'
ASKED = {"list": "TF\n", "decoder": False, "linked": True}


class Searched(Tools):
    def setUp(self) -> None:
        super().setUp()
        (self.folder / "tools").mkdir()
        stub = types.SimpleNamespace(__name__="stub", SECONDS=60, LAST_SECONDS=60, LIST=search_run.LIST)
        for module, name, value in ((search, "search_run", stub), (program, "ROOT", self.folder)):
            patch = mock.patch.object(module, name, value)
            patch.start()
            self.addCleanup(patch.stop)
        self.searches = search.Searches()
        self.addCleanup(self.searches.close)

    def begin(self, process: str, **more: str) -> Object:
        (self.folder / "tools" / "stub.py").write_text(process)
        return self.searches.begin({**ASKED, **more})

    def heard(self, number: int, until: Callable[[Object], bool]) -> Object:
        """What is told of a search as soon as that holds."""
        for _ in range(1000):
            told = self.searches.heard({"search": number})
            if until(told):
                return told
            time.sleep(0.01)
        raise AssertionError(told)

    def test_best_march_so_far_and_the_end(self) -> None:
        begun = self.begin(SLOW, march="any(w0)", letter="B")
        self.assertEqual((begun["search"], begun["march"], begun["ended"]), (1, None, None))
        told = self.heard(1, lambda told: told["march"] is not None)
        self.assertEqual((told["march"], told["length"], told["broken"]), ("any(w0)", "3n", None))
        self.searches.stop({"search": 1})
        told = self.heard(1, lambda told: told["ended"] is not None)
        asked = {"behind": "march B", "decoder": False, "linked": True}
        self.assertEqual(told["ended"], {"march": "any(w0)", "asked": asked})

    def test_second_search_ends_the_first(self) -> None:
        self.begin(SLOW)
        first = self.searches.last
        assert first is not None
        self.assertEqual(self.begin(SLOW)["search"], 2)
        first.hearer.join(10)
        self.assertTrue(first.is_over)
        self.assertFalse(pathlib.Path(first.folder.path).exists())
        with self.assertRaises(Wrong):
            self.searches.heard({"search": 1})

    def test_search_that_breaks_off(self) -> None:
        self.begin(BREAKS)
        told = self.heard(1, lambda told: told["broken"] is not None)
        self.assertEqual(told["broken"], f"{search.BROKE_OFF} on any(w0)")

    def test_search_that_says_too_much_is_ended(self) -> None:
        with mock.patch.object(search, "MOST_BYTES", 10):
            self.begin(SLOW)
            told = self.heard(1, lambda told: told["broken"] is not None)
        self.assertEqual((told["broken"], told["ended"]), (search.BROKE_OFF, None))


if __name__ == "__main__":
    unittest.main()
