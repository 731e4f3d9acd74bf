"""The picture of the page of `vidlakost explore` in README and in docs/guide: two marches, and an escape where its
fault acts.

usage: python3 -m tests.integration.page_picture ADDRESS docs/explore.png

ADDRESS is what `vidlakost explore` printed, called with examples/c.m alone."""
from __future__ import annotations

import pathlib
import sys
import tempfile

from tests.integration.looker import Looker

SIZE = {"width": 1440, "height": 1180, "deviceScaleFactor": 1, "mobile": False}


def show(it: Looker) -> None:
    """March C- beside March SS, and the first step in which a coupling acts."""
    it.browser.execute_cdp_cmd("Emulation.setDeviceMetricsOverride", SIZE)
    it.browser.get(it.address)
    it.look("a march is judged", lambda: "32 of 48 covered" in it.text("cards"))
    it.by_id("add").click()
    options = it.all("#cards .card:nth-child(2) select option")
    next(option for option in options if option.text.startswith("March SS")).click()
    it.look("the other one is judged", lambda: "B covers 48 of 48 in 22n" in it.text("summary"))
    it.square("A", "<0w0;0/1/->").click()
    it.look("an escape is told", lambda: "Inside a word" in it.text("why") and "The program says" in it.text("why"))
    it.all("#player button[title='where the fault first acts']")[0].click()
    it.look("its fault acts", lambda: "The fault acts" in it.text("player"))
    it.browser.execute_script("document.activeElement.blur(); scrollTo(0, 0)")
    it.look("the page stands", lambda: it.browser.execute_script("return scrollY") == 0)


def main() -> int:
    with tempfile.TemporaryDirectory() as name:
        it = Looker(pathlib.Path(name), sys.argv[1])
        try:
            show(it)
            it.browser.save_screenshot(sys.argv[2])
        finally:
            it.browser.quit()
    return 1 if it.wrong else 0


if __name__ == "__main__":
    sys.exit(main())
