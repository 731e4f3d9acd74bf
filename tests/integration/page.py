"""Parts of the page of `vidlakost explore` in a browser: the search for a march, what squares say, sizes and the
address."""
from __future__ import annotations

from typing import Any

from selenium import webdriver
from selenium.webdriver.common.keys import Keys

from tests.integration.explore import MARCH
from tests.integration.looker import Looker


def told_apart(it: Looker) -> None:
    """A square says what it is where it has the focus or the pointer, and what is old is dimmed."""
    it.browser.execute_script("arguments[0].focus()", it.square("A", "<0r0/1/0>"))
    it.look("a square with the focus is told", lambda: it.text("tip").startswith("A: <0r0/1/0> DRDF escapes"))
    it.keys(Keys.ARROW_RIGHT)
    it.look("the next one is told", lambda: it.text("tip").startswith("A: <1r1/0/1> DRDF escapes"))
    it.keys(Keys.ESCAPE)
    it.look("Escape takes it away", lambda: not it.by_id("tip").is_displayed())
    pointer: Any = webdriver.ActionChains
    pointer(it.browser).move_to_element(it.square("A", "<1w0/1/->")).perform()
    it.look("a square under the pointer is told", lambda: it.text("tip").startswith("A: <1w0/1/-> TF covered"))
    it.square("A", "<0r0/1/0>").click()
    it.look("nothing is dimmed", lambda: "Escapes" in it.text("why") and it.all(".stale") == [])
    it.by_id("march-A").send_keys("x")
    dimmed = ["#why.stale", "#figures.stale", "#cycles.stale", "#coverage .row.stale"]
    it.look("a mistake dims what is of before", lambda: all(it.all(selector) for selector in dimmed))
    it.by_id("march-A").send_keys(Keys.BACKSPACE)
    it.look("it is mended", lambda: it.all(".stale") == [])


def found(it: Looker) -> None:
    """A march that is found comes in beside the others, with what it covers; A is extended; a search is stopped."""
    it.all("#cards .card:nth-child(2) button[aria-label^=remove]")[0].click()
    it.by_id("find").click()
    it.look(
        "a march is found", lambda: "length 18n" in it.text("find-said") and "It is march B." in it.text("find-said")
    )
    it.look("it is shown with what it covers", lambda: "B covers 48 of 48 in 18n" in it.text("summary"))
    it.by_id("extend").click()
    it.look("A is extended", lambda: "15 more than march A" in it.text("find-said"))
    it.look("it comes in place of what was found", lambda: "B covers 48 of 48 in 25n" in it.text("summary"))
    begun = MARCH.split(";down")[0].replace(";", "; ")
    it.look("it begins as A does", lambda: it.by_id("march-B").get_attribute("value").startswith(begun))
    it.by_id("find-linked").click()
    it.by_id("find").click()
    it.look("how far it is is told", lambda: "so far: {" in it.text("find-said") and " s" in it.text("find-time"))
    it.by_id("find-stop").click()
    it.look(
        "a search is stopped",
        lambda: "shortest found" in it.text("find-said") and not it.by_id("find-stop").is_displayed(),
    )
    it.look("what it had comes in", lambda: "linked total 600 covered 600" in it.text("find-said"))
    it.by_id("find-linked").click()
    it.by_id("by-text").click()
    it.write("list", "tf\n")
    it.by_id("find").click()
    it.look("a list that is refused is told", lambda: "The list is refused." in it.text("find-said"))
    it.by_id("static").click()
    gallery = it.all("#cards .card:nth-child(2) select option")
    next(option for option in gallery if option.text.startswith("March SS")).click()
    it.look("the page is as before", lambda: "B covers 48 of 48 in 22n" in it.text("summary"))


def carried(it: Looker) -> None:
    """The address carries the texts to whoever opens it."""
    it.look("the address has the marches", lambda: it.browser.current_url.count("march=%7Bany") == 2)
    address = it.browser.current_url
    it.browser.get("about:blank")
    it.browser.get(address)
    it.look(
        "its page has the same marches",
        lambda: "A covers 32 of 48 in 10n · B covers 48 of 48 in 22n" in it.text("summary"),
    )
    it.look("and the same memory", lambda: "little" in it.by_id("memory-text").get_attribute("value"))
    it.look(
        "the list is ticked", lambda: it.by_id("class-SF").is_selected() and not it.by_id("class-DRF").is_selected()
    )
    it.browser.execute_script("location.hash = '#march=any(w0)%3Bany(r0)&list=SF%0A%3C0w1/0/-%3E'")
    it.look("another address opens anew", lambda: "A covers 1 of 3 in 2n" in it.text("summary"))
    it.look("with its list", lambda: it.by_id("list").get_attribute("value") == "SF\n<0w1/0/->")
    it.browser.get("about:blank")
    it.browser.get(address)
    it.look("the first one is back", lambda: "B covers 48 of 48 in 22n" in it.text("summary"))


def small(it: Looker) -> None:
    """What shows at other sizes: all squares at once, and no text beyond the edge."""
    sizes = {"width": 1280, "height": 720, "deviceScaleFactor": 1, "mobile": False}
    it.browser.execute_cdp_cmd("Emulation.setDeviceMetricsOverride", sizes)
    it.browser.execute_script("scrollTo(0, 0)")
    lowest = (
        "return Math.max(...[...document.querySelectorAll('#coverage .square')].map((it) =>"
        " it.getBoundingClientRect().bottom))"
    )
    it.look("the squares show at 1280 x 720", lambda: 0 < it.browser.execute_script(lowest) < 720)
    it.browser.execute_cdp_cmd("Emulation.setDeviceMetricsOverride", {**sizes, "width": 375})
    beyond = """return [...document.querySelectorAll("body *")]
        .filter((it) => !it.closest("#cycles, pre, .skip, .march"))
        .filter((it) => it.getBoundingClientRect().width > 0)
        .filter((it) => it.getBoundingClientRect().right > document.documentElement.clientWidth + 1)
        .map((it) => it.outerHTML.slice(0, 60))"""
    it.look("nothing is beyond the edge at 375", lambda: it.browser.execute_script(beyond) == [])
    cut = """return [...document.querySelectorAll("button")].filter((it) => it.scrollWidth > it.clientWidth + 1)
        .map((it) => it.outerHTML.slice(0, 60))"""
    it.look("no button is narrower than its text", lambda: it.browser.execute_script(cut) == [])
    it.browser.execute_cdp_cmd("Emulation.clearDeviceMetricsOverride", {})
