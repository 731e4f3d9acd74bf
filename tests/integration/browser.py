"""The page of `vidlakost explore` as somebody uses it: typed, ticked, clicked and led by keys in Chromium without a
screen, and a page of elsewhere that asks it. Run by `python3 -m tests.integration` with the address of a server; it
prints a line for each look, which begins with `ok` or `wrong`."""
from __future__ import annotations

import http.server
import pathlib
import sys
import tempfile
import threading
import traceback

from selenium.webdriver.common.keys import Keys

from tests.integration.explore import MARCH, MARKUP
from tests.integration.looker import REBOUND, Looker
from tests.integration.page import carried, found, small, told_apart
from vidlakost_tools.program import run

ELSEWHERE = """<!DOCTYPE html><title>elsewhere</title><iframe id="frame"></iframe><script>
window.heard = {};
async function attempt(address) {
  const [method, body] = ["POST", '{"march":"any(w0)","list":"TF"}'];
  const asked = { method, headers: { "Content-Type": "application/json" }, body };
  for (const [name, options] of [["cors", asked], ["simple", { method, mode: "no-cors", body }], ["get", {}]]) {
    try {
      const answer = await fetch(address + (name === "get" ? "" : "judge"), options);
      heard[name] = answer.type + " " + answer.status + " " + (await answer.text()).slice(0, 40);
    } catch (error) { heard[name] = "refused"; }
  }
  const script = document.createElement("script");
  script.onload = () => { heard.script = "loaded"; };
  script.onerror = () => { heard.script = "refused"; };
  script.src = address + "page.js";
  document.body.append(script);
  document.getElementById("frame").src = address;
}
</script>"""


def typed(it: Looker) -> None:
    """March C- with a mistake, which is mended; and a word that is completed."""
    it.look("the march of the call is judged", lambda: "32 of 48 covered" in it.text("cards"))
    it.look("the page says which program answers", lambda: "proved" in it.text("program"))
    it.write("march-A", MARCH.replace("up(r0", "upp(r0"))
    it.look(
        "a mistake is told at its place",
        lambda: "line 1, column 10" in it.text("said-A") and "did you mean 'up'?" in it.text("said-A"),
    )
    it.look("what could stand there is told", lambda: "up, down, any or del" in it.text("said-A"))
    it.look("a field with a mistake says so", lambda: it.by_id("march-A").get_attribute("aria-invalid") == "true")
    it.all("#said-A button")[0].click()
    it.keys(Keys.ARROW_RIGHT, Keys.ARROW_RIGHT, Keys.ARROW_RIGHT, Keys.BACKSPACE)
    it.look(
        "a mended march is judged",
        lambda: it.by_id("march-A").get_attribute("value") == MARCH and it.text("said-A") == "",
    )
    it.look("its length is told", lambda: "10n long" in it.text("cards"))
    it.write("march-A", "{any(w0);d")
    it.look("words are offered", lambda: [word.text for word in it.all(".words button")] == ["down", "del"])
    it.keys(Keys.CONTROL, " ")
    it.browser.switch_to.active_element.send_keys(Keys.ENTER)
    it.look("a word is completed", lambda: it.by_id("march-A").get_attribute("value") == "{any(w0);down")
    it.write("march-A", MARCH)
    it.look("it is judged again", lambda: "32 of 48 covered" in it.text("cards") and it.text("said-A") == "")


def ticked(it: Looker) -> None:
    """Classes that are ticked, and the list as text."""
    it.by_id("everything").click()
    it.look("dynamic primitives are judged", lambda: "42 of 176" in it.text("cards"))
    it.by_id("class-DYN2").click()
    it.look("a class is ticked off", lambda: "34 of 80" in it.text("cards"))
    it.by_id("by-text").click()
    it.write("list", "TF\nwdf\n")
    it.look(
        "a mistake in the list is told",
        lambda: "line 2, column 1" in it.text("list-said") and "did you mean 'WDF'" in it.text("list-said"),
    )
    it.write("list", "CFd")
    it.look(
        "words of the list are offered",
        lambda: [word.text for word in it.all("#list-words button")] == ["CFds", "CFdr"],
    )
    it.write("list", "TF\n<0w0/1/->\n")
    it.look("a list as text is judged", lambda: "2 of 3 covered" in it.text("cards") and it.text("list-said") == "")
    it.by_id("static").click()
    it.look("the static classes are judged", lambda: "32 of 48" in it.text("cards"))


def changed(it: Looker) -> None:
    """What changes is marked."""
    it.write("march-A", MARCH.replace("up(r0,w1)", "up(r0,r0,w0,w1)"))
    it.look(
        "what is newly covered is marked",
        lambda: it.square("A", "<0r0/1/0>").get_attribute("class") == "square covered gained",
    )
    it.look("the change is told", lambda: "1 more" in it.text("summary"))
    it.write("march-A", MARCH)
    it.look(
        "what is no longer covered is marked",
        lambda: it.square("A", "<0r0/1/0>").get_attribute("class") == "square lost",
    )


def stepped(it: Looker) -> None:
    """An escape, step by step to its end, and a primitive that is covered."""
    it.square("A", "<0r0/1/0>").click()
    it.look(
        "why it escapes is told",
        lambda: "and r1" not in it.text("why") and "Escapes from march A" in it.text("why"),
    )
    it.look("the program is asked as well", lambda: "The program says passes" in it.text("why"))
    it.look("the player has the focus", lambda: it.browser.switch_to.active_element.get_attribute("id") == "player")
    count = int(it.all("#player input")[0].get_attribute("max"))
    for _ in range(count):
        it.keys(Keys.ARROW_RIGHT)
    it.look(
        "it is stepped to its end",
        lambda: f"Step {count} of {count}." in it.text("player") and "as expected" in it.text("player"),
    )
    it.keys(Keys.HOME)
    it.look("it is stepped back", lambda: f"Step 0 of {count}." in it.text("player"))
    it.all("#player .player button")[4].click()
    it.look(
        "it is led to where the fault acts",
        lambda: "The fault acts on cell" in it.text("player") and len(it.all("#why .struck")) == 1,
    )
    it.square("A", "<0w1/0/->").click()
    it.look("a covered one is told", lambda: "Covered by march A" in it.text("why"))
    it.look("its first catching read is told", lambda: "r1 of element 2 on cell 0" in it.text("why"))
    it.look("the program says the same", lambda: "says caught element 2 address 0 operation 0" in it.text("why"))
    it.keys(Keys.END)
    it.look("the read is played", lambda: "reads 0, which differs" in it.text("player"))
    it.square("A", "<0w1;1/0/->").click()
    sides = ["aggressor below: r1 of element 4 on cell 1", "aggressor above: r1 of element 2 on cell 0"]
    it.look("a coupling is caught on both sides", lambda: [node.text for node in it.all(".catches button")] == sides)
    it.square("A", "both and").click()
    it.look("a fault of the decoder is told", lambda: "Covered by march A" in it.text("why"))
    it.square("A", "<0w1/0/->").click()
    # what comes with the last answer is drawn before a key is pressed
    it.look("the first one is told again", lambda: "says caught element 2 address 0 operation 0" in it.text("why"))
    it.browser.execute_script("arguments[0].focus()", it.square("A", "<0w1/0/->"))
    it.keys(Keys.ARROW_RIGHT, Keys.ENTER)
    it.look("squares are led by keys", lambda: "<1w0/1/->" in it.text("why"))


def linked(it: Looker) -> None:
    """The linked faults, which are asked for where their part of the page is opened."""
    it.look("links are not asked for before", lambda: it.all("#link-coverage .square") == [])
    it.all("#links summary")[0].click()
    it.look("the links are judged", lambda: "A covers 466 of 600 in 10n" in it.text("link-summary"))
    it.look("each has a square", lambda: len(it.all("#link-coverage .square")) == 600)
    it.all("#link-coverage [data-primitive='LF1 <0w0/1/-> <1w1/0/->']")[0].click()
    it.look("the escape of a link is told", lambda: "neither primitive acts" in it.text("why"))
    it.all("#link-coverage [data-primitive='LF3 <0w0;0/1/-> <0w0;1/0/->']")[0].click()
    it.look("it says which hides which", lambda: "<0w0;1/0/-> hides it in element 0" in it.text("why"))
    it.all("#player button[title='where the fault first acts']")[0].click()
    it.look("the player says which acts", lambda: "The first primitive acts on cell 2" in it.text("player"))
    it.look("it has three cells", lambda: len(it.all("#why .cell")) == 3)
    it.all("#links summary")[0].click()


def compared(it: Looker) -> None:
    """Two marches side by side, the second from the gallery, and as many as four."""
    it.by_id("add").click()
    gallery = it.all("#cards .card:nth-child(2) select option")
    next(option for option in gallery if option.text.startswith("March SS")).click()
    it.look("a second march is judged", lambda: "B covers 48 of 48 in 22n" in it.text("summary"))
    squares = [it.square(march, "<0w0/1/->").get_attribute("class").split() for march in "AB"]
    it.look("they differ where they should", lambda: ["covered" in found for found in squares] == [False, True])
    it.by_id("add").click()
    it.by_id("add").click()
    it.look("there are four at most", lambda: len(it.all("#cards .card")) == 4 and not it.by_id("add").is_enabled())
    for _ in range(2):
        it.all("#cards .card:nth-child(3) button[aria-label^=remove]")[0].click()
    it.look("two are taken away", lambda: len(it.all("#cards .card")) == 2)


def remembered(it: Looker) -> None:
    """A memory by its form and by its text, and a module that is saved and clocked."""
    it.look("the test of the memory is told", lambda: "643" in it.text("figures") and "6.43 µs" in it.text("figures"))
    it.write("memory-words", "4")
    it.look("the form is in the text", lambda: "\nwords 4\n" in it.by_id("memory-text").get_attribute("value"))
    it.look("the test is told anew", lambda: "163" in it.text("figures"))
    it.look("the first cycles are shown", lambda: "1: w 0 00;" in it.all("#cycles img")[0].get_attribute("alt"))
    it.write("memory-text", "memory 1\nname little\nwords 4\nbit 8\n")
    it.look("a mistake in it is told", lambda: "did you mean 'bits'?" in it.text("memory-said"))
    it.write("memory-text", "memory 1\nname little # one\nwords 4\nbits 8\n")
    it.look("the text is in the form", lambda: it.by_id("memory-name").get_attribute("value") == "little")
    it.write("memory-latency", "2")
    it.look(
        "a line of version 2 makes it one",
        lambda: it.by_id("memory-text").get_attribute("value").startswith("memory 2\nname little # one\n"),
    )
    it.look("latency counts", lambda: "164" in it.text("figures"))
    it.by_id("save-module").click()
    it.look("a module is saved", lambda: it.saved("little_bist.v").startswith("module little_bist("))
    it.by_id("save-report").click()
    it.look("a report is saved", lambda: it.saved("little.report").endswith("total 48 covered 32 escapes 16\n"))
    it.by_id("save-memory").click()
    it.look("a memory is saved", lambda: "latency 2" in it.saved("little.mem"))
    it.by_id("save-list").click()
    it.look("a list is saved", lambda: it.saved("faults.list").startswith("SF\nTF\n"))
    it.all("[aria-label='save march A']")[0].click()
    it.look("a march is saved", lambda: it.saved("march_A.m") == MARCH)
    words = ["benchfile", *(it.folder / name for name in ("little_bist.v", "march_A.m", "little.mem"))]
    it.look("the saved module is clocked", lambda: run(*words) == (0, "fail 0 done 163"))
    words = ["judge", it.folder / "march_A.m", it.folder / "faults.list", it.folder / "again"]
    it.look("the saved list is judged", lambda: run(*words) == (1, "total 48 covered 32 escapes 16"))


def named(it: Looker) -> None:
    """What a screen reader needs, and both schemes of colours."""
    used = it.all("button, input, select, textarea")
    nameless = [node.get_attribute("outerHTML")[:80] for node in used if not node.accessible_name]
    it.look("everything that is used has a name", lambda: nameless == [] or nameless)
    papers = []
    for scheme in ("light", "dark"):
        media = {"features": [{"name": "prefers-color-scheme", "value": scheme}]}
        it.browser.execute_cdp_cmd("Emulation.setEmulatedMedia", media)
        papers.append(it.browser.execute_script("return getComputedStyle(document.body).backgroundColor"))
    it.look("it is dark where that is wished", lambda: papers == ["rgb(246, 247, 246)", "rgb(20, 25, 23)"])


def marked_up(it: Looker) -> None:
    """Markup in a text stays text."""
    before = len(it.all("script, img"))
    it.write("march-A", MARKUP)
    it.look("a march with markup is refused", lambda: "is not allowed here" in it.text("said-A"))
    it.write("memory-text", MARKUP.replace("\n", " "))
    it.look("a memory with markup is refused", lambda: "line 1, column 1" in it.text("memory-said"))
    it.look(
        "markup is shown as text",
        lambda: "<img" in it.all("#said-A pre")[0].text,
    )
    it.look(
        "and is nothing else",
        lambda: it.browser.title == "Vidlakost: try a march" and len(it.all("script, img")) <= before,
    )
    it.write("march-A", MARCH)
    it.write("memory-text", "memory 1\nname little\nwords 4\nbits 8\n")
    it.look("the page goes on", lambda: "32 of 48" in it.text("cards") and "163" in it.text("figures"))


def kept(it: Looker) -> None:
    """The page as a file works by itself."""
    it.by_id("save-page").click()
    it.look("the page is saved", lambda: it.saved("march.html").startswith("<!DOCTYPE html>"))
    it.look("the page was quiet", lambda: it.complaints() == [] or it.complaints())
    it.browser.get((it.folder / "march.html").as_uri())
    it.look(
        "the file has the verdicts",
        lambda: "A covers 32 of 48 in 10n · B covers 48 of 48 in 22n" in it.text("summary"),
    )
    it.square("A", "<0r0/1/0>").click()
    it.look(
        "the file plays an escape",
        lambda: "Escapes from march A" in it.text("why") and "Step 0 of" in it.text("player"),
    )
    it.look("the file has the memory", lambda: "163" in it.text("figures") and len(it.all("#cycles img")) == 1)
    it.look("the file takes no other march", lambda: it.by_id("march-A").get_attribute("readonly") is not None)
    it.look("the file is quiet", lambda: it.complaints() == [])


def elsewhere(it: Looker) -> None:
    """A page of another origin, even one that knows the address, gets nothing; nor does a name bound to it anew."""

    class Page(http.server.BaseHTTPRequestHandler):
        def do_GET(self) -> None:
            self.send_response(200)
            self.send_header("Content-Type", "text/html")
            self.end_headers()
            self.wfile.write(ELSEWHERE.encode())

        def log_message(self, *_: object) -> None:
            pass

    server = http.server.ThreadingHTTPServer(("127.0.0.1", 0), Page)
    threading.Thread(target=server.serve_forever, daemon=True).start()
    it.browser.get(f"http://127.0.0.1:{server.server_port}/")
    it.browser.execute_script("attempt(arguments[0])", it.address)
    it.look("another page was heard out", lambda: it.browser.execute_script("return Object.keys(heard).length") == 4)
    heard = it.browser.execute_script("return heard")
    it.look(
        "another page gets nothing",
        lambda: [heard[name] for name in ("cors", "get", "script")] == ["refused"] * 3 or heard,
    )
    it.look("nor by a simple request", lambda: heard["simple"] in ("refused", "opaque 0 "))
    it.browser.switch_to.frame(it.by_id("frame"))
    it.look("it is in no frame", lambda: it.all("#march-A") == [])
    it.browser.switch_to.default_content()
    it.browser.get(it.address.replace("127.0.0.1", REBOUND))
    it.look(
        "a name that is bound to it is refused",
        lambda: "the request names another host" in it.browser.page_source,
    )
    server.shutdown()


PARTS = [
    typed,
    ticked,
    changed,
    stepped,
    told_apart,
    small,
    linked,
    compared,
    found,
    remembered,
    named,
    carried,
    marked_up,
    kept,
    elsewhere,
]


def main() -> int:
    with tempfile.TemporaryDirectory() as name:
        it = Looker(pathlib.Path(name), sys.argv[1])
        try:
            it.browser.get(it.address)
            for part in PARTS:
                try:
                    part(it)
                except Exception:
                    it.wrong += 1
                    print(f"wrong {part.__name__} breaks off: {traceback.format_exc().splitlines()[-1]}", flush=True)
                    if len(sys.argv) > 2:
                        traceback.print_exc()
        finally:
            it.browser.quit()
    return 1 if it.wrong else 0


if __name__ == "__main__":
    sys.exit(main())
