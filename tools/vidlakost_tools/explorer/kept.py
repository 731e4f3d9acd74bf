"""The page as one file that works by itself: its texts, styles and scripts in one, with each answer that it may
need."""
from __future__ import annotations

import base64
import hashlib
import html
import json
import pathlib
import re

from vidlakost_tools.explorer import answers, questions
from vidlakost_tools.explorer.caught import catches
from vidlakost_tools.explorer.questions import Object
from vidlakost_tools.explorer.server import Page
from vidlakost_tools.text import read_text
from vidlakost_tools.texts.decoder import DecoderReport, decoded
from vidlakost_tools.texts.in_word import InWordReport
from vidlakost_tools.texts.linked import LinkedReport, linked
from vidlakost_tools.texts.memory import parse_memory
from vidlakost_tools.texts.report import Report, judged
from vidlakost_tools.tool import Refused

PAGE = pathlib.Path(__file__).resolve().parent / "page"
# the files of the page, in the order in which it names them
STYLES, SCRIPTS = ["page.css"], [
    "dom.js",
    "coverage.js",
    "player.js",
    "memory.js",
    "finder.js",
    "address.js",
    "page.js",
]
MOST_MARCHES = 4
# how many steps the file keeps in all; it keeps further escapes without their steps
MOST_STEPS = 60000
POLICY = "default-src 'none'; img-src data:; base-uri 'none'; form-action 'none'; require-trusted-types-for 'script'"


def files() -> dict[str, Page]:
    """The files of the server, by name, each with its type."""
    made = {"": ("text/html", (PAGE / "index.html").read_bytes())}
    made.update({name: ("text/css", (PAGE / name).read_bytes()) for name in STYLES})
    made.update({name: ("text/javascript", (PAGE / name).read_bytes()) for name in SCRIPTS})
    return made


def digest(text: str) -> str:
    return f"'sha256-{base64.b64encode(hashlib.sha256(text.encode()).digest()).decode()}'"


def whole(kept: Object) -> str:
    """The page with everything in it, under a policy that lets nothing else run."""
    page = read_text(PAGE / "index.html")
    style = "\n".join(read_text(PAGE / name) for name in STYLES)
    script = "\n".join(read_text(PAGE / name) for name in SCRIPTS)
    policy = f"{POLICY}; style-src {digest(style)}; script-src {digest(script)}"
    head = f'<meta http-equiv="Content-Security-Policy" content="{html.escape(policy)}">\n<style>{style}</style>'
    data = json.dumps(kept, separators=(",", ":")).replace("<", "\\u003c")
    page = re.sub(r'\n *<link rel="stylesheet"[^>]*>', lambda _: "\n" + head, page, count=1)
    page = re.sub(r"\n *<script [^>]*></script>", "", page)
    parts = f'<script type="application/json" id="kept">{data}</script>\n<script>{script}</script>\n</body>'
    return page.replace("</body>", parts)


def traces(
    report: Report, of_decoder: DecoderReport, links: LinkedReport, march: pathlib.Path, left: int
) -> tuple[Object, int]:
    """What the reports say about primitives, and the escapes of faults and links, by their names; and how many steps
    the file may still keep."""
    traced = {it.name: answers.replayed_decoder(it, report.elements) for it in of_decoder.escapes}
    for verdict in report.verdicts:
        if verdict.covered:
            caught = [answers.shown_catch(it, march, False) for it in catches(verdict, report.elements)]
            traced.setdefault(verdict.primitive, {"caught": caught, "steps": []})
        elif verdict.primitive not in traced:
            traced[verdict.primitive] = answers.replayed(verdict, report.elements, march)
    traced.update({it.primitive: answers.replayed_link(it, report.elements) for it in links.escapes})
    found: Object = {}
    for name, told in traced.items():
        left -= len(told["steps"])
        found[name] = told if left >= 0 else {**told, "steps": []}
    return found, left


def insides(report: InWordReport | None, memory: str, left: int) -> tuple[Object, int]:
    """The verdicts inside a word by their primitives, and how many steps the file may still keep."""
    found: Object = {}
    for verdict in report.verdicts if report else []:
        if report and verdict.primitive not in found:
            told = answers.told_inside(verdict, report, parse_memory(memory))
            left -= len(told["steps"])
            found[verdict.primitive] = told if left >= 0 else {**told, "steps": []}
    return found, left


def texts_in(question: Object, name: str) -> list[str]:
    """The texts of the marches of a question."""
    found = question.get(name)
    if not isinstance(found, list) or not 1 <= len(found) <= MOST_MARCHES:
        raise questions.Wrong(f"{name} has to be 1 to {MOST_MARCHES} texts")
    return [questions.text_in({"march": text}, "march") for text in found]


class Keeper:
    """A function that makes the file, with the texts that the page began with."""

    def __init__(self, beginning: answers.Beginning):
        self.beginning = beginning

    def answer(self, question: Object) -> Object:
        """The page as a file. A refused march or list is an error; a refused memory is kept as it is."""
        marches, faults = texts_in(question, "marches"), questions.text_in(question, "list")
        memory, place = questions.text_in(question, "memory"), question.get("place")
        if not isinstance(place, int) or not 0 <= place < len(marches):
            raise questions.Wrong("place has to name a march")
        told = self.beginning.told
        # the place of the program does not concern those who get the file
        program: Object = {**told["program"], "path": ""}
        kept: Object = {
            "begin": {**told, "program": program, "march": marches[0], "list": faults, "memory": memory},
            "marches": marches,
            "judged": [],
            "links": [],
            "traced": [],
            "inside": [],
            "place": place,
        }
        left = MOST_STEPS
        for march in marches:
            with questions.Folder() as folder:
                path, listed = folder.put("march", march), folder.put("list", faults)
                try:
                    report, of_decoder, links = judged(path, listed), decoded(path), linked(path)
                except Refused as error:
                    return {"refused": folder.refusal(error)}
                inside = answers.inside_report(folder, path, listed, question)
                found, left = traces(report, of_decoder, links, path, left)
                within, left = insides(inside, memory, left)
            kept["judged"].append(
                {"report": answers.shown_report(report, of_decoder), "inWord": answers.covered_inside(inside)}
            )
            kept["links"].append({"report": answers.shown_links(links)})
            kept["traced"].append(found)
            kept["inside"].append(within)
        kept["memory"] = answers.memory({"march": marches[place], "memory": memory})
        kept["files"] = answers.files({"march": marches[place], "memory": memory, "list": faults})
        return {"page": whole(kept)}
