"""The shortest march for a list of faults: a search finds it, and the program judges it.

usage: vidlakost design LIST [OUT] [--behind MARCH] [--any] [--operations K] [--elements K] [--decoder] [--linked]
                        [--inword MEMORY [--backgrounds K]] [--time MHZ MEMORY] [--width N] [--prove]
                        [--seconds N] [--seed N] [--walks FIRST-LAST [--from MARCH]]
       vidlakost design --help

LIST is a list as for `judge`. design prints the march, its length and the program's verdict, and writes the march to
the file OUT. After the length it says `shortest` if a search of all shorter marches finds none that covers the list.
Else it says `shortest found`, and a lower bound of the length. The program alone decides what a march covers. That no
march is shorter is tested, not proved. If the march leaves something uncovered, design gives the reason, and ends with
1.

--behind MARCH    extend MARCH: begin with its elements, and add as few operations as the search finds
--any             of the marches of the least length, take one with as many elements of order any as the search finds
--operations K    an element has at most K operations
--elements K      the march has at most K elements, with its pauses
--decoder         cover the faults of the address decoder too
--linked          cover the linked faults too
--inword MEMORY   between two bits of a word of MEMORY, cover as much of the list as March SS does
--backgrounds K   look for at most K backgrounds with which the march covers the most of the list there
--time MHZ MEMORY say how long the test of MEMORY takes at so many MHz
--width N         keep N marches of each length (300); more take longer, and may find a shorter one
--prove           try all shorter marches, however long that takes
--seconds N       look N seconds (60) on all processors for a shorter march by random changes; 0 leaves that out
--seed N          other random changes (1); the same number finds the same marches, as far as the seconds reach
--walks FIRST-LAST do these walks alone, for the next march that is shorter than MARCH (than the first one found), and
                  say in a last line which walk came to it; the least number of all parts is that of the whole search
--from MARCH      the march that these walks begin with

Standard error shows the best march so far. Ctrl-C ends the search with that one."""
from __future__ import annotations

import os
import sys

from vidlakost_tools.design.answers import Answers
from vidlakost_tools.design.finder import TRIED, Finder
from vidlakost_tools.design.shown import Shown, told
from vidlakost_tools.design.wishes import Words, begin_of, wish_of
from vidlakost_tools.folder import write_whole
from vidlakost_tools.tool import ToolError, refuse_inputs, tell, words_of

OPTIONS = {
    "--behind": 1,
    "--any": 0,
    "--operations": 1,
    "--elements": 1,
    "--decoder": 0,
    "--linked": 0,
    "--inword": 1,
    "--backgrounds": 1,
    "--time": 2,
    "--width": 1,
    "--prove": 0,
    "--seconds": 1,
    "--seed": 1,
    "--walks": 1,
    "--from": 1,
}


def searched(finder: Finder, words: Words, tried: int | None) -> str:
    """Searches, and says of a part of the walks what came of it."""
    processors = len(os.sched_getaffinity(0))
    if words.walks is None:
        finder.run(tried, words.seconds, processors, words.seed)
        return ""
    walks = finder.walks(processors, words.seconds, words.seed, words.walks)
    search = finder.part(begin_of(words), walks)
    if search is None:
        what = f"{words.begin} does not cover" if words.begin else "the search found no march that covers"
        raise ToolError(f"{what} all of this, so no walk can begin with it", 1)
    first, last = words.walks
    if search.number:
        return f"walk {search.number} of {first} to {last}: a shorter march"
    if search.done < last:
        return f"walks {first} to {search.done} of {last} are over: no shorter march"
    return f"walks {first} to {last}: no shorter march"


def main(arguments: list[str]) -> int:
    plain, options = words_of(__doc__, arguments, OPTIONS, 1, 2)
    words = Words.of(plain[0], options)
    target = plain[1] if len(plain) > 1 else None
    refuse_inputs(target, words.inputs)
    wish, beyond = wish_of(words)
    shown = Shown(sys.stderr, words.clock)
    finder = Finder(wish, shown)
    part = ""
    try:
        part = searched(finder, words, None if "--prove" in options else TRIED)
    except KeyboardInterrupt:
        if finder.best is None:
            raise
        tell("design: ended; this is the best march so far")
    shown.end()
    answers = Answers.of(words, finder, beyond)
    print("\n".join([*told(answers), *([part] if part else [])]))
    if target is not None:
        write_whole(target, f"{answers.march}\n")
    return 0 if answers.is_whole else 1
