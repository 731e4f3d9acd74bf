"""The parts of the pages of the trusted definitions: their files, the order of these, and the text above them."""
from __future__ import annotations

import dataclasses
import fnmatch

SIGNS = """\
*How to read it.* `Name : A → B → Type 0` declares a relation or a statement about an A and a B; the lines below say
what it means, case by case. `(x : A) × P x` is "some x with P", `(x : A) → P x` is "for every x, P", `A ⊎ B` is "A or
B", `A × B` is "A and B", `A → ⊥` is "not A", `a ≡ b` is equality; a `record` holds where all its fields do. Numbers
are natural, without bound; `List`, `Option` (`Some`, `None`) and `Result` (`Ok`, `Err`) are as in Rust, and texts are
lists of bytes (`codes "en"`). What is taken from the kit's library (numbers, lists, texts of digits) is not shown.
"""

HEADLINE_TITLE = (
    """# The headline, and all that it stands on

A proof is worth as much as the statement that it proves. This page has each definition that the headline stands on,
whole, with its comment; nothing else of the repository's definitions has to be read in order to know what it promises,
and no code. `H.state` in the clause is what a host tells: its files, what was said and the counts of its faults; in a
Rust type a `Prim` stands for its `Primitive`, a `DynPrim` for its `DynamicPrimitive`, a `Scramble` for its
`Scrambling`, a `Name` for its bytes, and the page shows what each is seen as.

"""
    + SIGNS
    + """
*Where to begin.* The clause below is the headline. Read `Headline.antt` at the end of the first part, then from the
beginning what it names. The first part takes an hour; the parts behind it say what its words rest on.
"""
)

OTHERS_TITLE = (
    """# What the other clauses of the top call stand on

Each definition that a clause of `run` stands on and the headline doesn't: those of the other commands and statuses. The
page of the headline has the others. `told` in a clause is what a box tells (the trait `Device`).

"""
    + SIGNS
)

INDEX_TITLE = """# What has to be trusted

Each definition that a clause of the top call `run` stands on, and behind these each that another clause does which
docs/PROMISES.md names: a mark of its text (the first ten digits of its SHA-256, comment and all), its name, and what
of the repository's definitions it names itself. So a definition that changes is one line of a difference here, and
the gate compares this page with the sources. Lines of a definition are not told, since one that grows would move all
below it. `dev/trusted` prints the definitions of the headline whole, in the order in which to read them, and
`dev/trusted --others` those of the other clauses; a release has both as pages.
"""


@dataclasses.dataclass(frozen=True)
class Part:
    """A part of the pages, with the text above its definitions on the page of the headline, and the one on that of the
    others."""

    title: str
    words: str
    further: str
    files: tuple[str, ...]

    def has(self, crate: str, file: str) -> bool:
        return any(fnmatch.fnmatchcase(f"{crate}/{file}", pattern) for pattern in self.files)

    def place(self, crate: str, file: str) -> int:
        return next(
            place for place, pattern in enumerate(self.files) if fnmatch.fnmatchcase(f"{crate}/{file}", pattern)
        )


PARTS = (
    Part(
        "The hour: what is claimed",
        """
What a march does to cells, what a fault is and when a march detects it, for static faults and for those of two
operations; what a march is on the words of a memory, and which commands it gives at the port; what a module of the
Verilog subset means in a cycle and from cycle to cycle; the rule of the ports; what a self-test is; and last the
headline, which puts them together.

- **Marches.** An element is a pause, or an order and operations. A direction stands for each element, as its order
  allows; the visits are one list of steps: for each element in order a pause, or for each address in the element's
  direction each of its operations. A march is within its limits, and each read expects what was written last before it.
- **Faults.** A primitive says what the aggressor holds and does, if there is one, what the victim holds and what is
  done to it, the victim's state afterwards, and the answer of a read. A step is the plain part of an operation, then
  the victim's state and the answer where the operation is the primitive's own and its states hold, then *closing*: a
  primitive without an act sets its victim where its states hold. A dynamic primitive has two operations; behind the
  first one, done where every state held, the victim is *armed*, and nothing else leaves it so.
- **Detection.** In an array, at a place, from a content, in these directions: the read of some visit differs from what
  the march expects (`SomeDiffersBy`, by what the steps before that visit left). Detected at n cells: so at every place,
  from every content, in every choice of directions. Detected: at every n from two on.
- **Words.** The march runs in each background, one after another; an operation acts on the word whose index it visits,
  at the logical address of the index, with the background's word of its data value. `command_at` is the cycle of a
  command behind the first, with the pauses before it, and `PortRule` says what stands at the ports in each cycle,
  whatever words return.
- **Operators** (`Operators.antt`: `operator`, a row for each): sums and differences modulo two to the width, shifts
  that bring in zeros and give 0 from the width on, comparisons and logical operators of one bit.
- **Width and value** (`Meaning.antt`: `width`, `value`): by cases on the expression, a concatenation with its first
  part highest. All values are unsigned.
- **Settles** (`Settles module regs ins e`): `e` gives each name a number within its bits (the clock and names that
  aren't declared have none, so they get 0); each input but the clock has its value in `ins`, each register its value in
  `regs`; each assigned name has, in this same `e`, the value of its expression. These are simultaneous equations; no
  order is given.
- **Next registers** (`next`): the taken statements of all blocks give a list of pairs, register and value, in the order
  of the text, every condition and value taken in `e`; a register gets the value of its last pair, or keeps its own.
- **History**: one environment a cycle; each settles with the registers that the cycle before leaves.
""",
        "What `check` promises (`Conformance.antt`), the second clause of its kind.",
        (
            "march_core/declared.operation",
            "march_core/Operation",
            "march_core/March",
            "march_core/Directions",
            "march_core/Runs",
            "march_core/declared.visit",
            "march_core/Visits",
            "fault_core/declared.primitive",
            "fault_core/Primitive",
            "fault_core/declared.cells",
            "fault_core/Cells",
            "array_sim/*",
            "dynamic_core/Primitive",
            "dynamic_core/declared.stepping",
            "dynamic_core/Dynamic",
            "dynamic_core/Differing",
            "dynamic_core/Detecting",
            "word_march/*",
            "verilog_tree/declared.tree",
            "verilog_tree/Plain",
            "verilog_tree/Operators",
            "verilog_tree/Meaning",
            "self_test/Ports",
            "self_test/SelfTest",
            "bist_app/Headline",
            "bist_app/Conformance",
        ),
    ),
    Part(
        "What a module is",
        """
The rules that a module keeps, when its wires form a loop and when one environment settles a cycle; which text a module
has, as it is written; and what a module means where some values are left open.

- **Names** (`Names.antt`): the declarations of a module are its ports, then its `wire` and `reg` items, in order;
  `lookup` finds the first of a name. Its kind is input, wire (also a plain output) or register (also `output reg`).
- A *mention* is a place where a name stands in an item: as its clock, as a target, or in an expression, whole or
  selected. `mentions item` lists them in the order of the text.
- `first_break module` is the first of: a port named twice (N2), a port `clk` that isn't an input of one bit (N10), the
  first break of the items in order, the first wire or plain output that no `assign` names (N9). `item_break` is the
  first of N1 (a mention of a name not declared before), N2, N6, N3, N5, N4, N10, each at its first place. N3
  (`item_widths`) tries the parts of an expression from left to right, then the expression; the expression of an
  assignment, then its target; the subject of a `case`, then arm by arm the labels and the body.
- **Loops** (`Wires.antt`): `Leads items n m`: `n` is assigned an expression that uses `m`. `IsLoop module names`: each
  name leads to the next, and the last to the first. `Falls rank items`: a number for each name that falls along
  `Leads`.
- **Formed** (`Formed.antt`): widths from 1 to 64, places at most 63, a module has a port, a concatenation a part, a
  `case` an arm, an arm a label, and each literal's value is within its width (which `Bits` sees to). **Fits**
  (`Fits.antt`): formed, the names legal, and the emitted text nests at most 64 deep.
- **The text of a module** (`Printed.antt`, `Written.antt`): its layout, byte for byte: a line for each port,
  declaration, `assign` and statement, two blanks for each depth, parentheses round each operator, `begin` and `end`
  round each body, and literals in hexadecimal. **`IsTextOf bytes module`**: the module fits (of `2'd7` Verilog would
  take 3, and a reserved word is no name), and the bytes are its layout. So there is one text of a module; each of its
  bytes is a line feed, a blank or another printable one, and no `/`, so it has no comment (`plain` of
  `texts_are_of_one_module`); and by the grammar of the reader, its limits aside, it spells that module and no other
  (`derived`, `no_other`).
""",
        """
Which bytes spell which module, as they are read: the grammar in full parentheses and by precedence, and the limits of
the reader, which takes further texts of a module than its layout (other white space, more parentheses, a body without
`begin`, `wire a, b;`). At the end stands what a controller issues (`Issues`), of which `check` speaks: a number that
stands in the open run stands in every history, and the answer is the first cycle and port where it has none, or another
than the rule of the ports wants.

- `Refuses break result`: Ok exactly where there is no break, else the fault that tells it. Want of memory tells
  nothing.
- **Words** (`Words.antt`): a simple identifier begins with a letter or `_` and goes on with letters, digits, `_`, `$`;
  a name is one that isn't among the 124 reserved words (`bist_text/specs/ReservedWords`) and has at most 64 bytes.
- **Tokens** (`Tokens.antt`): an identifier with its bytes; a number, by whether it has more than one digit, and its
  value; a literal, as the constant that its size and digits write (`Based`); a literal of base b, o or h with a `?`
  directly behind it (`Unused`, which no rule uses); a mark. The marks `~&`, `~|`, `~^`, `^~` and `&&&` of the
  standard are `Unused` too. A byte begins a word, a number, a mark or no token (`start_of`), and a token takes as
  many bytes as there are (`run`, `decimal`, `digits`, `behind_mark`), so that it is the longest at its place.
  `Lexed tokens bytes`: the bytes are these tokens in order, with white space before, between and behind them. White
  space (`gap`) is spaces, tabs, line feeds, form feeds and carriage returns, `//` to the line's end or the file's,
  and `/*` to the next `*/`.
- **Grammar** (`Grammar.antt`): a derivation is a datum with one constructor for each alternative of the grammar
  (braces, `if` with and without `else`, blocks, a default with or without its colon, a declaration of several names).
  `file style limit derivation tokens` says that the tokens are those of the derivation; each rule stands as a line of
  the grammar above its clause. An `else` demands that the statement before it does not end in an `if` without `else`
  (`ends_in_if`): so it belongs to the nearest `if`. `file_tree` is the tree: parentheses leave no trace, a block is its
  list and is spliced into a list, `wire a, b;` is two items, `[h:0]` gives `h + 1`.
- **Expressions** come in two styles. In full parentheses (`Parenthesised.antt`) each operator has its own. Where
  operators bind by precedence (`Free.antt`), rule 0 is `un`, and rule k + 1 joins operands of rule k by the operators
  of height k + 1, to the left, up to `lor`, rule 9; `height` is in the table of operators, and a choice stands above
  them and groups to the right. An expression that stands in no other has at most so many operators (`operators`,
  counted on its tree; a choice is one).
- **Limits**: each rule counts how many of `(`, `{`, `begin`, `case` and `if` are open round it (`inside`, `deeper`; an
  `if` is open to the end of its statement), and a limit says how many may be. `Limits` says which limits a text keeps;
  `all_limits` are identifiers of at most 64 bytes, numbers of at most 63, literals with a size from 1 to 64 and a value
  that it holds, at most 64 open at once, and at most 256 operators in an expression by precedence.
- **`Text style limits bytes module`** (`Spells.antt`): there are tokens that keep the limits, and a derivation of them,
  whose tree is the module. **`Spells bytes module`** is that in full parentheses within all limits, and **`FreelySpells
  bytes module`** the same by precedence.
""",
        (
            "verilog_tree/declared.names",
            "verilog_tree/Names",
            "verilog_tree/Formed",
            "verilog_tree/Rules",
            "verilog_tree/Wires",
            "verilog_tree/Words",
            "verilog_tree/declared.tokens",
            "verilog_tree/Tokens",
            "verilog_tree/Pieces",
            "verilog_tree/Fits",
            "verilog_emit/Printed",
            "verilog_emit/Written",
            "verilog_tree/Free",
            "verilog_tree/Parenthesised",
            "verilog_tree/Grammar",
            "verilog_tree/Spells",
            "verilog_tree/*",
            "verilog_text/*",
            "verilog_read/*",
            "verilog_emit/*",
            "verilog_open/*",
            "verilog_code/*",
            "verilog_cycle/*",
            "port_check/*",
        ),
    ),
    Part(
        "What the texts are",
        """
What a memory is: its scrambling, an invertible matrix that gives the logical address of an index, and its backgrounds,
one word for each data value. Which bytes are a march, a memory, a primitive and a list, and what they say; and what the
report says of each primitive.

A grammar is a relation between bytes and the value that they write, built of pieces that take what may follow them, and
reads like the grammar in [FORMATS.md](FORMATS.md). The headline cites what bytes spell (`SpellsMarch`, `SpellsMemory`,
`SpellsItems`). A memory's lines are its *statements*: `AreOfMemory` says which memory they describe. The report has a
line for each primitive, by what the march makes of it, lines of the classes, and the total; the order of escapes is
placement, content, directions.
""",
        """
What a refused text is called. A text *continues* where some bytes behind it make it one of the grammar; the first byte
with which it doesn't is unexpected, and a text that continues and is none is truncated. A march is refused first where
its bytes are none, then by a limit, then by its first wrong read. A list goes line by line, and the first line that is
refused decides. All this stands in the relations `Reads`, whose accepted side is what bytes spell; for a memory a table
of steps on the list of statements says which refusal comes first.
""",
        (
            "bist_bits/*",
            "scrambler/*",
            "backgrounds/*",
            "memory_desc/Descriptions",
            "bist_text/*",
            "march_core/*",
            "march_syntax/*",
            "memory_desc/*",
            "fault_core/*",
            "fault_syntax/*",
            "dynamic_core/*",
            "pair_tracker/*",
            "cell_machine/*",
            "escape_array/*",
            "coverage/*",
            "dynamic_prover/*",
            "report_lines/*",
            "report/*",
        ),
    ),
    Part(
        "Several memories",
        "",
        """
What the command `chip` promises: which chip a file describes (its name, the budget, and of each unit the weight and two
files), in which groups its units are tested and when each group starts, what a chip is and does, and what its test is.

A chip is some modules and a top that places them (`ChipTree`). Each port of a placed module is linked to a net of the
top, and a link to an output counts as an assign to that net; so the top keeps the rules of a module and has no loop of
wires, whatever the placed modules put out (`IsChip`). The registers of all placed modules change at once (`Together`).
`ChipTest` says that exactly one environment settles a cycle, and what stands in each cycle of each history with one
reset: nothing of a unit before the start of its group, from there on the rule of the ports over the words of its own
memory, `done`, and that the weights of the enabled units are within the budget. Of the ports of a placed module `clk`
alone is linked to the top's `clk` (`Linked`). The text of a chip is its layout (`PrintedTop`): the texts of its modules
one behind another, then that of its top, in which the placed modules stand behind the wires and assigns. `ChipFile`
says that bytes are the text of such a chip and of no other. `TestedChip` is what the top call promises, without the
order of its checks; the checks in their order are `Chip`.
""",
        (
            "chip_desc/Chips",
            "chip_desc/*",
            "chip_plan/*",
            "chip_rtl/ChipTree",
            "chip_rtl/Together",
            "chip_rtl/Tops",
            "chip_rtl/ChipTest",
            "chip_rtl/ChipGrammar",
            "chip_rtl/*",
            "bist_inputs/Chips",
            "bist_app/Chip",
            "bist_app/TestedChip",
        ),
    ),
    Part(
        "Further verdicts",
        "",
        """
What `decoder`, `linked` and `inword` promise, each with its report.

- **The address decoder.** One address reaches no cell, another one, or one more; all others are right. A march detects
  such a fault where in every array, at every two addresses, from every content and in every choice of directions some
  read differs.
- **Links.** Two primitives with one victim, of which the second can hide what the first did. Detected is as for one
  primitive, in arrays of three cells and more.
- **Inside a word.** Aggressor and victim are two bits of one word. An operation on the word is one on both bits: the
  chip writes the word, and then the victim goes wrong. The test is the march in all backgrounds, with its pauses. It
  detects a primitive where at every two bits of every word, from every content of all words, some read is answered
  wrong.

What is covered is detected, in both directions; else the least escape stands in the report.
""",
        (
            "decoder_faults/*",
            "decoder_report/*",
            "linked_faults/*",
            "linked_report/*",
            "word_device/Chips",
            "word_coupling/Words",
            "word_coupling/Escapes",
            "word_coupling/Report",
            "bist_app/Decoder",
            "bist_app/Linked",
            "bist_app/InWord",
        ),
    ),
    Part(
        "What stands after a call",
        """
The words of a call, what each file gives, and the two lists of numbers that a generated text shows beside its march.
""",
        """
Which check refuses first and with which line, and what stands afterwards of the files, of what was said and of the
boxes, command by command; and for the commands that clock a module, what a box is and what is told of its run.

`Then` puts checks in their order: the first that refuses decides. Each command is its checks and what it leaves
(`Decides..`, `Leaves..`); `Ends` says of each way to end what stands of the files, of what was said and of the counts
of faults. A host may tell its files or not: what is said of files stands where it tells them. A box tells a chip
(words, a planted fault, answers under way), a script, or nothing.
""",
        ("bist_host/*", "bist_endings/*", "bist_inputs/*", "word_device/*", "bench/*", "self_test/*", "*"),
    ),
)
