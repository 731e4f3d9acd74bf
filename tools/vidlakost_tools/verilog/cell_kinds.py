"""The kinds of Yosys' cells, and the operators of the subset that they are."""
from __future__ import annotations


BITWISE = {"$and": "&", "$or": "|", "$xor": "^", "$_AND_": "&", "$_OR_": "|", "$_XOR_": "^"}
INVERTED = {"$xnor": "^", "$_NAND_": "&", "$_NOR_": "|", "$_XNOR_": "^"}
SUMS = {"$add": "+", "$sub": "-"}
EQUAL = {"$eq": ("==", "&"), "$eqx": ("==", "&"), "$ne": ("!=", "|"), "$nex": ("!=", "|")}
ORDERS = {"$lt": "<", "$le": "<=", "$gt": ">", "$ge": ">="}
REDUCTIONS = {"$reduce_and": "&", "$reduce_or": "|", "$reduce_bool": "|", "$reduce_xor": "^", "$reduce_xnor": "^"}
SHIFTS = {"$shl": "<<", "$shr": ">>", "$shift": ">>", "$shiftx": ">>"}
SAME = ("$pos", "$_BUF_")
NOT = ("$not", "$_NOT_")
CHOICES = ("$mux", "$_MUX_", "$_NMUX_")
HALVES = {"$_ANDNOT_": "&", "$_ORNOT_": "|"}
THREE = {"$_AOI3_": "(~(({A} & {B}) | {C}))", "$_OAI3_": "(~(({A} | {B}) & {C}))"}
FOUR = {"$_AOI4_": "(~(({A} & {B}) | ({C} & {D})))", "$_OAI4_": "(~(({A} | {B}) & ({C} | {D})))"}
COMPOUND = {**THREE, **FOUR}
FLIP_FLOPS = ("$dff", "$_DFF_P_")
OPEN_CELLS = ("$anyseq", "$anyconst", "$allseq", "$allconst")
