"""Ntekuzino: one rule sheet from one recording. Every public call of the proved library, through its desk.

>>> import ntekuzino
>>> learned = ntekuzino.learn(3, [ntekuzino.transition(7, 3), ntekuzino.transition(3, 1)])
>>> learned.code, learned.piece.sheet
(0, [0, 1048577, 1048578, 1052672, 2097153, 2097154])
>>> ntekuzino.rule_of(1052672)
Rule(head=1, on=(2,), off=())
>>> print(ntekuzino.sheet(".i 1\\n.o 1\\n.type fr\\n0 0\\n.e\\n").text, end="")
.i 1
.o 1
.type f
.p 1
1 1
.e
>>> ntekuzino.lookup(".i 1\\n.o 1\\n.ilb PUMP\\n.ob PUMP\\n.type fr\\n.e\\n", "", 0)
LookedUp(text=0, start=15, length=4, name=b'PUMP')
>>> ntekuzino.read_sheet(".i 2\\n.o 2\\n.type f\\n-1 01\\n1- 10\\n.e\\n").words
[1024, 1050624]
>>> ntekuzino.check(".i 1\\n.o 1\\n.type f\\n1 1\\n1 1\\n.e\\n").text
'refused 5 at 0\\n'
>>> ntekuzino.explain(".i 1\\n.o 1\\n.type fr\\n0 0\\n")
'refused 11 at 5\\nThe text ends after line 4, with no end mark. A recording ends with a line `.e` or `.end`.'
"""
from .calls import (
    Answer,
    Applied,
    Fresh,
    LookedUp,
    Piece,
    Ran,
    Reading,
    Rule,
    Session,
    SessionTaken,
    Started,
    Taken,
    Written,
    apply,
    columns,
    fresh,
    join,
    learn,
    lookup,
    read,
    read_sheet,
    rule_of,
    run,
    session_start,
    session_take,
    shared,
    state_of,
    take,
    transition,
    transition_of,
    write_sheet,
)
from .checking import check
from .desk import Desk, DeskError, version
from .explaining import explain
from .sheets import Outcome, sheet

__version__ = "4.0.0"

__all__ = [
    "Answer", "Applied", "Desk", "DeskError", "Fresh", "LookedUp", "Outcome", "Piece", "Ran", "Reading", "Rule", "Session", "SessionTaken", "Started",
    "Taken", "Written", "apply", "check", "columns", "explain", "fresh", "join", "learn", "lookup", "read", "read_sheet", "rule_of", "run",
    "session_start", "session_take", "shared", "sheet", "state_of", "take", "transition", "transition_of", "version", "write_sheet",
]
