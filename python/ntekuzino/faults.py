"""What is wrong with a line of a text, a recording's or a sheet's. That it is faulty, the proved reader decides; this tells why."""
from __future__ import annotations

from dataclasses import dataclass, field

from . import texts
from .texts import Line, counted

_SIZES = (b".i", b".o")
_NAMES = (b".ilb", b".ob")
_TYPE = b".type"
_HEADERS = (*_SIZES, *_NAMES, _TYPE, b".p")
_ENDS = (b".e", b".end")
_LETTERS = frozenset(b"ABCDEFGHIJKLMNOPQRSTUVWXYZabcdefghijklmnopqrstuvwxyz0123456789_")
_ORDINALS = ("first", "second", "third", "fourth", "fifth", "sixth", "seventh", "eighth", "ninth", "tenth")


@dataclass(frozen=True)
class Kind:
    """A kind of text: its name and type, what is said of other types and where there is none, and whether a row has exactly one `1` in its output."""

    name: str
    type: bytes
    other_types: dict[bytes, str]
    untyped: str
    one_on: bool


RECORDING = Kind(
    "recording",
    b"fr",
    {
        b"f": " A text of `.type f` is a sheet, not a recording: `ntekuzino check` reads it.",
        b"fd": " In a text of `.type fd` a `0` of an output says nothing.",
    },
    "; without the line the published format means `fd`, where a `0` of an output says nothing. "
    "Whoever knows that every `0` was seen adds the line: no program can know it.",
    False,
)
SHEET = Kind(
    "sheet",
    b"f",
    {b"fr": " A text of `.type fr` is a recording, not a sheet: `ntekuzino sheet` prints its sheet."},
    "; without the line the text may be a recording. Whoever knows that it is a sheet adds the line.",
    True,
)


@dataclass
class _Before:
    """What stands before a line: the line of each header, what it says, the first row and the end mark."""

    line: dict[bytes, int] = field(default_factory=dict)
    says: dict[bytes, tuple[bytes, ...]] = field(default_factory=dict)
    first_row: int = 0
    end: int = 0


def _before(lines: list[Line]) -> _Before:
    so_far = _Before()
    for line in lines:
        if line.is_row:
            so_far.first_row = so_far.first_row or line.number
        elif line.fields and line.fields[0] in _ENDS:
            so_far.end = line.number
        elif line.fields:
            so_far.line[line.fields[0]] = line.number
            so_far.says[line.fields[0]] = line.fields[1:]
    return so_far


def _named(raw: bytes) -> str:
    return f"`{texts.shown(raw)}`"


def _other(two: tuple[bytes, bytes], name: bytes) -> bytes:
    return two[1] if name == two[0] else two[0]


def _untyped(line: Line, so_far: _Before) -> bool:
    """A row or the end mark that has both sizes before it, and no type line."""
    ends_headers = line.is_row or (line.fields != () and line.fields[0] in _ENDS)
    return ends_headers and _TYPE not in so_far.line and all(name in so_far.line for name in _SIZES)


def _lacking(kind: Kind, line: Line, so_far: _Before, where: str) -> str:
    """What must stand before the first row or the end mark, and does not."""
    gone = [name for name in _SIZES if name not in so_far.line]
    if gone:
        return f"Before {where} there must be {' and '.join(_named(name) for name in gone)}."
    if _untyped(line, so_far):
        return f"No type line stands before line {line.number}, {where}. A {kind.name} has `.type {kind.type.decode()}` among its headers{kind.untyped}"
    alone = [name for name in _NAMES if name in so_far.line]
    if len(alone) == 1:
        return f"{_named(alone[0])} in line {so_far.line[alone[0]]} has no {_named(_other(_NAMES, alone[0]))} beside it before {where}; a {kind.name} has both or neither."
    return ""


def _size_fault(line: Line, so_far: _Before) -> str:
    name, value = line.fields[0], line.fields[1]
    other = _other(_SIZES, name)
    if not value.isdigit():
        return f"{_named(value)} is no number."
    if value.startswith(b"0") or len(value) > 2 or int(value) > 10:
        return f"A panel has 1 to 10 relays, written without leading zeros; {_named(value)} is none of them."
    if so_far.says.get(other) not in (None, (value,)):
        return f"{_named(other)} in line {so_far.line[other]} says {texts.shown(so_far.says[other][0])}; inputs and outputs must be equally many."
    for names in _NAMES:
        if names in so_far.line and len(so_far.says[names]) != int(value):
            return f"{_named(name)} says {int(value)}, but {_named(names)} in line {so_far.line[names]} has {counted(len(so_far.says[names]), 'name', 'names')}."
    return ""


def _name_fault(names: tuple[bytes, ...], k: int) -> str:
    """What is wrong with a name by itself, and beside those before it."""
    name = names[k]
    this = f"The {_ORDINALS[k]} name, {_named(name)},"
    wrong = next((at for at, byte in enumerate(name) if byte not in _LETTERS), None)
    if wrong is not None:
        return f"{this} has {_named(name[wrong : wrong + 1])} in it; a name has letters, digits and underscores, and blanks part the names."
    if len(name) > 16:
        return f"{this} has {len(name)} characters; a name has 1 to 16."
    if name in names[:k]:
        return f"{this} is the {_ORDINALS[names.index(name)]} as well; the names of a line differ."
    return ""


def _names_differ(line: Line, other: bytes, so_far: _Before) -> str:
    """Where a name line is not that of the inputs or outputs before it."""
    here, there = line.fields[1:], so_far.says[other]
    before = f"{_named(other)} in line {so_far.line[other]}"
    if len(here) != len(there):
        return f"{before} has {counted(len(there), 'name', 'names')}, {_named(line.fields[0])} has {len(here)}; both must have the same."
    k = next((k for k, (a, b) in enumerate(zip(here, there)) if a != b), None)
    return "" if k is None else f"{before} has other names: the {_ORDINALS[k]} is {_named(there[k])} there and {_named(here[k])} here."


def _names_fault(line: Line, so_far: _Before) -> str:
    key, names = line.fields[0], line.fields[1:]
    if not names:
        return f"{_named(key)} has no names; it takes one for each relay."
    if len(names) > 10:
        return f"{_named(key)} has {len(names)} names; a panel has 1 to 10 relays."
    wrong = next((fault for fault in (_name_fault(names, k) for k in range(len(names))) if fault), "")
    if wrong:
        return wrong
    for size in _SIZES:
        if size in so_far.line and int(so_far.says[size][0]) != len(names):
            return f"{_named(size)} in line {so_far.line[size]} says {texts.shown(so_far.says[size][0])}, but {_named(key)} has {counted(len(names), 'name', 'names')}."
    other = _other(_NAMES, key)
    return _names_differ(line, other, so_far) if other in so_far.line else ""


def _p_fault(line: Line, rows: int) -> str:
    value = line.fields[1]
    if not value.isdigit():
        return f"{_named(value)} is no number."
    if value.startswith(b"0") and value != b"0":
        return "A number has no leading zeros."
    # Of any length, so it is not made a number.
    return "" if value == b"%d" % rows else f"It says {texts.shown(value)}, but the text has {counted(rows, 'row', 'rows')}."


def _type_fault(kind: Kind, told: bytes) -> str:
    return "" if told == kind.type else f"The type of a {kind.name} is {_named(kind.type)}, not {_named(told)}.{kind.other_types.get(told, '')}"


def _header_fault(kind: Kind, line: Line, so_far: _Before, rows: int) -> str:
    name = line.fields[0]
    if name not in _HEADERS:
        return f"{_named(name)} is no header of a {kind.name}: they are `.i`, `.o`, `.ilb`, `.ob`, `.type`, `.p`, and `.e` or `.end` at the end."
    if name in so_far.line:
        return f"{_named(name)} stands twice: line {so_far.line[name]} has it already."
    if so_far.first_row:
        return f"Headers stand before the first row, which is line {so_far.first_row}."
    if name in _NAMES:
        return _names_fault(line, so_far)
    if len(line.fields) != 2:
        return f"{_named(name)} has {counted(len(line.fields) - 1, 'value', 'values')}; it takes one."
    if name == _TYPE:
        return _type_fault(kind, line.fields[1])
    return _p_fault(line, rows) if name == b".p" else _size_fault(line, so_far)


def _cells_fault(cells: bytes, allowed: bytes, n: int, what: str) -> str:
    wrong = next((k for k, cell in enumerate(cells) if cell not in allowed), None)
    if wrong is not None:
        marks = ", ".join(f"`{chr(mark)}`" for mark in allowed)
        return f"Column {wrong} of the {what} is {_named(cells[wrong : wrong + 1])}; only {marks} can stand there."
    if len(cells) != n:
        return f"The row has {counted(len(cells), f'{what} column', f'{what} columns')}; the panel has {n} relays."
    return ""


def _one_on_fault(output: bytes) -> str:
    """A rule is for one relay: one output of its row is `1`."""
    on = [str(k) for k, cell in enumerate(output) if cell == ord("1")]
    if len(on) == 1:
        return ""
    if not on:
        return "The output has no `1`; a row is a rule for one relay, which has the `1`."
    return f"The output has {len(on)} `1`s, in columns {', '.join(on[:-1])} and {on[-1]}; a row is a rule for one relay: write a row for each."


def _row_fault(kind: Kind, line: Line, so_far: _Before) -> str:
    lacking = _lacking(kind, line, so_far, "the first row")
    if lacking:
        return lacking
    n = int(so_far.says[b".i"][0])
    fault = _cells_fault(line.fields[0], b"01-", n, "input")
    if fault:
        return fault
    if len(line.fields) != 2:
        more = " A comment begins with `#`." if len(line.fields) > 2 else ""
        return f"A row has two fields, input and output; this one has {len(line.fields)}.{more}"
    return _cells_fault(line.fields[1], b"01", n, "output") or (_one_on_fault(line.fields[1]) if kind.one_on else "")


def _odd_byte(line: Line) -> str:
    """A byte that no line has outside a comment."""
    plain = line.raw.split(b"#", 1)[0]
    odd = next((k for k, byte in enumerate(plain) if not (byte == 9 or 32 <= byte < 127)), None)
    if odd is None:
        return ""
    return f"Byte {odd + 1} of the line is {plain[odd]} (hexadecimal {plain[odd]:02x}), which only a comment can have."


def _marks_fault(line: Line, crs: int) -> str:
    """What people with Windows meet first."""
    if line.number == 1 and line.raw.startswith(b"\xef\xbb\xbf"):
        return "The text begins with a byte order mark (the bytes ef bb bf). Save it as plain ASCII, or as UTF-8 without the mark."
    if line.number == 1 and line.raw[:2] in (b"\xff\xfe", b"\xfe\xff"):
        return "The text is UTF-16, as some Windows programs save it. Save it as plain ASCII."
    if line.raw.split(b"#", 1)[0].endswith(b"\r"):
        return f"The line ends with CR, as Windows writes line ends ({counted(crs, 'line does', 'lines do')}). Save the text with Unix line ends, LF alone."
    return _odd_byte(line)


def _end_fault(kind: Kind, line: Line, so_far: _Before) -> str:
    alone = "" if len(line.fields) == 1 else f"{_named(line.fields[0])} stands alone on its line."
    return _lacking(kind, line, so_far, "the end mark") or alone


def _at(lines: list[Line], place: int) -> tuple[Line, _Before, str]:
    """A line, what stands before it, and what is wrong with its bytes."""
    line = lines[place - 1]
    return line, _before(lines[: place - 1]), _marks_fault(line, sum(each.raw.endswith(b"\r") for each in lines))


def line_fault(lines: list[Line], place: int, kind: Kind) -> str:
    """What is wrong with a line of such a text, those before it being good; nothing where nothing is found."""
    line, so_far, marks = _at(lines, place)
    if marks or not line.fields:
        return marks
    if so_far.end:
        return f"After the end mark, line {so_far.end}, only blank lines and comments can follow."
    if line.is_row:
        return _row_fault(kind, line, so_far)
    if line.fields[0] in _ENDS:
        return _end_fault(kind, line, so_far)
    return _header_fault(kind, line, so_far, sum(each.is_row for each in lines))


def no_type_line(text: bytes, place: int) -> str:
    """In a few words, where the explanation of a text that reading refuses with 11 is that it has no type line; else nothing."""
    lines = texts.lines(text)
    if place > len(lines):
        return ""
    line, so_far, marks = _at(lines, place)
    return f"no type line before line {place}" if not (marks or so_far.end) and _untyped(line, so_far) else ""


def why_unread(text: bytes, place: int, kind: Kind) -> tuple[str, str]:
    """Of a text that reading refuses with 11: the faulty line as it stands, and what is wrong with it."""
    lines = texts.lines(text)
    if place > len(lines):
        end = "The text is empty." if not lines else f"The text ends after line {len(lines)}, with no end mark."
        return "", f"{end} A {kind.name} ends with a line `.e` or `.end`."
    return texts.shown(lines[place - 1].raw), line_fault(lines, place, kind) or "The line does not belong there."


def sheet_line(text: bytes) -> int:
    """The line that makes a text a sheet's: its first type line, if that says `f`, be it with the CR of Windows; else 0."""
    typed = next((line for line in texts.lines(text) if line.fields[:1] == (_TYPE,)), None)
    return typed.number if typed and typed.fields[1:] in ((SHEET.type,), (SHEET.type + b"\r",)) else 0
