"""The tables of an archive run: plain text, comma separated values, and one page for a browser."""
from __future__ import annotations

import csv
import html
import io
import os
import re
from collections import Counter
from pathlib import Path
from typing import TYPE_CHECKING, Iterable
from urllib.parse import quote

from .texts import shown_name

if TYPE_CHECKING:
    from .archive import Entry, Result

#: What a code says, in a few words.
CODES = {
    7: "two rows disagree on a state",
    8: "too many states",
    9: "too many rules",
    11: "the text breaks the layout",
    13: "the text is too long",
}


def _cell(value: int | None) -> str:
    return "-" if value is None else str(value)


def _file(entry: Entry) -> str:
    return shown_name(entry.name) + ".pla"


def summary(entries: list[Entry]) -> str:
    """The last line of the table."""
    sheets = sum(entry.is_sheet for entry in entries)
    refused = sum(entry.is_refused for entry in entries)
    unread = len(entries) - sheets - refused
    return f"{len(entries)} recordings, {sheets} sheets, {refused} refused" + (f", {unread} not read" if unread else "")


def text_table(result: Result) -> bytes:
    """table.txt: a line for each recording, what was passed over, and the counts."""
    wide = max(4, *(len(_file(entry)) for entry in result.entries))
    lines = [f"{'file':{wide}}  relays   rows   rules  answer"]
    for e in result.entries:
        lines.append(f"{_file(e):{wide}}  {_cell(e.relays):>6}  {_cell(e.rows):>5}  {_cell(e.rules):>6}  {e.told}")
    lines += [f"passed over: {shown_name(name)}: {why}" for name, why in result.passed_over]
    lines.append(summary(result.entries))
    return "".join(line + "\n" for line in lines).encode("utf-8", "replace")


def csv_table(result: Result) -> bytes:
    """table.csv: the same with code, place, explanation and digests."""
    out = io.StringIO()
    table = csv.writer(out, lineterminator="\n")
    table.writerow("file relays rows rules answer code place line why recording_sha256 answer_sha256 version".split())
    for e in result.entries:
        numbers = ["" if value is None else value for value in (e.relays, e.rows, e.rules)]
        code = ["" if value is None else value for value in (e.code, e.place)]
        table.writerow([_file(e), *numbers, e.answer, *code, e.line, e.why, e.recording_sha256, e.answer_sha256, e.version])
    return out.getvalue().encode("utf-8", "replace")


_STYLE = """
body { font: 16px/1.45 system-ui, sans-serif; margin: 2rem auto; max-width: 75rem; padding: 0 1rem; color: #1c1f23; background: #fff; }
h1 { font-size: 1.5rem; margin-bottom: .2rem; } h2 { font-size: 1.15rem; margin-top: 2rem; }
p.of { color: #5a6470; margin-top: 0; overflow-wrap: anywhere; }
table { border-collapse: collapse; width: 100%; margin-bottom: 1.2rem; } table.codes { width: auto; } th, td { text-align: left; vertical-align: top; padding: .35rem .7rem .35rem 0; border-bottom: 1px solid #dde2e7; }
th { font-weight: 600; border-bottom: 2px solid #9aa5b1; } td.n, th.n { text-align: right; font-variant-numeric: tabular-nums; padding-right: 1.2rem; }
td.file { overflow-wrap: anywhere; max-width: 22rem; } code { font: .9em ui-monospace, monospace; background: #f1f3f5; padding: .05rem .25rem; white-space: pre-wrap; overflow-wrap: anywhere; }
.refused { color: #a3161b; font-weight: 600; white-space: nowrap; } .done { color: #1a6b2f; } ul { padding-left: 1.2rem; } a { color: #0b57a4; }
@media (prefers-color-scheme: dark) { body { color: #e4e7eb; background: #15181c; } p.of { color: #9aa5b1; } th, td { border-color: #333a42; } code { background: #23282e; } a { color: #7db7f0; } .refused { color: #ff8a8a; } .done { color: #7fd698; } }
"""


def _text(what: str) -> str:
    return html.escape(what.encode("utf-8", "replace").decode("utf-8"))


def _sentence(what: str) -> str:
    """Words between backquotes as the page sets code."""
    return re.sub("`([^`]*)`", r"<code>\1</code>", _text(what))


def _link(path: Path, start: Path, label: str) -> str:
    target = os.path.relpath(path.absolute(), start.absolute())
    return f'<a href="{html.escape(quote(os.fsencode(target)))}">{_text(label)}</a>'


def _head(columns: Iterable[str]) -> str:
    cells = "".join(f'<th class="n">{c[1:]}</th>' if c.startswith("#") else f"<th>{c}</th>" for c in columns)
    return f"<tr>{cells}</tr>"


def _number(value: int | None) -> str:
    return f'<td class="n">{"" if value is None else format(value, ",")}</td>'


def _refused_table(result: Result, folder: Path, out: Path) -> str:
    rows = []
    for e in sorted((e for e in result.entries if not e.is_sheet), key=lambda e: (e.code is not None, e.code or 0)):
        line = f"<br><code>{_text(e.line)}</code>" if e.line else ""
        answer = _link(out / f"{e.name}.out", out, e.answer) if e.is_refused else _text(e.answer)
        rows.append(
            f'<tr><td class="file">{_link(folder / f"{e.name}.pla", out, _file(e))}</td><td class="refused">{answer}</td>'
            f"<td>{_sentence(e.why)}{line}</td>{_number(e.relays)}{_number(e.rows)}</tr>"
        )
    if not rows:
        return "<p>None: every recording has its sheet.</p>"
    return f"<table>{_head(['recording', 'answer', 'why', '#relays', '#rows'])}{''.join(rows)}</table>"


def _sheet_table(result: Result, folder: Path, out: Path) -> str:
    rows = []
    for e in (e for e in result.entries if e.is_sheet):
        rows.append(
            f'<tr><td class="file">{_link(folder / f"{e.name}.pla", out, _file(e))}</td><td class="done">{_link(out / f"{e.name}.out", out, e.answer)}</td>'
            f"{_number(e.relays)}{_number(e.rows)}{_number(e.rules)}</tr>"
        )
    return f"<table>{_head(['recording', 'sheet', '#relays', '#rows', '#rules'])}{''.join(rows)}</table>" if rows else "<p>None.</p>"


def _codes(result: Result) -> str:
    counts = Counter(e.code for e in result.entries if e.is_refused)
    if not counts:
        return ""
    untyped = sum(bool(e.short) for e in result.entries)
    says = {**CODES, 11: f"{CODES[11]} ({untyped:,} for want of a type line)"} if untyped else CODES
    rows = "".join(f'<tr>{_number(code)}<td>{_text(says.get(code or 0, ""))}</td>{_number(count)}</tr>' for code, count in sorted(counts.items()))
    return f'<table class="codes">{_head(["#code", "says", "#recordings"])}{rows}</table>'


def _names(title: str, names: list[str]) -> str:
    return f"<li>{title}: {', '.join(_text(shown_name(name)) for name in names)}</li>" if names else ""


def _changed(result: Result) -> str:
    changes = result.changes
    if changes is None:
        return "<p>There was no run before this one.</p>"
    items = _names("new", changes.new) + _names("gone", changes.gone) + _names("answered otherwise", changes.other)
    return f"<ul>{items}</ul>" if items else "<p>Nothing.</p>"


def _passed(result: Result) -> str:
    if not result.passed_over:
        return "<p>Nothing.</p>"
    return "<ul>" + "".join(f"<li>{_text(shown_name(name))}: {_text(why)}</li>" for name, why in result.passed_over) + "</ul>"


def html_page(result: Result, folder: Path, out: Path, version: str) -> bytes:
    """index.html: what was refused first, with its reason."""
    parts = [
        '<!DOCTYPE html>\n<html lang="en"><head><meta charset="utf-8"><meta name="viewport" content="width=device-width, initial-scale=1">',
        f"<title>Rule sheets: {_text(summary(result.entries))}</title><style>{_STYLE}</style></head><body>",
        f"<h1>{_text(summary(result.entries))}</h1>",
        f'<p class="of">of {_text(shown_name(os.fspath(folder.absolute())))}, by {_text(version)}</p>',
        '<p><a href="#refused">Refused</a> · <a href="#changed">Changed since the last run</a> · <a href="#passed-over">Passed over</a> · <a href="#sheets">Sheets</a></p>',
        '<h2 id="refused">Refused</h2>',
        _codes(result),
        _refused_table(result, folder, out),
        '<h2 id="changed">Changed since the last run</h2>',
        _changed(result),
        '<h2 id="passed-over">Passed over</h2>',
        _passed(result),
        '<h2 id="sheets">Sheets</h2>',
        _sheet_table(result, folder, out),
        "</body></html>\n",
    ]
    return "\n".join(part for part in parts if part).encode("utf-8")
