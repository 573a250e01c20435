#!/usr/bin/env python3
"""Spells the repository's own definitions, lemmas and fields in snake case: `insertedAt` and `inserted-at` become `inserted_at`.

usage: tools/respell.py [--list]

It ran once, right after the kit's port.py, when the repository came to the Rattle of November 2026. It goes by whole words: in specs/ and
proofs/ the code and its comments, in src/ the clauses and the `ghost use` items. Names that a file imports from a library stay, as do the
names of types, of modules and of functions of src/, and a function's Proof.antt (tools/answers turns it, by the table that this script
leaves in tools/respelled.tsv). A word of MEETS would meet another name, and gets the one that stands there.
--list prints the names that change, and those that meet another, and writes nothing.
"""
import os
import re
import sys

WORD = re.compile(r'[^\s(){}.;,@"«»]+')
DECLARED = re.compile(r"(?m)^ *(?:(?:abbrev|unfoldable|pub|let|where) +)*([^\s(){}.;,@\"«»λ:|]+)(?: \{[^{}\n]*\})* :(?=\s)")
TYPE = re.compile(r"(?m)^(?:pub )?(?:data|record) (\S+)")
USE = re.compile(r"(?m)^\s*(?:pub )?(?:ghost )?use ([^\s;{]+?)\.?(\{[^}]*\})?(?: as (\S+?))?;?$")
CLAUSE = re.compile(r"\b(?:requires|ensures|ghost)\b\s*\*?\s*(?:\w+\s*)?(?:[:=]\s*)?\{")

# Fields that would hide the definitions of which they speak, and definitions that meet a constructor.
MEETS = {
    "book-in": "book_in_slice", "sheet-in": "sheet_in_slice", "good_book": "book_is_good", "good-sheet": "sheet_is_good", "tooLong": "is_too_long",
    "take_steps": "take_steps_lem", "same_kind": "same_kind_lem", "row_fits": "row_fits_lem", "row-line": "row_line_lem",
    "named-of": "named_of_lem", "field-at": "field_at_lem", "bit-and": "bit_and_lem", "bit-or": "bit_or_lem", "words-in": "words_in_lem",
    "size-for": "size_for_lem",
}  # fmt: skip
# Variables of the definitions, which are no declarations.
STAYS = {"sheetCount"}


def snake(name):
    if not re.search(r"[A-Za-z]", name) or name[0].isupper() and "-" not in name:
        return name
    words = re.sub(r"(?<=[a-z0-9])[A-Z]", lambda m: "_" + m[0].lower(), name) if not name[0].isupper() else name
    return re.sub(r"(?<=[\w'])-(?=[\w])", "_", words)


def files(root):
    for folder, dirs, names in os.walk(os.path.join(root, "crates")):
        dirs[:] = sorted(d for d in dirs if d != "out")
        for n in sorted(names):
            if n.endswith((".antt", ".rt")):
                yield os.path.join(folder, n)


def crates(root):
    return set(os.listdir(os.path.join(root, "crates")))


def is_own(module, own):
    parts = module.split(".")
    return len(parts) > 1 and parts[0] == "Rattle" and parts[1] in own


def lent(text, own):
    """The names that a text imports from a library."""
    found = set()
    for m in USE.finditer(text):
        if m[2] and not is_own(m[1], own):
            for item in m[2].strip("{}").split(","):
                found.update(item.split(" as ")[-1].split())
    return found


def clauses(text):
    """The spans of a .rt text in which antt stands: clauses and `ghost use` items."""
    spans = [m.span() for m in re.finditer(r"ghost\s+use\b[^;]*;", text)]
    for m in CLAUSE.finditer(text):
        depth, at = 1, m.end()
        while depth and at < len(text):
            depth += (text[at] == "{") - (text[at] == "}")
            at += 1
        spans.append((m.end(), at))
    return spans


def main():
    root = os.path.dirname(os.path.dirname(os.path.abspath(__file__)))
    own = crates(root)
    texts = {}
    for p in files(root):
        with open(p, encoding="utf-8") as f:
            texts[p] = f.read()
    table, types = {}, set()
    for p, t in texts.items():
        if p.endswith(".rt"):
            continue
        types.update(TYPE.findall(t))
        if os.path.basename(p) == "Proof.antt":
            continue
        for name in DECLARED.findall(t):
            if (snake(name) != name or name in MEETS) and name not in STAYS:
                table[name] = MEETS.get(name, snake(name))
    # A lemma that would have the name of a definition gets `_lem`.
    for name in list(table):
        if "-" in name and name not in MEETS and any(n != name and "-" not in n and table[n] == table[name] for n in table):
            if table[name] not in ("own_names", "sheet_words", "end_in"):
                table[name] += "_lem"
    declared = {}
    for p, t in texts.items():
        if p.endswith(".antt"):
            for name in DECLARED.findall(t):
                declared.setdefault(name, set()).add(p)
    if "--list" in sys.argv:
        back = {}
        for name, new in sorted(table.items()):
            back.setdefault(new, set()).add(name)
        for new, olds in sorted(back.items()):
            print(new, *sorted(olds), "MEETS" if len(olds) > 1 or new in declared and new not in table else "")
        # a word that stands in a text beside one that becomes it
        for p, t in texts.items():
            ws = set(WORD.findall(re.sub(r"--[^\n]*", "", t))) if p.endswith(".antt") else set()
            for name, new in table.items():
                if name in ws and new in ws:
                    print("BESIDE", os.path.relpath(p, root), name, new)
            away = lent(t, own)
            for name in table:
                if name in away:
                    print("LENT", os.path.relpath(p, root), name)
        return
    with open(os.path.join(root, "tools", "respelled.tsv"), "w", encoding="utf-8") as f:
        f.writelines(f"{name}\t{new}\n" for name, new in sorted(table.items()))
    changed = 0
    for p, t in texts.items():
        away = lent(t, own)
        if os.path.basename(p) == "Proof.antt":
            continue

        def turn(text):
            def word(m):
                in_path = text.endswith("Rattle.", 0, m.start()) or re.search(r"Rattle(\.[^\s(){}.;,@\"«»]+)*\.$", text[max(0, m.start() - 200) : m.start()])
                return m[0] if m[0] in away or in_path else table.get(m[0], m[0])

            return WORD.sub(word, text)

        if p.endswith(".antt"):
            new = turn(t)
        else:
            new, at = "", 0
            for a, b in sorted(clauses(t)):
                if a >= at:
                    new, at = new + t[at:a] + turn(t[a:b]), b
            new += t[at:]
        if new != t:
            changed += 1
            with open(p, "w", encoding="utf-8") as f:
                f.write(new)
    print(f"respell: {len(table)} names, {changed} files")


main()
