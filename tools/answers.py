#!/usr/bin/env python3
"""Turns the functions' Proof.antt, which answered the old generated walk by position, into Invariants.antt and Answers.antt.

usage: tools/answers.py NAMES CRATE..

It ran once, after tools/respell.py, when the repository came to the Rattle of November 2026. NAMES is what `rt names NAMES` wrote at the top of the
repository. A path `c.before.before.place.ensures` becomes `c.place-at.ensures`; an answer that only says `search rules` or `omega arith` goes, as
Rattle tries both. What it cannot turn it names.
"""
import json
import os
import re
import sys

ROOT = os.path.dirname(os.path.dirname(os.path.abspath(__file__)))
WORD = r'[^\s(){}.;,@"«»\[\]]+'
PATH = re.compile(rf"(?<![\w.'-])({WORD})((?:\.{WORD})*)")


def norm(name):
    name = name.replace("_", "-").lower()
    return re.sub(r"^overflow-", "", name)


def table():
    with open(os.path.join(ROOT, "tools", "respelled.tsv"), encoding="utf-8") as f:
        return dict(line.rstrip("\n").split("\t") for line in f)


TABLE = table()


class Function:
    def __init__(self, names, said):
        self.names, self.said = names, said
        self.needs = [(norm(a), b) for a, b in names["needs"]]
        self.need = dict(self.needs)
        self.steps, self.raw, self.arm = {}, {}, {}
        for place, arms in zip(names["places"], names["arms"]):
            old, new = place[2]
            if old:
                self.steps.setdefault(norm(old), new)
            for a, b in place[4]:
                self.raw.setdefault((norm(old), a), b)
            if arms:
                arm, _, rows = arms
                for row in rows:
                    self.arm.setdefault((norm(row[1]), tuple(row[2])), f"{arm}.{row[0]}")
        self.loops = [(norm(pair[0]), pair[1], vs) for pair, vs in names["loops"]]
        for old, new, _ in self.loops:
            self.steps.setdefault(old, new)
            self.steps.setdefault(norm(old + "-test"), new + "-test")

    def path(self, head, segs, aliases):
        """A path from a place, or None where it is a place itself."""
        while segs and segs[0] == "before":
            segs = segs[1:]
        if not segs:
            return None
        step, rest = segs[0], segs[1:]
        if step in ("args", "requires", "ranges", "type_inv", "lifetimes", "utf8"):
            return ".".join(["c", step] + [TABLE.get(s, s) if step == "requires" else s for s in rest])
        key = norm(step)
        for n in range(len(rest), 0, -1):
            if (key, tuple(rest[:n])) in self.arm:
                return ".".join(["c", self.arm[key, tuple(rest[:n])]] + [TABLE.get(s, s) for s in rest[n:]])
        if key not in self.steps:
            self.said.append(f"no step {step} of {head}.{'.'.join(segs)}")
            new = step
        else:
            new = self.steps[key]
        if rest and (key, rest[0]) in self.raw:
            rest = [self.raw[key, rest[0]]] + rest[1:]
        return ".".join(["c", new] + [TABLE.get(s, s) for s in rest])

    def body(self, text):
        aliases = {"c"}
        for _ in range(40):
            m = re.search(rf"(?:\n *)?\blet ({WORD}) = ({WORD})((?:\.before)*) in", text)
            hit = None
            for m in re.finditer(rf"\blet ({WORD}) = ({WORD})((?:\.before)*) in[ \n]*", text):
                if m[2] in aliases:
                    hit = m
                    break
            if not hit:
                break
            aliases.add(hit[1])
            text = text[: hit.start()] + text[hit.end() :]

        def word(m):
            head, rest = m[1], [s for s in m[2].split(".") if s]
            if head in aliases:
                got = self.path(head, rest, aliases)
                if got is None:
                    if rest or head != "c":
                        self.said.append(f"a place stands alone: {m[0]}")
                    return "c"
                return got
            return ".".join(TABLE.get(s, s) for s in [head] + rest)

        return PATH.sub(word, text)


def blocks(text):
    """The top-level declarations of a file: each with its signature and its equations."""
    out, use, lines = [], [], text.split("\n")
    comment = []
    for line in lines:
        if line.startswith("use ") or (use and use[-1].count("{") > use[-1].count("}")):
            if line.startswith("use "):
                use.append(line)
            else:
                use[-1] += "\n" + line
        elif line.startswith("--"):
            comment.append(line)
        elif not line.strip():
            continue
        else:
            m = re.match(rf"((?:abbrev|unfoldable|pub) )*({WORD}) :(?=\s)", line)
            if m and not line.startswith(" "):
                out.append([m[2], line, [], comment])
                comment = []
            elif out:
                if comment:
                    out[-1][2].extend(comment)
                    comment = []
                out[-1][2].append(line)
    return use, out, comment


def turn(path, names, keep):
    said = []
    with open(path, encoding="utf-8") as f:
        text = f.read()
    head = text.split("\n", 1)[0] if text.startswith("--") else None
    if head:
        text = text.split("\n", 1)[1]
    use, decls, _ = blocks(text)
    fn = Function(names, said)
    module = None
    kept = []
    for u in use:
        m = re.match(r"use (\S+)\.Statement\.\{statement\}", u)
        if m:
            module = m[1]
        elif re.match(r"use \S+\.Tie as tie", u):
            pass
        else:
            kept.append(u)
    invariants, answers, helpers, order = [], [], [], []
    labels = {}
    spec = None
    for name, sig, eqs, comment in decls:
        m = re.search(rf"tie\.(\S+)", sig)
        if name.endswith(("_spec", "-spec")) and sig.startswith("pub "):
            spec = "\n".join(eqs)
            continue
        if not m:
            helpers.append((sig, eqs))
            continue
        labels[name] = m[1]
        if m[1].startswith(("invariant-", "decreases-")):
            kind, loop = m[1].split("-", 1)
            found = [x for x in fn.loops if x[0] == norm(loop)]
            if not found:
                said.append(f"no loop {loop}")
                continue
            old, new, variables = found[0]
            changed = names["changed"][fn.loops.index(found[0])]
            eq = "\n".join(eqs)
            lhs, rhs = eq.split("=", 1) if not eq.lstrip().startswith("unfolding") else ("", eq)
            binders = lhs.split()[1:]
            now = [v for v, c in zip(variables, changed) if c]
            if len(binders) != len(variables) + len(now):
                said.append(f"{m[1]}: {len(binders)} binders for {variables} {changed}")
            env = {}
            for b, v, c in zip(binders, variables, changed):
                env[b] = f"l.initial.{v}" if c else f"l.{v}"
            for b, v in zip(binders[len(variables) :], now):
                env[b] = f"l.{v}"
            env.pop("_", None)

            def var(mm):
                segs = [s for s in mm[2].split(".") if s]
                return ".".join([env.get(mm[1], TABLE.get(mm[1], mm[1]))] + [TABLE.get(s, s) for s in segs])

            rhs = PATH.sub(var, rhs)
            invariants.append((f"{kind}-{new}", rhs))
        else:
            order.append(name)
            answers.append([name, m[1], eqs])
    # what each need is called now: by its place in the last list, or by its name
    positions = {}
    if spec is not None:
        inner = spec[spec.find("(tie.spec") + len("(tie.spec") :] if "(tie.spec" in spec else ""
        parts, depth, cur = [], 0, ""
        for ch in inner.strip():
            if ch == "(":
                depth += 1
            if ch == ")":
                if depth == 0:
                    break
                depth -= 1
            if ch.isspace() and depth == 0:
                if cur:
                    parts.append(cur)
                cur = ""
            else:
                cur += ch
        if cur:
            parts.append(cur)
        parts = [p for p in parts if not labels.get(p, "").startswith(("invariant-", "decreases-"))]
        if len(parts) == len(fn.needs):
            for p, (_, new) in zip(parts, fn.needs):
                positions[p] = new
                if p.startswith("("):
                    inside = p[1:-1].strip()
                    mm = re.match(rf"λ c(?: κs)?\. ?(.*)", inside, re.S)
                    if mm and mm[1].strip() not in ("search rules", "omega arith"):
                        answers.append([new, None, ["_ c = " + mm[1]]])
        else:
            for p in parts:
                if p.startswith("(") and not re.search(r"\.\s*(search rules|omega arith)\)$", p):
                    said.append(f"an answer without a name: {p[:60]}")
    out = []
    for name, label, eqs in answers:
        eq = "\n".join(eqs)
        unfolding = ""
        mm = re.match(r"\s*(unfolding [^\n]*\n)(.*)", eq, re.S)
        if mm:
            unfolding, eq = mm[1], mm[2]
        mm = re.match(rf"\S+((?: {WORD})*?) =(.*)", eq, re.S)
        if not mm:
            said.append(f"{name}: not turned")
            continue
        rhs = fn.body(mm[2])
        if label is None:
            new = name
        else:
            key = norm(label.removeprefix("Need-"))
            new = fn.need.get(key) or positions.get(name)
        if new is None:
            if rhs.strip() not in ("search rules", "omega arith"):
                said.append(f"no goal {label}: {' '.join(rhs.split())[:100]}")
            continue
        if not keep and rhs.strip() in ("search rules", "omega arith"):
            continue
        turned = " ".join(TABLE.get(w, w) for w in unfolding.split())
        out.append(f"pub {new} : goal.{new}\n" + (turned + "\n" if turned else "") + f"{new} c ={rhs}\n")
    folder = os.path.dirname(path)

    def imports(body):
        lines = []
        for u in kept:
            mm = re.match(r"use (\S+?)\.\{(.*)\}$", u, re.S)
            if mm:
                items = [i.strip() for i in mm[2].replace("\n", " ").split(",")]
                own = mm[1].startswith("Rattle.") and not re.match(r"Rattle\.(std|core|std_alloc)\.", mm[1] + ".")
                items = [TABLE.get(i, i) if own else i for i in items]
                words = set(re.findall(WORD, body)) | set(re.findall(r"[◌\w'-]+", body))
                used = [i for i in items if "◌" in i or i.split(" as ")[-1] in words]
                used = [i for i in used if "◌" not in i or any(re.search(rf"(?<!\S){re.escape(w)}(?!\S)", body) for w in [i.strip("◌")])]
                if used:
                    lines.append(f"use {mm[1]}.{{{', '.join(used)}}}")
            else:
                lines.append(u)
        return "\n".join(lines)

    wrote = []
    if invariants:
        body = "\n".join(f"abbrev pub {n} : goal.{n}\n{n} l ={rhs}\n" for n, rhs in invariants)
        with open(os.path.join(folder, "Invariants.antt"), "w", encoding="utf-8") as f:
            f.write(f"-- What the loop of this function keeps.\n{imports(body)}\nuse {module}.Given as goal\n\n{body}")
        wrote.append("Invariants")
    body = "\n".join(out)
    if helpers:
        text = "\n\n".join("\n".join([s] + e) for s, e in helpers)
        body = PATH.sub(lambda m: ".".join(TABLE.get(s, s) for s in [m[1]] + [x for x in m[2].split(".") if x]), text) + "\n\n" + body
    if body.strip():
        with open(os.path.join(folder, "Answers.antt"), "w", encoding="utf-8") as f:
            f.write(f"{head or '--'}\n{imports(body)}\nuse {module}.Goals as goal\n\n{body}")
        wrote.append("Answers")
    os.remove(path)
    return said, wrote


def main(argv):
    keep = "--keep" in argv
    argv = [a for a in argv if a != "--keep"]
    where, crates = argv[0], argv[1:]
    for crate in crates:
        with open(os.path.join(where, "crates", crate, "names.json"), encoding="utf-8") as f:
            names = json.load(f)
        base = os.path.join(ROOT, "crates", crate, "proofs")
        for folder, dirs, files in os.walk(base):
            dirs.sort()
            if "Proof.antt" not in files:
                continue
            fn = os.path.relpath(folder, base).replace("/", ".")
            key = f"Rattle-{crate}-proofs.{fn}.Lts"
            if key not in names:
                print(f"{crate}::{fn}: no names")
                continue
            said, wrote = turn(os.path.join(folder, "Proof.antt"), names[key], keep)
            for s in said:
                print(f"{crate}::{fn}: {s}")


main(sys.argv[1:])
