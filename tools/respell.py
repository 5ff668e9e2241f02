#!/usr/bin/env python3
"""Respells the panel's own definitions and lemmas as Rattle spells its own: snake case, types in camel case.

usage: python3 tools/respell.py [--dry]      at the project's top, once, after Rattle's own port script

A name that is declared in specs/ or proofs/ and begins with a small letter loses its dashes and capitals: `door-in` and `doorIn`
become `door_in`. Where a definition and a lemma would fall together, the lemma gets `_lem` behind it, as Rattle's own lemmas do.
Functions of src/, strings, inputs and outputs keep their names; so do names of the library and those that Rattle makes.
"""
import collections
import glob
import os
import re
import sys

# A name of antt: letters, digits and the signs that it may have inside.
TOKEN = re.compile(r"(?<!proofs\.)(?<!proofs\.\+)(?<![\w'+-])[A-Za-zμ_+][\w'₀-₉′+-]*")
DECLARED = re.compile(r"^((?:pub |abbrev |unfoldable |ruleset |data |record )*)([A-Za-zμ][\w'+-]*) (?::|=|\{)")
# The left side of an equation, with the names that it gives to the arguments.
LEFT = re.compile(r"^\s*[A-Za-z][\w']*[\w'-]* ([^=:≡.→]+) =(?: |$)")
TYPE = re.compile(r"^(?:pub |abbrev |unfoldable )*(?:data|record) (?:pub )?([A-Za-z][\w'-]*)")
FIELD = re.compile(r"^\s+(?:pub )?((?:[A-Za-z][\w'-]* )+): ")
# A name that is bound: in brackets, by `let` or by `λ`. A dash or a capital in it goes the same way.
BOUND = re.compile(r"[({]((?:[A-Za-z][\w'-]* )+): |\blet ([A-Za-z][\w'-]*) |λ ((?:[A-Za-z_][\w'-]* ?)+)\.")
# What doesn't go by the rule.
OWN_WAY = {
    # types
    "Refines-M0": "RefinesM0",
    "Refines-M1": "RefinesM1",
    "Refines-M2": "RefinesM2",
    "Refines-M3": "RefinesM3",
    # a field beside a question of the same name
    "granted-to": "granted_to_holder",
    # a case of a relation beside a definition of the same name
    "bad-row": "bad_row_first",
    # lemmas that Rattle's script respelled already, beside definitions of the same name
    "row_fits": "row_fits_lem",
    "step_words": "step_words_lem",
    "held_fits": "held_fits_lem",
    "exit_in": "exit_in_lem",
    # facts beside a definition of the same name
    "cut_field": "cut_field_lem",
    "fits_line": "fits_line_lem",
    "held_with": "held_with_lem",
    "is_word": "is_word_lem",
    "way_out": "way_out_lem",
    "kind-of": "kind_of_lem",
    "place-of": "place_of_lem",
    "plan-of": "plan_of_lem",
    "served-at": "served_at_lem",
    "way-of": "way_of_lem",
    "row_from": "row_from_lem",
}


def snake(name):
    """`doorIn` and `door-in` as `door_in`; a part in capitals alone stays, as in `in_GRN`."""
    name = re.sub(r"(?<=[a-z0-9])(?=[A-Z])", "_", name.replace("-", "_"))
    return "_".join(p if len(p) > 1 and p.isupper() else p.lower() for p in name.split("_"))


def by_hand(path):
    """Whether a file is the proof of one function, whose goals have names that Rattle makes."""
    return re.search(r"/proofs/.+/", path) is not None


def files(ending):
    return sorted(f for f in glob.glob("crates/**/*" + ending, recursive=True) if "/out/" not in f)


def read(path):
    with open(path, encoding="utf-8") as f:
        return f.read()


def declared():
    """Each name that the project declares in antt."""
    names = set()
    for path in files(".antt"):
        for line in read(path).splitlines():
            if line.startswith(("--", "use ", "mod ", "pub mod ", "pub use ")):
                continue
            m = DECLARED.match(line)
            if m and not (by_hand(path) and (re.match(r"^\S+ : (tie|goal|stated|code)\.", line) or m.group(2).endswith(("-spec", "_spec")))):
                names.add(m.group(2))
            m = TYPE.match(line)
            if m:
                names.add(m.group(1))
            if by_hand(path):
                continue
            m = FIELD.match(line)
            if m:
                names.update(m.group(1).split())
            m = LEFT.match(line)
            if m and "record {" not in line.split(" = ")[0]:
                names.update(re.findall(r"(?<![\w.])[a-z]\w*-[\w-]+", m.group(1)))
            for m in BOUND.finditer(line):
                names.update(n for n in " ".join(g for g in m.groups() if g).split() if re.search(r"-|[a-z0-9][A-Z]", n))
    return names


def imported():
    """The names that come from Rattle's own libraries."""
    names = set()
    for path in files(".antt") + files(".rt"):
        for m in re.finditer(r"use (?:Rattle\.std|Rattle\.core|Rattle\.io|mathlib|lib|borrow|native|Prim|denote)\b[^\s{;]*\.\{([^}]*)\}", read(path)):
            names.update(w for n in m.group(1).split(",") for w in n.split() if w != "as")
    return names


def turned():
    """The names that change, each with its new spelling."""
    names = declared() - imported() | {"sits-in"}  # the last, of an operator
    new = {}
    for n in sorted(names):
        if n in OWN_WAY:
            new[n] = OWN_WAY[n]
        elif n[0].islower() and snake(n) != n:
            new[n] = snake(n)
    meet = collections.defaultdict(set)
    for old, to in new.items():
        meet[to].add(old)
    for to, olds in meet.items():
        if len(olds) > 1:
            for old in olds:
                if "-" in old:
                    new[old] = to + "_lem"
    both = {to: old for old, to in new.items() if to in names and to not in new}
    return new, both


def in_antt(text, new):
    out = []
    for line in text.split("\n"):
        code, dash, comment = line.partition("--") if line.lstrip().startswith("--") or " -- " in line else (line, "", "")
        if not dash:
            out.append(TOKEN.sub(lambda m: new.get(m.group(), m.group()), line))
        else:
            out.append(TOKEN.sub(lambda m: new.get(m.group(), m.group()), code) + dash + in_words(comment, new))
    return "\n".join(out)


def in_words(text, new):
    """Words of a comment or a page: those in backticks, and those with a capital inside."""
    text = re.sub(r"`[^`\n]+`", lambda m: TOKEN.sub(lambda t: new.get(t.group(), t.group()) if "/" not in m.group() or "-" not in t.group() else t.group(), m.group()), text)
    return re.sub(r"(?<![\w`/-])[a-z][a-z0-9]*[A-Z]\w*", lambda m: new.get(m.group(), m.group()), text)


def in_rattle(text, new):
    """The clauses and imports of a source: words with a dash or a capital inside, outside comments and strings."""
    out = []
    for line in text.split("\n"):
        if line.lstrip().startswith("//"):
            out.append(in_words(line, new))
            continue
        parts = re.split(r'(b?"(?:[^"\\]|\\.)*")', line)
        ghost = "ghost use" in line
        out.append("".join(p if i % 2 else TOKEN.sub(lambda m: new[m.group()] if m.group() in new and (ghost or re.search(r"-|[a-z0-9][A-Z]", m.group())) else m.group(), p) for i, p in enumerate(parts)))
    return "\n".join(out)


def in_edit(text, new):
    """An edit: each `old:` and `new:` as the file that it changes."""
    out, target = [], ""
    for line in text.split("\n"):
        m = re.match(r"(old|new|file):( ?)(.*)$", line)
        if not m:
            out.append(in_words(line, new) if line.startswith("#") else line)
            continue
        if m.group(1) == "file":
            target = m.group(3).strip()
            out.append(line)
        else:
            turn = in_antt if target.endswith(".antt") else in_rattle
            out.append(m.group(1) + ":" + m.group(2) + turn(m.group(3), new))
    return "\n".join(out)


def main(argv):
    new, both = turned()
    print(f"respell: {len(new)} names")
    for to, old in sorted(both.items()):
        print(f"look: {old} falls together with {to}, which was there")
    if "--dry" in argv:
        for old, to in sorted(new.items()):
            print(old, to)
        return 0
    pages = ["README.md"] + sorted(glob.glob("docs/**/*.md", recursive=True)) + sorted(glob.glob("examples/*.md"))
    pages = [p for p in pages if os.path.basename(p) not in ("PORT.md", "DESIGN-PASS.md")]
    changed = 0
    for paths, turn in ((files(".antt"), in_antt), (files(".rt"), in_rattle), (files(".edit"), in_edit), (pages, in_words)):
        for path in paths:
            was = read(path)
            now = turn(was, new)
            if now != was:
                with open(path, "w", encoding="utf-8") as f:
                    f.write(now)
                changed += 1
    print(f"respell: {changed} files changed")
    return 0


if __name__ == "__main__":
    raise SystemExit(main(sys.argv[1:]))
