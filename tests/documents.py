"""Holds the documents and the demands to the crates: each public function has its promise, two wrong answers and its fields in the
demands, each name exists.

Run it at the project's root (tests/run does). It reads text alone and proves nothing.
"""
import os
import re
import sys

import edits
from edits import read
from names import lost_names, shared_names

FUNCTION = re.compile(r"^\s*(?:#\[[^\]]*\]\s*)?pub\s+(?:extern\s+\"C\"\s+)?fn\s+([a-z_0-9]+)", re.M)
BODY = re.compile(r"^\s*[{}]$", re.M)
TOKEN = re.compile(r"[^\s(){}\[\];,]+")
OWNER = re.compile(r"^impl(?:<[^>]*>)?\s+([A-Za-z_0-9]+)", re.M)
# A trait for a type, and its methods; what they promise stands behind `ghost`, as the trait asks for it.
TRAIT_FOR = re.compile(r"^impl(?:<[^>]*>)? \w+(?:<[^>]*>)? for (\w+)[^\n]*\{\n(.*?)^\}", re.M | re.S)
METHOD = re.compile(r"^    fn ([a-z_0-9]+)", re.M)
GHOST = re.compile(r"^    ghost \w+ = (\{.*\});$", re.M)

# The parts of demand 1 and of the uniqueness of answers (`SheetAnswers`, `SheetUnique`, ..) in which a crate's functions have their fields.
PARTS = {
    "sheet": ["Sheet"],
    "cells": ["Sheet"],
    "reader": ["Sheet"],
    "text": ["Text"],
    "number_rows": ["Text"],
    "lists": ["Tables"],
    "numbers": ["Text", "Enum", "Syslog"],
    "findings": ["Text", "Enum"],
    "rules": ["Rules"],
    "phases": ["Door", "Enum"],
    "door": ["Door"],
    "door_fits": ["Door"],
    "door_does": ["Door"],
    "granting": ["Sound"],
    "sole_grants": ["Sound"],
    "soundness": ["Sound"],
    "deeds": ["Deeds"],
    "record": ["Record"],
    "lending": ["Record"],
    "questions": ["Record"],
    "step_list": ["Record"],
    "verdict": ["Site"],
    "site_row": ["Site"],
    "site_tables": ["Site"],
    "site": ["Site"],
    "steps_row": ["Steps"],
    "steps": ["Steps"],
    "steps_sheet": ["Steps"],
    "run": ["Run"],
    "blank_lists": ["Run"],
    "program_io": ["Run"],
    "sheet_files": ["Run"],
    "syslog": ["Syslog"],
    "syslog_write": ["Syslog"],
    "syslog_read": ["Syslog"],
    "stream_rows": ["Syslog"],
    "stream_lists": ["Syslog", "Run"],
    "stream": ["Run", "Live"],
    "attend": ["Live"],
}
# The crates whose specs/ say demand 1 and the uniqueness of answers, and the two records of `demands` that hold all their parts.
SAID_IN = ["sheet_answers", "syslog_answers", "table_answers", "record_answers", "demands"]
WHOLE = {"Answers": "DemandOne", "Unique": "AnswersUnique"}
# What these tell comes from outside, so that they have a promise and no field (docs/DEMANDS.md).
OUTSIDE = {"sheet_files::read_sheet", "sheet_files::read_asked", "sheet_files::read_input", "sheet_files::name_in", "program_io::number_asked"}
# What only lends what a struct holds: its promise is all that there is to say of it (docs/DEMANDS.md).
HANDS_ON = {"deeds::Moving::door_lists", "record::Record::tables", "record::Record::door_lists"}
# What only writes to standard error has no answer to promise.
SAYS = {"sheet_files::fail"}
# What is said of every plan is said of each that `plan` puts together from its parts, and of the one that lent tables are.
PUT_TOGETHER = {"plan": ["Plan"], "plan_lent": ["Plan", "plan"]}
# The fields of what isn't called as they are: one for each type that a function is of, or the name of the answer that it is asked for.
FIELDS = {
    "lists::entry_at": ["byte_at", "word_at", "flag_at"],
    "lists::put_entry": ["put_byte", "put_word"],
    "rules::Tables::way_out": ["way_by_exits"],
    "rules::Tables::is_lawful": ["lawful"],
    "door::Doors::at": ["among"],
    "phases::Kind::from": ["kind_of_lem"],
    "phases::u8::from": ["kind_number"],
    "numbers::Result::number": [
        "way_told_number", "printed_number", "place_answer_number", "grant_answer_number", "way_answer_number",
        "line_written_number", "line_read_number", "frame_read_number",
    ],
    "findings::TooShort::number": ["way_told_number", "printed_number"],
    "findings::Refused::number": ["place_answer_number", "grant_answer_number"],
    "findings::WayRefused::number": ["way_answer_number"],
    "syslog::Unwritten::number": ["line_written_number"],
    "syslog::NotOurs::number": ["line_read_number", "frame_read_number"],
}

faults = []


def crates():
    """The crates of crates.txt, each with those that it stands on."""
    listed = {}
    for line in read("crates.txt").splitlines():
        line = line.split("#")[0].strip()
        if line:
            name, on = line.split(":")
            listed[name.strip()] = on.split()
    return listed


def block_end(text, at):
    """The place behind the block that begins at the first brace from `at` on."""
    depth = 0
    for i in range(text.index("{", at), len(text)):
        depth += (text[i] == "{") - (text[i] == "}")
        if depth == 0:
            return i + 1
    return len(text)


def functions(crate):
    """The public functions of a library, methods with the name of their type in front: the name, the head up to the body, and the file."""
    folder = os.path.join("crates", crate, "src")
    if not os.path.exists(os.path.join(folder, "lib.rt")):
        return
    for name in sorted(os.listdir(folder)):
        text = read(folder, name)
        owners = [(m.start(), block_end(text, m.end()), m.group(1)) for m in OWNER.finditer(text)]
        for m in FUNCTION.finditer(text):
            owner = [o + "::" for a, b, o in owners if a <= m.start() < b]
            body = BODY.search(text, m.end())
            yield "".join(owner) + m.group(1), text[m.start() : body.start() if body else len(text)], text


def trait_methods(crate):
    """The methods that a library gives types by a trait, as `functions` has them: what they promise is what the trait asks of each type."""
    folder = os.path.join("crates", crate, "src")
    if not os.path.exists(os.path.join(folder, "lib.rt")):
        return
    for name in sorted(os.listdir(folder)):
        text = read(folder, name)
        for m in TRAIT_FOR.finditer(text):
            head = "".join(f"ensures {promise}\n" for promise in GHOST.findall(m.group(2)))
            for method in METHOD.findall(m.group(2)):
                yield f"{m.group(1)}::{method}", head, text


def public_functions(crate):
    return [name for name, _, _ in functions(crate)] + sorted({name for name, _, _ in trait_methods(crate)})


def rows(page, crate):
    """The rows of the table under the heading of a crate: the function's name, the number of its edits, and the edits."""
    part = re.search(r"^## Crate `%s`$(.*?)(?=^## |\Z)" % crate, page, re.M | re.S)
    if not part:
        faults.append(f"docs/PROMISES.md has no heading for the crate {crate}")
        return
    for line in part.group(1).splitlines():
        cells = [cell.strip() for cell in line.strip().strip("|").split(" | ")]
        name = re.match(r"`([A-Za-z_:0-9]+)`", cells[0])
        if line.startswith("|") and name and len(cells) == 4:
            yield name.group(1), (cells[-2], cells[-1])


def edits_of(crate):
    """The must-fail edits of a crate."""
    folder = os.path.join("crates", crate, "must-fail")
    return {n[:-5] for n in os.listdir(folder)} if os.path.isdir(folder) else set()


def check_edits(listed):
    """The name of a must-fail edit is unique over all crates, so that a document needn't say in which it stands."""
    names = [edit for crate in listed for edit in edits_of(crate)]
    for name in sorted({n for n in names if names.count(n) > 1}):
        faults.append(f"two crates have a must-fail edit {name}")


def check_promises(listed):
    page = read("docs", "PROMISES.md")
    # a promise may cite a definition of another crate, whose edits then count too
    counted = set().union(*map(edits_of, listed))
    for crate in listed:
        functions = public_functions(crate)
        edits = edits_of(crate)
        promised = {}
        if functions:
            promised = dict(rows(page, crate))
        for name, (count, last) in promised.items():
            wrong = set(re.findall(r"`([A-Za-z_0-9]+)`", last)) & counted
            if name not in functions:
                faults.append(f"docs/PROMISES.md names {crate}::{name}, which is not there")
            if count != str(len(wrong)):
                faults.append(f"docs/PROMISES.md counts {count} must-fail edits for {crate}::{name}, and names {len(wrong)}")
            if len(wrong) < 2:
                faults.append(f"docs/PROMISES.md names fewer than two must-fail edits for {crate}::{name}")
        for name in functions:
            if name not in promised and f"{crate}::{name}" not in SAYS:
                faults.append(f"docs/PROMISES.md does not name {crate}::{name}")
        for edit in sorted(edits - set(re.findall(r"`([A-Za-z_0-9]+)`", page))):
            faults.append(f"docs/PROMISES.md does not name the must-fail edit {crate}/{edit}")
    for crate, table in re.findall(r"^\| must-fail edits of `([a-z_]+)` \| \|\n((?:\|.*\n)*)", page, re.M):
        for edit in re.findall(r"^\| `([A-Za-z_0-9]+)` \|", table, re.M):
            if edit not in edits_of(crate):
                faults.append(f"docs/PROMISES.md names the must-fail edit {crate}/{edit}, which is not there")


def statements():
    """The definitions of the crates that say the demands, by name, and the fields of those that are records."""
    bodies, fields = {}, {}
    folders = [os.path.join("crates", crate, "specs") for crate in SAID_IN]
    for path in [os.path.join(folder, name) for folder in folders for name in sorted(os.listdir(folder))]:
        text = re.sub(r"^\s*--.*\n", "", read(path), flags=re.M)
        for block in re.split(r"^(?=\S)", text, flags=re.M):
            head = re.match(r"(?:(?:abbrev|unfoldable) pub (?=\S+ :)|pub (?:record|data) )?([^\s:]+)", block)
            if not head or block.startswith(("use ", "pub mod ")):
                continue
            bodies[head.group(1)] = bodies.get(head.group(1), "") + block
            if block.startswith("pub record "):
                if head.group(1) in fields:
                    faults.append(f"{path} has a second record {head.group(1)}")
                parts = re.split(r"^  pub (\S+) :", block, flags=re.M)
                fields[head.group(1)] = dict(zip(parts[1::2], parts[2::2]))
    return bodies, fields


def definitions():
    """The definitions of all crates, by name."""
    bodies = {}
    for path in edits.files("specs", ".antt"):
        text = re.sub(r"^\s*--.*$", "", read(path), flags=re.M)
        for name, start, end in edits.blocks(text):
            bodies[name] = bodies.get(name, "") + text[start:end]
    return bodies


def cited(text, bodies):
    """The names in a statement, and in those that it cites."""
    names, left = set(), [text]
    while left:
        for name in TOKEN.findall(left.pop()):
            name = name.split(".")[-1]
            if name not in names:
                names.add(name)
                left.append(bodies.get(name, ""))
    return names


def promised_by(head, text):
    """The definitions and the cases of an enum that the `ensures` of a function cite."""
    known = set()
    for module, names in re.findall(r"^ghost use (Rattle\.\S+?)\.\{([^}]*)\};", text, re.M):
        if ".declared." not in module and module != "Rattle.std.specs.Prelude":
            known |= {name.strip() for name in names.split(",")}
    parameters = set(re.findall(r"(\w+):", head.split("ensures")[0]))
    promise = " ".join(re.findall(r"ensures \w* ?\{(.*?)\}$", head, re.S | re.M))
    # what a type has that stands for any, as `T.PAST_END`, is no case of an enum
    cases = {case for owner, case in re.findall(r"\b([A-Z]\w*)\.([A-Z]\w*)", promise) if owner not in parameters}
    return set(TOKEN.findall(promise)) & known - parameters | cases


def field_names(name):
    """What the field of a function may be called: as the function, with `_lem` behind it where a definition is called so."""
    field = re.sub(r"(?<=[a-z])(?=[A-Z])", "_", name).replace("::", "_").lower()
    return [field, field + "_lem"]


def check_fields(listed):
    """Each public function has its field in demand 1 and in the uniqueness of answers, which cites what its promise cites."""
    bodies, fields = statements()
    # the number of an answer is a definition of a crate below, which cites the refusal's
    below = {**definitions(), **bodies}
    for kind, whole in WHOLE.items():
        held = cited(" ".join(fields[whole].values()), {})
        for part in sorted({part + kind for parts in PARTS.values() for part in parts} | {name for name in fields if name.endswith(kind) and name != whole}):
            if part not in fields:
                faults.append(f"no crate that says the demands has a record {part}")
            elif part not in held:
                faults.append(f"{whole} does not hold {part}")
    for crate in listed:
        for name, head, text in functions(crate):
            if f"{crate}::{name}" in SAYS:
                continue
            if "ensures" not in head:
                faults.append(f"{crate}::{name} has no promise")
            if f"{crate}::{name}" in OUTSIDE | HANDS_ON:
                continue
            check_field(crate, name, promised_by(head, text), fields, bodies)
        for name, head, text in trait_methods(crate):
            if "ensures" not in head:
                faults.append(f"{crate}::{name} has no promise")
            if f"{crate}::{name}" not in HANDS_ON:
                check_field(crate, name, promised_by(head, text), fields, below)


def check_field(crate, name, promised, fields, bodies):
    """One function has its fields, which cite what it promises."""
    for kind in ("Answers", "Unique"):
        parts = [fields.get(part + kind, {}) for part in PARTS.get(crate, [])]
        for names in [[field] for field in FIELDS.get(f"{crate}::{name}", [])] or [field_names(name) + field_names(name.split("::")[-1])]:
            found = [part[field] for field in names for part in parts if field in part]
            if not found:
                faults.append(f"no crate that says the demands has a field for {crate}::{name} ({kind})")
                continue
            said = cited(found[0], bodies)
            for lost in sorted(promised - said):
                if said.isdisjoint(PUT_TOGETHER.get(lost, [])):
                    faults.append(f"the field of {crate}::{name} ({kind}) does not cite {lost}, which the promise does")


def check_map(listed):
    """README.md has a row for each crate of crates.txt, which names those that it stands on; the kit's are named together."""
    readme = dict(re.findall(r"^\| `(\w+)` \| ([^|]*)\|", read("README.md"), re.M))
    for crate, on in listed.items():
        if crate not in readme:
            faults.append(f"README.md has no row for the crate {crate}")
        elif re.findall(r"`(\w+)`", readme[crate]) != [d for d in on if d in listed]:
            faults.append(f"README.md does not say what the crate {crate} stands on as crates.txt does")


def defines(text, name):
    """Whether a file of definitions or theorems has this name as one of its own that others can use."""
    return re.search(r"^\s*(?:(?:abbrev|unfoldable) )?pub (?:data |record )?%s[ :]" % re.escape(name), text, re.M)


def check_rules(_):
    """Each rule of docs/RULES.md has the next number, and each definition and theorem that it names stands in the file beside it."""
    page = read("docs", "RULES.md")
    rules = re.findall(r"^\| (\d+) \| ([^|]*) \| ([^|]*) \| ([^|]*) \|$", page, re.M)
    for n, (number, rule, definition, theorem) in enumerate(rules, 1):
        if int(number) != n:
            faults.append(f"docs/RULES.md: rule {number} stands where rule {n} should")
        if " in `" not in definition:
            faults.append(f"docs/RULES.md: rule {number} names no definition")
        if " in `" not in theorem and theorem != "by the promise":
            faults.append(f"docs/RULES.md: rule {number} names no theorem")
    for names, path in re.findall(r"((?:`[^`]+`[ ,]*(?:and )?(?:those between )?)+)in `([a-z_]+/(?:specs|proofs)/\w+\.antt)`", page):
        file = os.path.join("crates", path)
        if not os.path.exists(file):
            faults.append(f"docs/RULES.md names crates/{path}, which is not there")
            continue
        for name in re.findall(r"`([^`]+)`", names):
            if not defines(read(file), name):
                faults.append(f"docs/RULES.md names {name} in crates/{path}, which does not have it")


def check_words(listed):
    """Each name that a comment or a document writes in backticks is there."""
    faults.extend(lost_names(listed))


def check_shared(_):
    """No two public definitions of different meaning share a name."""
    faults.extend(shared_names())


def check_table(_):
    """The texts that the must-fail edits replace are there, and docs/PROMISES.md has the table of them."""
    faults.extend(edits.faults())


CHECKS = (check_edits, check_promises, check_fields, check_map, check_rules, check_words, check_shared, check_table)


def find_faults(checks):
    """What these checks find wrong now."""
    faults.clear()
    listed = crates()
    for check in checks:
        check(listed)
    return list(faults)


def main():
    found = find_faults(CHECKS)
    for fault in found:
        print(fault)
    print(f"documents: {len(crates())} crates, {len(found)} faults")
    return 1 if found else 0


if __name__ == "__main__":
    sys.exit(main())
