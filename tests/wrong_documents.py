"""Makes things wrong in a copy of the project, one at a time, and sees that tests/documents.py names each as a fault. What the must-fail
edits are to the proofs, these are to that test. Run it from anywhere (tests/run does).
"""
import functools
import os
import shutil
import sys
import tempfile

from documents import CHECKS, check_fields, check_promises, check_rules, check_shared, check_table, check_words, find_faults

ROOT = os.path.normpath(os.path.join(os.path.dirname(os.path.abspath(__file__)), ".."))
ANSWERS = "crates/record_answers/specs/Answers.antt"
UNIQUE = "crates/record_answers/specs/Unique.antt"
CODE = "crates/lists/src/lib.rt"
DEFINITIONS = "crates/text/specs/Text.antt"
EDIT = "crates/record/must-fail/fresh_everyone_inside.edit"
FUNCTION = "pub fn %s(x: u8) -> u8\n    ensures { result ≡ x }\n{\n    x\n}\n"
# A name that nothing has, this file neither.
NOWHERE = "_".join(("no", "such", "name"))

faults = []
tried = 0


def put(path, text):
    with open(path, "w", encoding="utf-8") as file:
        file.write(text)


@functools.lru_cache(maxsize=None)
def found_before(check):
    """What a check finds while nothing is made wrong."""
    return find_faults([check])


def wrong(what, check, path, old, new, fault):
    """Replaces a text in a file, or puts one at its end; the check has to find this fault then, and not before."""
    global tried
    tried += 1
    with open(path, encoding="utf-8") as file:
        text = file.read()
    before = found_before(check)
    put(path, text.replace(old, new, 1) if old else text + new)
    after = find_faults([check])
    put(path, text)
    if old not in text:
        faults.append(f"it can't be tried that {what}: {path} doesn't have the text {old}")
    elif check not in CHECKS or not any(fault in each for each in after if each not in before):
        faults.append(f"tests/documents.py doesn't find that {what} ({path})")


# ---- What is made wrong

def try_fields():
    walk, unique_walk = "StepTells r Walk d 0 (step_of r Walk d 0)", "x ≡ step_of r Walk d 0"
    wrong("a function has no field in demand 1", check_fields, ANSWERS, f"  pub walk : (r : Record) (d : ℕ) → {walk}\n", "",
          "has a field for record::Record::walk (Answers)")
    wrong("a function has no field in unique answers", check_fields, UNIQUE, "  pub walk :", "  pub walked :",
          "has a field for record::Record::walk (Unique)")
    wrong("a field says of `walk` what holds of `green`", check_fields, ANSWERS, walk, walk.replace("Walk", "Green"),
          "the field of record::Record::walk (Answers) does not cite Walk")
    wrong("an answer of `walk` is unique as one of `green`", check_fields, UNIQUE, unique_walk, unique_walk.replace("Walk", "Green"),
          "the field of record::Record::walk (Unique) does not cite Walk")
    wrong("a new function has no field", check_fields, CODE, "", FUNCTION % "unheard", "has a field for lists::unheard (Answers)")
    wrong("a function has no field, and the name of one that needs none", check_fields, CODE, "", FUNCTION % "read_sheet",
          "has a field for lists::read_sheet (Answers)")


def try_promises():
    wrong("a function has no promise", check_fields, CODE, "", "pub fn unheard(x: u8) -> u8 {\n    x\n}\n", "lists::unheard has no promise")
    head = "pub fn read_sheet(rt: &(impl Files + Eprint), name: &str, sheet: &mut [u8]) -> usize"
    promise = "\n    ensures { IsPrefixLen result sheet.new }\n{\n"
    wrong("a function that needs no field has no promise", check_fields, "crates/sheet_files/src/lib.rt", head + promise, head + " {\n",
          "sheet_files::read_sheet has no promise")
    wrong("a new function has no row", check_promises, CODE, "", FUNCTION % "unheard", "docs/PROMISES.md does not name lists::unheard")
    wrong("a rule's definition isn't in the file beside it", check_rules, "docs/RULES.md", "| `Sheet`", f"| `{NOWHERE}`",
          f"docs/RULES.md names {NOWHERE} in")
    wrong("an edit's text isn't in its file", check_table, EDIT, "old: ", f"old: {NOWHERE} ",
          f"{EDIT} replaces a text that is not in src/record.rt: {NOWHERE} ")


def try_names():
    wrong("a comment of definitions names what isn't there", check_words, DEFINITIONS, "", f"-- `{NOWHERE}` says so\n", f"names {NOWHERE}")
    wrong("a comment of code names what isn't in its crate or below", check_words, CODE, "", "// `cut_row` says so\n", "names cut_row")
    wrong("a comment names a function that its type doesn't have", check_words, CODE, "", "// `Record::lend` does so\n", "names Record::lend")
    wrong("a comment names a file that isn't there", check_words, CODE, "", "// specs/Nowhere.antt says so\n", "names specs/Nowhere.antt")
    wrong("a comment of a command names what isn't there", check_words, "bin/panel", "", f"# `{NOWHERE}` says so\n", f"names {NOWHERE}")
    wrong("a document names what isn't there", check_words, "docs/RULES.md", "", f"`{NOWHERE}` says so\n", f"names {NOWHERE}")
    wrong("two definitions have one name", check_shared, DEFINITIONS, "", "abbrev pub most_people : ℕ\nmost_people = 1\n",
          f"most_people is defined in crates/tables/specs/Tables.antt and in {DEFINITIONS}")
    wrong("two functions have one name", check_shared, CODE, "", FUNCTION % "put_row", f"put_row is defined in {CODE} and in")


def left_out(folder, names):
    """What the copy does without: what is built, and the programs' data."""
    return names if os.path.basename(folder) == "data" else {".git", "target", "out"} & set(names)


def main():
    with tempfile.TemporaryDirectory() as top:
        copy = os.path.join(top, "copy")
        shutil.copytree(ROOT, copy, ignore=left_out)
        os.chdir(copy)
        for trial in (try_fields, try_promises, try_names):
            trial()
        os.chdir(ROOT)
    for fault in faults:
        print(fault)
    print(f"wrong documents: {tried} things made wrong, {len(faults)} faults")
    return 1 if faults else 0


if __name__ == "__main__":
    sys.exit(main())
