"""The must-fail edits: what each of them alters, and the table of them in docs/PROMISES.md.

    python3 tests/edits.py            says whether the table is as the edits are
    python3 tests/edits.py --write    writes it anew

An edit alters code (what a function does), a promise (what it says it does), a definition (that some function's promise cites, itself or
by another definition) or a theorem (what is proved beyond the promises). Run it at the project's root (tests/documents.py does).
"""
import os
import re
import sys

PAGE = os.path.join("docs", "PROMISES.md")
WORD = re.compile(r"[^\s(){}\[\];,.]+")
HEADING = "## The wrong answers that are tried"
KINDS = ("code", "promise", "definition", "theorem")


def read(*path):
    with open(os.path.join(*path), encoding="utf-8") as file:
        return file.read()


def files(part, ending):
    """The files of one part of each crate."""
    for crate in sorted(os.listdir("crates")):
        for folder, _, names in os.walk(os.path.join("crates", crate, part)):
            for name in sorted(names):
                if name.endswith(ending):
                    yield os.path.join(folder, name)


def blocks(text):
    """The declarations of a file of definitions, each with its name and the places between which it stands."""
    for m in re.finditer(r"^(?:(?:abbrev|unfoldable) )?(?:pub )?(?:record |data )?([^\s:]+).*\n(?:[ \t]+.*\n|\n)*", text, re.M):
        if not m.group(0).startswith(("use ", "--", "pub mod ", "mod ")):
            yield m.group(1), m.start(), m.end()


def promised():
    """The definitions that promises cite, themselves or by other definitions."""
    bodies = {}
    for path in files("specs", ".antt"):
        text = re.sub(r"^\s*--.*$", "", read(path), flags=re.M)
        for name, start, end in blocks(text):
            bodies[name] = bodies.get(name, "") + text[start:end]
    left = re.findall(r"^\s*ensures.*$", "\n".join(read(path) for path in files("src", ".rt")), re.M)
    names = set()
    while left:
        for name in set(WORD.findall(left.pop())) - names:
            names.add(name)
            left.append(bodies.get(name, ""))
    return names


def pairs(text):
    """The replacements of an edit: the file, and what is replaced."""
    file = ""
    for line in text.splitlines():
        if line.startswith("file: "):
            file = line[6:]
        if line.startswith("old: "):
            yield file, line[5:]


def alters(crate, text, cited):
    """What an edit alters."""
    found = set()
    for file, old in pairs(text):
        source = read("crates", crate, file)
        at = source.index(old)
        line = source[source.rfind("\n", 0, at) + 1 :].split("\n")[0] if not old.startswith(" ") else old
        if line.lstrip().startswith(("use ", "ghost use ")):
            continue
        if file.startswith("src/"):
            found.add("promise" if line.lstrip().startswith(("ensures", "requires")) else "code")
        else:
            name = [name for name, start, end in blocks(source) if start <= at < end]
            found.add("definition" if name and name[0] in cited else "theorem")
    return next(kind for kind in KINDS if kind in found)


def edit_files(crate):
    """The files of a crate's edits: the name, and the text."""
    folder = os.path.join("crates", crate, "must-fail")
    for name in sorted(os.listdir(folder)) if os.path.isdir(folder) else []:
        yield name, read(folder, name)


def check_texts(listed):
    """Each edit says its wrong answer first, and each text that it replaces is in its file, once."""
    for crate in listed:
        for name, text in edit_files(crate):
            edit = f"crates/{crate}/must-fail/{name}"
            if not re.match(r"# *\S", text):
                yield f"{edit} does not say the wrong answer in its first line"
            if not list(pairs(text)):
                yield f"{edit} replaces nothing"
            for file, old in pairs(text):
                path = os.path.join("crates", crate, file)
                if not os.path.isfile(path):
                    yield f"{edit} alters {file}, which is not there"
                elif old not in read(path):
                    yield f"{edit} replaces a text that is not in {file}: {old}"
                elif read(path).count(old) > 1:
                    yield f"{edit} replaces a text that is in {file} more than once: {old}"


def edits(crate, cited):
    """The edits of a crate: the name, what it alters, and the wrong answer."""
    for name, text in edit_files(crate):
        said = re.match(r"# *(.*)", text).group(1).strip()
        yield name[: -len(".edit")], alters(crate, text, cited), said[0].upper() + said[1:].rstrip(".") + "."


def crates():
    """The crates, as crates.txt lists them."""
    return re.findall(r"^(\w+):", read("crates.txt"), re.M)


def section():
    """The last section of the page: the edits, crate by crate, and how many there are of each kind."""
    cited = promised()
    found = [(crate, *edit) for crate in crates() for edit in edits(crate, cited)]
    count = {kind: sum(edit[2] == kind for edit in found) for kind in KINDS}
    head = f"{HEADING}\n\n{len(found)} edits: {count['code']} alter code, {count['promise']} a promise, {count['definition']} a definition, {count['theorem']} what a theorem says."
    rows = [f"| `{crate}` | `{name}` | {kind} | {said} |" for crate, name, kind, said in found]
    return "\n".join([head, "", "| crate | edit | alters | the wrong answer |", "|---|---|---|---|"] + rows) + "\n"


def page():
    """The page with its last section as the edits are."""
    text = read(PAGE)
    return text[: text.index(HEADING)] + section()


def faults():
    """The edits that can't be made; and where there are none, whether the table is as the edits are."""
    found = list(check_texts(crates()))
    yield from found
    if not found and page() != read(PAGE):
        yield f"{PAGE}: the table of must-fail edits is not as the edits are; `python3 tests/edits.py --write` writes it anew"


def main():
    if sys.argv[1:] == ["--write"] and not list(check_texts(crates())):
        text = page()
        with open(PAGE, "w", encoding="utf-8") as file:
            file.write(text)
    found = list(faults())
    print("\n".join(found) if found else "edits: the table is as the edits are")
    return 1 if found else 0


if __name__ == "__main__":
    sys.exit(main())
