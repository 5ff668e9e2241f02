"""The names: each that a comment or a document writes in backticks is there, and no two public definitions of different meaning share
one.

A word is there if code has it, outside comments: what is proved has no name that isn't defined. A comment of a crate may speak of that
crate, of those that it stands on and of those that it names; a document, and a comment of a test or a command, of all. Beside words of
code there are the names of crates, files, folders and must-fail edits. Run it at the project's root (tests/documents.py does).
"""
import functools
import glob
import os
import re

from edits import crates, read

FRAGMENT = re.compile(r"`([^`\n]+)`")
# A word has two letters at least: a single one stands for anything.
WORD = re.compile(r"[^\W\d][\w-]+")
# Among several words, as in a term or in a row of a sheet, the plain ones may stand for anything too: a name has two parts, or a capital.
NAME = re.compile(r".*[A-Z_-]")
QUALIFIED = re.compile(r"\w+(?:::\w+)+")
PATH = re.compile(r"[\w.*-]*(?:/[\w.*-]+)+/?|[\w-]+/|[\w-]+\.(?:antt|rt|md|py|sh|csv|txt|c)")
CALLED_CRATE = re.compile(r"\bcrate `(\w+)`")
# A word that may be a crate's.
CRATE = re.compile(r"\w+(?=[`/])")
# A path without backticks.
BARE_PATH = re.compile(r"(?<![\w./`])((?:crates/)?(?:[a-z_]+/)?(?:specs|proofs|src)/[A-Za-z_0-9/]+\.(?:antt|rt)|(?:tests|bin|bench|docs)/[A-Za-z_0-9./-]*\w)")

# The steps' words: a sheet has them, and crates below `steps_sheet` speak of them.
STEPS = {"card", "decide", "green", "red", "walk", "tick", "passed", "lapsed", "dark", "ack"}
# The MSGIDs of 02's syslog lines.
MSGIDS = {"GRANT", "DENY", "PASS", "LAPSE"}
# What the kit's iterators and slices have, and its traits and types.
STD = {"all", "any", "find", "position", "unwrap_or", "From", "Result", "Option", "u8", "u16"}
# Words that stand for any name.
ANY = {"NAME", "FILE", "FOLDER", "FUNCTION", "PROGRAM", "NNNN"}
# What begins with one of these is said to another program.
PROGRAMS = {"rt", "python3", "ssconvert", "sed", "head"}
# What isn't ours, by where it stands.
ELSEWHERE = {
    "": {"target/"},  # what the commands make: it is not there on a clean clone
    "crates/machines": {"init"},  # an event of 001, which has no name here
    "crates/chapter": {"init"},
    "docs/CHAPTER.md": {"init"},
    "docs/DECISIONS.md": {"serving", "files", "saying", "line_of", "No", "Idle", "init"},  # what was called so before; the ending of a name
    "docs/SHEETS.md": {"writer", "newline"},  # Python's
    # private functions that went, with it or later, and a file of proofs
    "docs/changes/C-14.md": {"lacks_door", "lets_in", "zero_at", "sole_grant", "has_first", "crates/soundness/proofs/Onward.antt"},
}


# ---- Reading. Which files there are is looked up once; what they hold may change (tests/wrong_documents.py changes it).

def named_in(lines):
    """The lines that may name anything: those with a backtick or a slash."""
    return [(number, line) for number, line in lines if "`" in line or "/" in line]


@functools.lru_cache(maxsize=None)
def parted(text, mark):
    """The words of a file's code, and its comments: blocks of lines that name anything, each line with its number."""
    words, blocks, block = set(), [], []
    for number, line in enumerate(text.splitlines() + [""], 1):
        if line.lstrip().startswith(mark):
            block.append((number, line))
            continue
        blocks.append(named_in(block))
        block = []
        words.update(WORD.findall(line))
    return words, list(filter(None, blocks))


@functools.lru_cache(maxsize=None)
def parted_script(text):
    """The same of a test or a command; what stands between three quotes at the beginning of a line is a comment too."""
    said = [m for m in re.finditer(r'"""(.*?)"""', text, re.S) if not text[: m.start()].split("\n")[-1].strip()]
    blocks = [named_in(enumerate(m.group(1).split("\n"), text.count("\n", 0, m.start()) + 1)) for m in said]
    for m in reversed(said):
        text = text[: m.start()] + "\n" * m.group().count("\n") + text[m.end() :]
    words, more = parted(text, "#")
    return words, blocks + more


@functools.lru_cache(maxsize=None)
def sources():
    """The files of the crates that have comments, each with its crate and the mark of a comment."""
    found = []
    for crate in crates():
        for folder, folders, names in os.walk(os.path.join("crates", crate)):
            folders[:] = sorted(set(folders) - {"data", "out"})
            for name in sorted(names):
                mark = {".rt": "//", ".antt": "--", ".edit": "#"}.get(os.path.splitext(name)[1])
                if mark:
                    found.append((os.path.join(folder, name), crate, mark))
    return found


def scripts():
    """The tests and the commands."""
    for folder in ("bin", "tests", os.path.join("tests", "reference"), "bench", ".ci"):
        for name in sorted(os.listdir(folder)):
            path = os.path.join(folder, name)
            if os.path.isfile(path) and not name.endswith(".c"):
                yield path


def pages():
    """The documents."""
    # docs/PORT.md, docs/DESIGN-PASS.md and docs/LOOK-BACK.md name what was called otherwise before
    return ["README.md", os.path.join("examples", "README.md")] + sorted(set(glob.glob("docs/**/*.md", recursive=True)) - {"docs/PORT.md", "docs/DESIGN-PASS.md", "docs/LOOK-BACK.md"})


@functools.lru_cache(maxsize=None)
def file_names():
    """The names of files and folders, and of must-fail edits."""
    found = set()
    for top in ("crates", "examples", "docs", "tests", "bin", "bench"):
        for _, folders, names in os.walk(top):
            found.update(folders, (name.removesuffix(".edit") for name in names))
    return found


@functools.lru_cache(maxsize=None)
def members_in(text):
    """What a file of code has, and what each of its types has."""
    whole = re.findall(r"^\s*(?:pub(?:\(crate\))? )?(?:fn|struct|enum|const|mod) (\w+)", text, re.M)
    types = re.findall(r"^(?:impl|pub enum|pub trait)(?:<[^>]*>)? (?:\w+(?:<[^>]*>)? for )?(\w+)[^\n]*\{\n(.*?)^\}", text, re.M | re.S)
    return whole, [(owner, name) for owner, body in types for name in re.findall(r"^    (?:pub )?(?:fn |const )?(\w+)", body, re.M)]


def members():
    """The pairs of an owner and a member: what a crate, a module or a type has."""
    found = set()
    for path, crate, mark in sources():
        if mark == "//":
            module = os.path.basename(path)[:-3]
            whole, of_types = members_in(read(path))
            found |= {(owner, name) for owner in (crate, module) for name in whole} | {(crate, module)} | set(of_types)
    return found


# ---- What is in backticks is there

def on(listed, crate):
    """A crate, and those that it stands on, itself or by others."""
    found, left = set(), [crate]
    while left:
        name = left.pop()
        if name in listed and name not in found:
            found.add(name)
            left += listed[name]
    return found


@functools.lru_cache(maxsize=None)
def is_path(path, folders):
    """Whether there is such a file or folder; a word for any name stands for each."""
    path = "/".join("*" if part in ANY else part for part in path.split("/"))
    there = glob.glob if "*" in path else os.path.exists
    return any(there(os.path.join(folder, path)) for folder in folders)


def lost_in(fragment, words, pairs, folders):
    """The parts of what stands between backticks that aren't there."""
    pieces = fragment.split()
    if pieces[0] in PROGRAMS or pieces[0].startswith("-"):
        return
    alone = re.fullmatch(r"[\w.:-]+", fragment)
    for piece in pieces:
        if PATH.fullmatch(piece):
            if not is_path(piece, folders):
                yield piece
        elif QUALIFIED.fullmatch(piece):
            parts = piece.split("::")
            if not all(pair in pairs for pair in zip(parts, parts[1:])):
                yield piece
        else:
            for word in WORD.findall(piece):
                begins = word.endswith("-") and any(known.startswith(word) for known in words)
                if word not in words and word not in ANY and not begins and (alone or NAME.match(word)):
                    yield word


class Lines:
    """The lines of comments and documents that name anything, and the names that each may use."""

    def __init__(self, listed):
        self.pairs, self.of_crate = members(), {crate: set() for crate in listed}
        self.files = [(path, crate, *parted(read(path), mark)) for path, crate, mark in sources()]
        for path, crate, words, _ in self.files:
            if not path.endswith(".edit"):
                self.of_crate[crate] |= words
        self.always = STEPS | MSGIDS | STD | set(listed) | set(os.listdir("bin"))
        self.all = self.always.union(file_names(), *self.of_crate.values())
        self.below = {crate: on(listed, crate) for crate in listed}
        self.reached = {}

    def words_for(self, crate, block):
        """The words that a comment of a crate may use."""
        named = {name for _, line in block for name in CRATE.findall(line) if name in self.below}
        key = frozenset(named | {crate})
        if key not in self.reached:
            reached = set().union(*(self.below[name] for name in key))
            self.reached[key] = self.always.union(*(self.of_crate[name] for name in reached))
        return self.reached[key]

    def lines(self):
        """Each line: the file, the number, the text, the words that it may use, and where its paths begin."""
        for path, crate, _, blocks in self.files:
            for block in blocks:
                words = self.words_for(crate, block)
                for number, line in block:
                    yield path, number, line, words, (".", "crates", os.path.join("crates", crate))
        of_scripts = self.all.union(*(parted_script(read(path))[0] for path in scripts()))
        for path in scripts():
            for block in parted_script(read(path))[1]:
                for number, line in block:
                    yield path, number, line, of_scripts, (".", os.path.dirname(path))
        anywhere = (".", "crates", *glob.glob("crates/*"), *glob.glob("examples/*"))
        for path in pages():
            for number, line in named_in(enumerate(read(path).splitlines(), 1)):
                yield path, number, line, self.all, anywhere

    def lost(self):
        """What is named in a line and isn't there."""
        for path, number, line, words, folders in self.lines():
            lost = [piece for fragment in FRAGMENT.findall(line) for piece in lost_in(fragment, words, self.pairs, folders)]
            lost += [piece for piece in BARE_PATH.findall(line) if not is_path(piece, folders)]
            lost += [f"the crate {name}" for name in CALLED_CRATE.findall(line) if name not in self.below]
            for piece in lost:
                if not any(path.startswith(place) and piece in allowed for place, allowed in ELSEWHERE.items()):
                    yield f"{path}:{number} names {piece}, which is not there"


def lost_names(listed):
    """The names in comments and documents that aren't there."""
    return Lines(listed).lost()


# ---- No two public definitions of different meaning share a name

DEFINED = re.compile(r" *(?:(?:abbrev|unfoldable) )?pub (?:record |data |ruleset )?(?!mod |use )([^\s:({]+)")
ITEM = re.compile(r"^pub (?:extern \"C\" )?(?:fn|struct|enum|const) (\w+)", re.M)


@functools.lru_cache(maxsize=None)
def defined_in(text):
    """The public definitions and theorems of a file; the fields of a record and the cases of data are none."""
    found, within = [], None
    for line in text.splitlines():
        indent = len(line) - len(line.lstrip())
        if not line.strip() or line.lstrip().startswith("--") or within is not None and indent > within:
            continue
        within = indent if re.match(r" *(?:pub )?(?:record|data) ", line) else None
        if DEFINED.match(line):
            found.append(DEFINED.match(line).group(1))
    return found


def places():
    """The public names, each with the files that define it. A method has its type's name in front, and isn't looked at."""
    found = {}
    for path, _, mark in sources():
        # the answers to a function's goals have the names of the goals
        if mark != "#" and not re.search(r"/proofs/.+/", path):
            for name in defined_in(read(path)) if mark == "--" else ITEM.findall(read(path)):
                found.setdefault(name, []).append(path)
    return found


# A function and a definition of another crate that had different spellings before all names were written alike. What the function answers
# is said by a definition of another name; the two never stand in one file.
ALIKE = {"read_rows", "row_at", "site_line_of", "steps_line_of", "way_out"}


def meaning(name, path):
    """What a definition means: two that may share a name mean the same."""
    escaped = re.escape(name)
    # each of the five machines has its events, guards and so on
    if re.fullmatch(r"crates/machines/specs/M[0-4]\.antt", path):
        return "of each machine"
    # `demands` hands a theorem of a crate below on under its name
    if path.startswith("crates/demands/proofs/") and re.search(rf"^{escaped} .*= \w+\.{escaped}( |$)", read(path), re.M):
        return None
    if path.endswith(".rt") and name in ALIKE:
        return None
    # a function whose promise says what it answers or writes by the definition of its name
    if path.endswith(".rt") and re.search(rf"^pub fn {escaped}\b[^{{;]*\n +ensures [^\n]*(?:≡ |\(){escaped} ", read(path), re.M):
        return None
    return path


def shared_names():
    """The names that public definitions of different meaning share."""
    several = {name: paths for name, paths in places().items() if len(paths) > 1}
    found = {name: paths for name, paths in several.items()
             if len({meaning(name, path) for path in paths} - {None}) > 1 or len(paths) > len(set(paths))}
    for name in sorted(found):
        yield f"{name} is defined in {' and in '.join(sorted(found[name]))}, which don't mean the same by it"
