"""Wrong edits: the files that they are written in, the lines that each changes, and the functions that hold those lines."""
import re
from dataclasses import dataclass, field

from functions import functions_in, module_of

# A heading names a file of src/ and a function of it, without the module's path where it begins with that; below it are edits of that function.
HEADING = re.compile(r"file: (src/\S+\.rt)(?:, function: (\S+))?")
EDIT = re.compile(r"((?:# .+\n)+)(\w+)\n((?:- .+\n\+(?: .*)?(?:\n|$))+)((?:refused at: \S+(?:\n|$))*)")
PAIR = re.compile(r"^- (.+)\n\+ ?(.*)$", re.M)


@dataclass
class Edit:
    """A wrong edit of a crate. Each text of an edit is one line, so an edit changes lines and moves none."""

    name: str
    # By file and number of the line, from 0: what stands there after the edit.
    lines: dict = field(default_factory=dict)
    # The paths of the functions that it changes, as the prover prints them below the crate's name, and of the cycles of calls that these are in.
    functions: set = field(default_factory=set)
    # The functions, cycles or files of lemmas whose proof must refuse it: those functions and cycles, or what its lines `refused at:` name.
    judges: set = field(default_factory=set)
    # Whether it is tried by itself: it changes a line that no function holds, as a field of a struct, or is judged by a function that it does not change.
    is_apart: bool = False
    # Why it cannot be tried, if it cannot.
    fault: str = ""
    # The file and the function in whose twin it can be tried, and the number of the twin in which it is, 0 for the function itself.
    original: tuple = ()
    twin: int = 0


def blocks_of(text):
    """Returns the blocks of a file of edits, which empty lines part, without its first line."""
    return [it for it in re.split(r"\n{2,}", text.partition("\n")[2].strip("\n")) if it]


def names_in(text):
    """Returns the names of the edits in the text of a file of edits."""
    return [it[2] for it in map(EDIT.fullmatch, blocks_of(text)) if it]


def changed_lines(before, pairs):
    """Returns what each line that an edit changes has after it, by its number: each pair applies to what those before it made."""
    after = before
    for old, new in pairs:
        if after.count(old) != 1:
            raise ValueError(f"its old text is in the file {after.count(old)} times, and not once: {old}")
        after = after.replace(old, new)
    rows = zip(before.split("\n"), after.split("\n"), strict=True)
    return {at: new for at, (old, new) in enumerate(rows) if old != new}


def read_edit(words, path, heading, texts, functions):
    """Returns the edit of these words (its name, its pairs, and the paths that must refuse it) under a heading, of a crate of these texts and functions."""
    name, pairs, judges = words
    edit = Edit(name)
    try:
        if path not in texts:
            raise ValueError(f"there is no file {path}")
        changed = changed_lines(texts[path], pairs)
    except ValueError as why:
        edit.fault = f"it does not fit: {why}"
        return edit
    for at, row in changed.items():
        edit.lines[path, at] = row
        holders = [it for it in functions[path] if it.first <= at <= it.last]
        edit.functions.update(it for holder in holders for it in (holder.path, holder.cycle) if it)
        edit.is_apart = edit.is_apart or not holders
    edit.judges = edit.functions | judges
    edit.is_apart = edit.is_apart or edit.judges != edit.functions
    if not edit.lines:
        edit.fault = "NOT REFUSED: it changes nothing"
    elif not edit.judges:
        edit.fault = "it changes no function, and no line `refused at:` names the one whose proof must refuse it"
    elif not {heading, "::".join([*module_of(path), heading])} & (edit.functions or {""}):
        edit.fault = f"it does not fit: it is under `{heading}`, and changes {', '.join(sorted(edit.functions)) or 'no function'}"
    return edit


def edits_in(text, texts):
    """Returns the edits of a file of edits, of a crate whose source files have these texts."""
    functions, found, path, heading, seen = functions_in(texts), [], "", "", set()
    for block in blocks_of(text):
        head, edit = HEADING.fullmatch(block), EDIT.fullmatch(block)
        if head:
            path, heading = head[1], head[2] or ""
        elif edit and edit[2] not in seen:
            words = edit[2], PAIR.findall(edit[3]), set(re.findall(r": (\S+)", edit[4]))
            found.append(read_edit(words, path, heading, texts, functions))
            seen.add(edit[2])
        else:
            fault = "an earlier edit has its name" if edit else "it is neither a heading `file: src/FILE, function: FUNCTION` nor an edit of the form that README.md has"
            found.append(Edit(block.partition("\n")[0], fault=fault))
    return found


def with_edits(texts, edits):
    """Returns the texts of the files that these edits change, all of them at once."""
    rows = {}
    for edit in edits:
        for (path, at), row in edit.lines.items():
            rows.setdefault(path, texts[path].split("\n"))[at] = row
    return {path: "\n".join(it) for path, it in rows.items()}
