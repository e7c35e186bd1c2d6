"""Twins: several wrong edits of one function are tried at once, each but the first in a function of the same text and contract that stands right behind it
under a name of its own, with a copy of its proof."""
import os
import re
import shutil
from dataclasses import replace

import crates


def twin_path(path, number):
    return f"{path}__{number}"


def dotted(crate, path):
    """Returns the name under which proofs cite what is made of a function."""
    return ".".join(["Rattle", crate, "proofs", *path.split("::")])


def folder_of(proofs, path):
    return os.path.join(proofs, *path.split("::"))


def cited_by_others(crate, proofs, path):
    """Whether a file of proofs/ that is not the function's own cites what is made of it: that would not hold of a twin."""
    name, own = re.compile(re.escape(dotted(crate, path)) + r"\b(?!__)"), folder_of(proofs, path) + os.sep
    return any(name.search(crates.read(it)) for it in crates.files_in(proofs) if not it.startswith(own))


def has_closures_with_proofs(proofs, path):
    *above, name = path.split("::")
    return os.path.isdir(os.path.join(proofs, *above, "fn", name))


def stands_alone(function, rows):
    """Whether a function can stand twice: it is no method of a trait, is in no cycle of calls and calls no function of its own name, and its head has nothing
    that holds of one function alone."""
    name = function.path.split("::")[-1]
    text = "\n".join(rows[function.first + 1 : function.last + 1])
    above = rows[function.first - 1].strip() if function.first else ""
    is_plain = not re.search(r"\bconst fn|\bextern\b", rows[function.first]) and (not above.startswith("#[") or above.startswith("#[inline"))
    return function.has_body and not function.is_of_trait and not function.cycle and is_plain and not re.search(rf"\b{name}\b", text)


def mark(edits, crate, texts, functions, proofs):
    """Notes of each edit the function in whose twin it can be tried, with its file."""
    by_path = {it.path: (path, it) for path, found in functions.items() for it in found}
    known = {}
    for edit in edits:
        if edit.fault or edit.is_apart or len(edit.functions) != 1:
            continue
        (path,) = edit.functions
        if path not in known:
            file, function = by_path[path]
            can = stands_alone(function, texts[file].split("\n")) and not has_closures_with_proofs(proofs, path)
            known[path] = (file, function) if can and not cited_by_others(crate, proofs, path) else None
        edit.original = known[path]


def twin_of(edit, number):
    """Returns an edit that changes a twin of the function in the place of the function."""
    path = twin_path(edit.original[1].path, number)
    return replace(edit, functions={path}, judges={path}, twin=number)


def text_of(edit, texts):
    """Returns the lines of the twin that an edit changes."""
    file, function = edit.original
    rows = texts[file].split("\n")
    for (path, at), row in edit.lines.items():
        if path == file:
            rows[at] = row
    name = function.path.split("::")[-1]
    head = re.sub(rf"\bfn {name}\b", f"fn {twin_path(name, edit.twin)}", rows[function.first], count=1)
    return [head, *rows[function.first + 1 : function.last + 1]]


def put_texts(made, twins, texts):
    """Puts the twins of these edits into the texts that are made of a crate's, each behind the function that it is a twin of."""
    for edit in sorted(twins, key=lambda it: -it.original[1].last):
        file, function = edit.original
        rows = made[file].split("\n")
        rows[function.last + 1 : function.last + 1] = ["", *text_of(edit, texts)]
        made[file] = "\n".join(rows)


def put_proofs(folder, crate, twins, proofs):
    """Puts a copy of the function's proof beside it for each twin, where it has one."""
    for edit in twins:
        path = edit.original[1].path
        source, target = folder_of(proofs, path), folder_of(os.path.join(folder, "proofs"), twin_path(path, edit.twin))
        if not os.path.isdir(source):
            continue
        shutil.copytree(source, target)
        name = re.compile(re.escape(dotted(crate, path)) + r"\b")
        for it in crates.files_in(target):
            crates.write(it, name.sub(dotted(crate, twin_path(path, edit.twin)), crates.read(it)))
