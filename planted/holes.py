"""Holes in the place of proofs. A function is judged against the contracts of what it calls, so where one is edited all others can be left open: without a
body, and with a hole for a proof. The prover takes them by their contracts, and neither proves them nor looks at what they call."""
import os
import re

import crates

PROOFS = ("Answers", "Invariants", "Proof")
# The body of a function that is left open.
NOTHING = "unreachable!()"


def open_in(functions, judges):
    """Returns the functions of a crate, by file, that have a body and are not among those whose proofs judge edits. A program's `main` is none of them: nothing
    calls it, so it is not looked at."""
    left = lambda it: it.has_body and it.path != "main" and not {it.path, it.cycle} & judges
    return {path: list(filter(left, found)) for path, found in functions.items()}


def body_in(rows, function):
    """Returns the first line of a function's body and the line behind its last, where the braces around it end or are lines at the function's own indent."""
    indent = re.match(" *", rows[function.first])[0]
    opens = [at for at in range(function.first, function.last) if re.match(rf"{indent}(?:(?!//)\S.* )?{{$", rows[at])]
    return (opens[0] + 1, function.last) if opens and rows[function.last] == indent + "}" else (0, 0)


def without_bodies(text, functions):
    """Returns the text of a file with nothing in the bodies of these functions of it, and all other lines where they were. One that a constant may call, or
    that is in a cycle of calls, keeps its body."""
    rows = text.split("\n")
    for it in functions:
        first, end = body_in(rows, it)
        if first < end and not it.cycle and "const fn" not in rows[it.first]:
            rows[first:end] = [NOTHING] + [""] * (end - first - 1)
    return "\n".join(rows)


def text_of(crate, path):
    """Returns the proof of a function of this path, or of a cycle, which is a hole."""
    name = path.split("::")[-1]
    module = ".".join(["Rattle", crate, "proofs", *path.split("::")])
    home = module if name.startswith("+") else f"{module}.Statement"
    return f"use {home}.{{statement}}\n\npub {name}_spec : {{M : Type 1}} → statement M\n{name}_spec 𝓤 𝓛 𝓜 𝓡 wired = ?\n"


def remove_proof(folder, path):
    for name in PROOFS:
        file = os.path.join(folder, "proofs", *path.split("::"), f"{name}.antt")
        if os.path.isfile(file):
            os.remove(file)


def leave_open(folder, crate, functions):
    """Puts holes in the place of the proofs of these functions of a crate that stands in a folder, and of the cycles that they are in."""
    for path in {it.cycle or it.path for it in functions}:
        remove_proof(folder, path)
        # (without its body a function calls itself no more: the cycle that it made by itself is gone)
        remove_proof(folder, re.sub(r"(\w+)$", r"+\1", path))
        crates.write(os.path.join(folder, "proofs", *path.split("::"), "Proof.antt"), text_of(crate, path))
