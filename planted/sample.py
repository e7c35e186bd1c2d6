"""A sample of the edits that are trusted, to find an edit that the prover no longer refuses."""
import hashlib
import subprocess

import crates

# How many edits a run without names draws, and how many of them at most lie side by side: those of one crate take one check.
MOST, SIDE_BY_SIDE = 60, 10


def seed():
    """Returns what decides the draw: the commit, or where there is none the text of all edits."""
    try:
        return crates.output_of("git", "-C", crates.ROOT, "rev-parse", "HEAD")
    except (OSError, subprocess.CalledProcessError):
        return hashlib.sha256("".join(map(crates.edits_of, crates.with_edits())).encode()).hexdigest()


def pool(trusted, stale, most):
    """Returns the edits to draw `most` from, by crate: those of the stale crates if they are as many, else those of all trusted crates."""
    return stale if sum(map(len, stale.values())) >= most else trusted


def drawn(have, most, by):
    """Returns the names of some `most` edits, by crate, drawn by a text. All edits are in a ring, in an order by chance, those of a crate side by side. Arcs of
    one length are taken, equally far from one another, from a place by chance on. So each edit is as likely as any other, and few crates are checked."""
    number = lambda *words: int(hashlib.sha256(" ".join(words).encode()).hexdigest(), 16)
    ring = [(name, it) for name in sorted(have, key=lambda it: number(by, it)) for it in sorted(have[name], key=lambda it: number(by, name, it))]
    most, found = min(most, len(ring)), {}
    arcs = -(-most // SIDE_BY_SIDE)
    for at in range(most):
        name, edit = ring[(number(by) + at % arcs * len(ring) // arcs + at // arcs) % len(ring)]
        found.setdefault(name, set()).add(edit)
    return found
