"""What the prover says of the functions of a crate, in one check."""
import re
from dataclasses import dataclass, field

# Raised when this driver judges an edit in another way than before: the sums of all edits fall with it.
VERSION = 1
# What refuses an edit: a goal of the function that is open, which speaks of its meaning; or merely an error in a proof by hand, whose text may only be that of
# other code.
KINDS = BY_GOAL, BY_LETTER, BY_NOTHING = "by a goal", "by the letter of a proof", "by nothing"
# An error in a file that somebody wrote: of a function's proof, or of lemmas.
PROOF = re.compile(r"(?:\./)?(proofs/\S+\.antt):\d+:\d+: error: (.*)")
OF_FUNCTION = re.compile(r"proofs/(\S+)/(?:Answers|Proof|Invariants)\.antt")
CLOSURE = re.compile(r"(?:(.*)::)?fn::([^+]*)::[^:+]+(?:\+\d+)?(?:\+Fn\w*::call\w*)?")
FUNCTION = re.compile(r"fn \w+::(\S+): (.*)")
# What a proof file says where the edit took away a name that it cites, and of what it did not look at for that reason: this shows nothing of a contract.
NAMES_ALONE = re.compile(r"was not admitted|was not checked|is not in scope|has no field|has no `|is no name|(is|was) not found")
UNREAD = re.compile(r"(?:\./)?(?:src|specs)/\S+?:\d+:\d+: error")
VERDICT = re.compile(r"logic=(proved|not-proved)\b|only=\d+ (proved|holes)=\d+")
# What is said of a function that is proved, also where a proof that it stands on was left open.
HOLDS = re.compile(r"proved$|no holes$|depends on a hole in ")
# The lines that say what is wrong, among all that a check prints.
TOLD = re.compile(r"error|rattle: no verdict|antt: |(note: )?\S+:\d+:\d+: ")


@dataclass
class Said:
    """One check's answer, function by function, each under its path below the crate."""

    # Whether the prover came to judge what was asked of it. If not, `first` says why.
    is_judged: bool = False
    is_proved: bool = False
    # Whether the text was refused before any goal was put: it does not parse, has a wrong type, or breaks a rule of borrowing.
    is_rejected: bool = False
    # Of each function that has a goal of its own open, or an error in its own proof by hand: which of both, the goal first, and the line that says so;
    # likewise of each file of lemmas, by its path.
    refused: dict = field(default_factory=dict)
    # Of each function that only the borrow checker holds up: the line that says so.
    uncovered: dict = field(default_factory=dict)
    proved: set = field(default_factory=set)
    first: str = ""


def owner_of(path):
    """Returns the function that a path belongs to: its own, or of a closure, as `names::fn::first_dot::position+FnMut::call_mut`, the one that it is in."""
    found = CLOSURE.fullmatch(path)
    return "::".join(filter(None, found.groups())) if found else path


def proved_in(path):
    """Returns the function that a file of proofs/ belongs to; the file's own path where it holds lemmas."""
    found = OF_FUNCTION.fullmatch(path)
    return owner_of(found[1].replace("/", "::")) if found else path


def read_function(said, path, line):
    """Takes in what the prover's own line says of a function."""
    owner = owner_of(path)
    if HOLDS.match(line):
        said.proved.add(path)
    elif "did not prove" in line:
        if said.refused.get(owner, [""])[0] != BY_GOAL:
            said.refused[owner] = BY_GOAL, line
    elif "borrow checker" in line:
        said.uncovered.setdefault(owner, line)


def joined(lines):
    """Yields the prover's messages, each as one line: what begins with blanks goes on with the one before."""
    message = ""
    for line in lines:
        if line.startswith("  "):
            message += " " + line.strip()
        else:
            yield message
            message = line
    yield message


def read_message(said, message):
    """Takes in what one of the prover's messages says of a function."""
    function, proof = FUNCTION.match(message), PROOF.match(message)
    if function:
        read_function(said, function[1], function[2])
    elif proof and not NAMES_ALONE.search(re.sub(r"`[^`]*`", "``", proof[2])[:160]):
        said.refused.setdefault(proved_in(proof[1]), (BY_LETTER, message))


def read_output(output, status):
    """Returns what a check's output says, which ended with this status."""
    said, lines = Said(), [it for it in output.rstrip("\n").split("\n") if not it.startswith("so far: ")]
    is_unread = any(UNREAD.match(it) for it in lines)
    said.is_judged = status in (0, 1) and bool(VERDICT.match(lines[-1])) and not is_unread
    said.is_proved = status == 0 and said.is_judged
    said.is_rejected = status == 1 and not said.is_judged
    for message in joined(lines):
        read_message(said, message)
    told = [it for it in lines if TOLD.match(it)]
    # (a note on how a proof is written says least of why the check ended as it did)
    said.first = next((it for it in told if ": note: " not in it), next(iter(told), lines[0] or "it said nothing"))
    return said
