"""A copy of a crate, which the prover checks with wrong edits in it."""
import os
import shutil
import signal
import subprocess
import sys
import threading

import crates
import edits
import functions
import holes
import twins
import verdicts

# The groups of the processes that run now, each of which ends with this driver; whether it is about to end; and whether its time to try edits is over.
running, ending, is_late = set(), threading.Event(), threading.Event()


class Late(Exception):
    """The time to try edits is over."""


def end_all(why=ending):
    """Ends all checks that still run, and starts no other."""
    why.set()
    for group in list(running):
        try:
            os.killpg(group, signal.SIGKILL)
        except ProcessLookupError:
            pass


def output_in(folder, words):
    """Runs a command in a folder, and returns what it says and the status it ends with."""
    if ending.is_set():
        sys.exit(1)
    if is_late.is_set():
        raise Late
    how = {"stdin": subprocess.DEVNULL, "stdout": subprocess.PIPE, "stderr": subprocess.STDOUT, "errors": "replace"}
    with subprocess.Popen(words, cwd=folder, start_new_session=True, **how) as ran:
        running.add(ran.pid)
        output = ran.stdout.read()
    running.discard(ran.pid)
    if is_late.is_set():
        raise Late
    return output, ran.returncode


class Copy:
    """A copy of a crate in a folder of its own. Its checks keep there what they proved, which makes the later ones short; they begin with what stands in
    the folder `kept`, where there is one. What they say goes to files of `output` too, where that is a folder."""

    def __init__(self, name, texts, room, words, output, tell, kept=None):
        self.name, self.texts, self.room, self.words, self.output, self.tell = name, texts, room, words, output, tell
        self.functions, self.checks = functions.functions_in(texts), 0
        if kept and os.path.isdir(kept):
            shutil.copytree(kept, f"{room}/kept")
        else:
            os.makedirs(f"{room}/kept")

    def write(self, batch, is_whole):
        """Writes the crate's files anew, with the edits of a batch in them, and unless it is to be proved whole with all functions left open but those whose
        proofs judge these edits."""
        shutil.rmtree(f"{self.room}/crate", ignore_errors=True)
        for part in crates.PARTS:
            if os.path.isdir(f"{crates.ROOT}/crates/{self.name}/{part}"):
                shutil.copytree(f"{crates.ROOT}/crates/{self.name}/{part}", f"{self.room}/crate/{part}")
        in_twins = [it for it in batch if it.twin]
        texts, left = edits.with_edits(self.texts, [it for it in batch if not it.twin]), {}
        if not is_whole:
            left = holes.open_in(self.functions, {path for edit in batch for path in edit.judges})
            texts = {path: holes.without_bodies(texts.get(path, text), left[path]) for path, text in self.texts.items()}
        twins.put_texts(texts, in_twins, self.texts)
        for path, text in texts.items():
            crates.write(f"{self.room}/crate/{path}", text)
        holes.leave_open(f"{self.room}/crate", self.name, [it for found in left.values() for it in found])
        twins.put_proofs(f"{self.room}/crate", self.name, in_twins, f"{crates.ROOT}/crates/{self.name}/proofs")

    def check(self, batch, is_whole, more):
        """Returns what the prover says of the crate with the edits of a batch in it."""
        self.write(batch, is_whole)
        self.checks += 1
        said = self.output and f"{self.output}/{self.name}.{self.checks}"
        stages = ["--stage-times", f"{said}.stages"] if said else []
        output, status = output_in(f"{self.room}/crate", [*self.words, "--incremental", f"{self.room}/kept", *stages, *more])
        if said:
            crates.write(said, output)
        return verdicts.read_output(output, status)

    def prove(self, batch, is_whole):
        """Checks the whole crate with these edits, or what judges them, against the contracts of all that this calls."""
        # (The proof of a cycle of calls belongs to no one function: the functions of the edits bring it along.)
        asked = sorted({path for edit in batch for path in edit.judges if not path.startswith("proofs/") and "+" not in path})
        self.tell(f"-- {self.name}: {len(batch)} tried {'in the whole crate' if is_whole else f'together, by {len(asked)} functions'}")
        more = [] if is_whole else ["--allow-holes", *(word for path in asked for word in ("--only", path))]
        return self.check(batch, is_whole, more)

    def reads(self, batch):
        """Asks the front end alone, in seconds."""
        return self.check(batch, True, ["--only", ""])
