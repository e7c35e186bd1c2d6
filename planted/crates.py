"""The crates of this repository: their rows in crates.txt, their texts, and the words of the prover's command."""
import functools
import hashlib
import os
import subprocess

from verdicts import VERSION

ROOT = os.path.dirname(os.path.dirname(os.path.abspath(__file__)))
PARTS = ("src", "specs", "proofs")
# The files of a library that prove the contract of a function, and its table of what was made for that.
PROOFS = ("Answers.antt", "Invariants.antt", "Proof.antt", "made.json")


def read(path):
    with open(path, encoding="utf-8") as file:
        return file.read()


def write(path, text):
    os.makedirs(os.path.dirname(path), exist_ok=True)
    with open(path, "w", encoding="utf-8") as file:
        file.write(text)


@functools.cache
def output_of(*words):
    """Returns what a command prints."""
    return subprocess.run(words, stdout=subprocess.PIPE, text=True, check=True).stdout.strip()


def kit():
    """Returns the folder of the toolchain."""
    return os.path.dirname(output_of("rt", "doc"))


def rows():
    """Returns the words of each crate's row in crates.txt: what stands beside its name, and the libraries behind the colon."""
    found = {}
    for row in read(f"{ROOT}/crates.txt").split("\n"):
        head, _, libraries = row.partition("#")[0].partition(":")
        if head.strip():
            name, *kind = head.split()
            found[name] = kind, libraries.split()
    return found


def below(name, table):
    """Returns the libraries of this repository that a crate rests on, itself not among them, by name."""
    found = set()
    for it in table[name][1]:
        if it in table:
            found |= {it, *below(it, table)}
    return sorted(found)


def files_in(folder):
    """Returns the paths of all files in a folder, in order."""
    return sorted(os.path.join(at, name) for at, _, names in os.walk(folder) for name in names)


def texts_of(name):
    """Returns the texts of a crate's source files, by their path in the crate."""
    folder = f"{ROOT}/crates/{name}"
    return {os.path.relpath(path, folder): read(path) for path in files_in(f"{folder}/src")}


def with_edits():
    """Returns the names of the crates that have a file of wrong edits, in the order of crates.txt, and after them those that it has not."""
    found = {it.removesuffix(".edits") for it in os.listdir(f"{ROOT}/planted") if it.endswith(".edits")}
    return [it for it in rows() if it in found] + sorted(found - rows().keys())


def edits_of(name):
    """Returns the text of a crate's file of wrong edits."""
    return read(f"{ROOT}/planted/{name}.edits")


def sums_of(name):
    """Returns the two sums in the first line of a crate's file of wrong edits, `none` for each that it does not have. They are what `states_of` returned when
    all edits of the crate were refused last."""
    words = edits_of(name).partition("\n")[0].removeprefix("sum:").split()
    return tuple([*words, "none", "none"][:2])


def write_sums(name, own_sum, below_sum):
    write(f"{ROOT}/planted/{name}.edits", f"sum: {own_sum} {below_sum}\n" + edits_of(name).partition("\n")[2])


def logic():
    """Returns which logic of programs the toolchain has: two toolchains with the same one prove the same."""
    return output_of("rt", "version").partition("logic")[2].strip()


def links_code(name, row):
    """Whether a crate is a program or a static library, whose check reads all of the libraries below it, and not their public interface alone."""
    return "staticlib" in row[0] or os.path.isfile(f"{ROOT}/crates/{name}/src/main.rt")


def statements_of(name, is_whole):
    """Returns the paths of the files that say what a built library states to a crate above it, without the bodies of functions and the proofs of their
    contracts: its public types and contracts, definitions and lemmas; and where `is_whole` the types and contracts that are its own too."""
    folder = f"{library(name)}/{name}.rlib"
    found = [it for part in ("interface/lang", "lang" if is_whole else "lang/antt") for it in files_in(f"{folder}/{part}")]
    return [it for it in found if os.path.basename(it) not in PROOFS]


def sum_over(words, paths):
    """Returns a sum of these words, and of the paths and contents of these files."""
    whole = hashlib.sha256(repr(words).encode())
    for it in paths:
        with open(it, "rb") as file:
            whole.update(repr((os.path.relpath(it, ROOT), file.read())).encode())
    return whole.hexdigest()


def state_of(name):
    """Returns a sum of all that decides how a crate's edits are answered, except its libraries: its text, its row, its edits, the version of this driver's
    verdicts, and the logic. It is None if crates.txt has no such crate."""
    table = rows()
    if name not in table:
        return None
    words = logic(), VERSION, table[name], edits_of(name).partition("\n")[2]
    return sum_over(words, [it for part in PARTS for it in files_in(f"{ROOT}/crates/{name}/{part}")])


def state_below(name):
    """Returns a sum of what the libraries below a crate state to it, and of their rows. It is None if one of them is not built, or crates.txt has no such
    crate."""
    if lacks(name):
        return None
    table = rows()
    libraries, is_whole = below(name, table), links_code(name, table[name])
    return sum_over([(it, table[it]) for it in libraries], [path for it in libraries for path in statements_of(it, is_whole)])


def states_of(name):
    """Returns both sums as they are now: of what is the crate's own, and of what the libraries below it state."""
    return state_of(name), state_below(name)


def is_trusted(name):
    """Whether nothing of a crate's own has changed since all its edits were refused."""
    return state_of(name) == sums_of(name)[0]


def is_stale(name):
    """Whether the libraries below a crate may state something else than when all its edits were refused: their sum is another, or it is not known."""
    return state_below(name) != sums_of(name)[1]


def library(name):
    """Returns the folder where `rt ci` leaves the built library of this name."""
    return f"{ROOT}/crates/{name}/out/rlib"


def lacks(name):
    """Returns why a crate's edits cannot be tried, or nothing: a library below it has no rlib, or one older than a text that it is made from."""
    table, found = rows(), []
    for it in below(name, table) if name in table else ():
        texts = [path for crate in [it, *below(it, table)] for part in PARTS for path in files_in(f"{ROOT}/crates/{crate}/{part}")]
        made = f"{library(it)}/{it}.rlib"
        if not os.path.isdir(made) or os.path.getmtime(made) < max(map(os.path.getmtime, texts)):
            found.append(it)
    why = f"the built library of {', '.join(found)} is not there, or older than its text: run rt ci" if found else ""
    return why if name in table else "crates.txt has no crate of this name"


def words_of(name):
    """Returns the words of a check of a crate that stands in the working folder."""
    table, home = rows(), kit()
    kind, own = table[name][0], [it for it in table[name][1] if it in table]
    words = [f"{home}/bin/rattle", "check", "--crate-name", name]
    words += ["src/main.rt" if os.path.isfile(f"{ROOT}/crates/{name}/src/main.rt") else "src/lib.rt"]
    for it in ["std", *(it for it in table[name][1] if it not in table)]:
        words += ["--extern", f"{it}={home}/rlibs/{it}.rlib"]
    words += ["-L", f"dependency={home}/rlibs"]
    for it in own:
        words += ["--extern", f"{it}={library(it)}/{it}.rlib"]
    for it in below(name, table):
        words += ["-L", f"dependency={library(it)}"]
    words += ["--antt-project", f"{home}/rattle/logic/antt-project.json", "--logic-built", f"{home}/logic_built"]
    words += ["--links", f"{name}="]
    return words + (["--crate-type", "staticlib"] if "staticlib" in kind else [])
