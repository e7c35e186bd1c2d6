"""The map of the modules: `./verify --map`. Crate by crate, in the order in which they are built, each module with the first sentence of its `//!` lines."""
import glob
import os
import re
import signal

SOURCE = re.compile(r"(?:\A|\n)((?://!.*\n)+)")


def sentence_of(path):
    """Returns the first sentence of what a source says of itself."""
    with open(path, encoding="utf-8") as file:
        found = SOURCE.search(file.read())
    text = " ".join(found[1].replace("//!", "").split()) if found else ""
    return re.split(r"(?<=[.!?]) (?=[A-Z`])", text)[0]


def modules_of(crate):
    """Yields the modules of a crate with their sentences; the crate itself is first."""
    folder = f"crates/{crate}/src"
    paths = glob.glob(f"{folder}/**/*.rt", recursive=True)
    names = {os.path.relpath(it, folder).removesuffix(".rt").replace("/", "::"): it for it in paths}
    roots = [it for it in ("lib", "main") if it in names]
    yield from ((name, sentence_of(names[name])) for name in [*roots, *sorted(set(names) - set(roots))])


def main(root):
    """Prints the map, and returns the status."""
    signal.signal(signal.SIGPIPE, signal.SIG_DFL)
    os.chdir(root)
    with open("crates.txt", encoding="utf-8") as file:
        crates = re.findall(r"^(\w+)(?: staticlib)?:", file.read(), re.MULTILINE)
    for crate in crates:
        (_, says), *modules = modules_of(crate)
        print(f"{crate}: {says}")
        print("".join(f"    {name}: {what}\n" for name, what in modules), end="")
    return 0
