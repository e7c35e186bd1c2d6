"""What a reader meets in this house, counted by crate: `./verify --house`.

Functions of `src/`, and those of more than 40 lines without their clauses; lines of clauses of more than 120 columns; definitions of `specs/`, those of more than six explicit
arguments, and those of more than 20 lines.
"""
import glob
import os
import re
import sys

COLUMNS, LINES_OF_FUNCTION, LINES_OF_DEFINITION, ARGUMENTS = 120, 40, 20, 6
HEADS = ("functions", f"over {LINES_OF_FUNCTION} lines", f"clause lines over {COLUMNS}", "definitions", f"over {ARGUMENTS} arguments", f"over {LINES_OF_DEFINITION} lines")
CLAUSE = re.compile(r" *(?:requires|ensures|invariant\S*|decreases\S*)\b|^ *ghost (?!use)")
DEFINITION = re.compile(r"(?:abbrev |unfoldable )?pub (?:(record|data) )?([^\s:(]+)(.*)")


def texts_below(folder, ending):
    """Yields the path and the lines of each file below the folder whose name ends so."""
    for path in sorted(glob.glob(f"{folder}/**/*{ending}", recursive=True)):
        with open(path, encoding="utf-8") as file:
            yield path, file.read().split("\n")


def at_top_level(text):
    """Returns the text with what stands in parentheses or braces left out, those themselves kept."""
    kept, depth = [], 0
    for letter in text:
        depth -= letter in ")}"
        if depth == 0:
            kept.append(letter)
        depth += letter in "({"
    return "".join(kept)


def names_in_binders(text):
    """Returns how many names the explicit binders of a text, such as `(a b : T) (c : U)`, bind at its top level, and the text without them."""
    names, rest, place = 0, [], 0
    while place < len(text):
        if text[place] not in "({":
            rest.append(text[place])
            place += 1
            continue
        depth, end = 0, place
        while end < len(text):
            depth += (text[end] in "({") - (text[end] in ")}")
            if depth == 0:
                break
            end += 1
        inner = text[place + 1 : end]
        bound = re.match(r"([^():]+) : ", inner)
        if not bound:
            rest.append("_")
        elif text[place] == "(":
            names += len(bound[1].split())
        place = end + 1
    return names, "".join(rest)


def arguments_of(kind, rest):
    """Returns how many explicit arguments a definition takes, by what stands behind its name."""
    names, rest = names_in_binders(rest)
    if kind:
        return names
    arrows = [it.strip() for it in re.split("→", rest.partition(":")[2])]
    return names + sum(bool(it) for it in arrows[:-1])


def definitions_of(lines):
    """Yields the number of arguments and of lines of each definition of a file of specs/."""
    at = 0
    while at < len(lines):
        found = DEFINITION.match(lines[at])
        at += 1
        if not found:
            continue
        first = at - 1
        while at < len(lines) and lines[at].strip() and not lines[at].startswith("--") and not DEFINITION.match(lines[at]):
            at += 1
        head = [found[3]]
        for line in lines[first + 1 : at]:
            if not line.startswith(" ") or "where" in head[-1]:
                break
            head.append(line)
        yield found[2], arguments_of(found[1], " ".join(head)), at - first


def clause_lines(lines):
    """Returns the numbers of the lines of clauses: one begins at its word, and ends where its braces are closed."""
    found, depth = set(), 0
    for number, line in enumerate(lines):
        if depth > 0 or CLAUSE.match(line):
            found.add(number)
            depth += line.count("{") - line.count("}")
    return found


def long_clauses(path, lines):
    """Yields the place of each line of a clause that is over the bound."""
    for number in sorted(clause_lines(lines)):
        if len(lines[number]) > COLUMNS:
            yield f"{path}:{number + 1}: a line of a clause of {len(lines[number])} columns"


def length_of(function, lines):
    """Returns how many lines a function has, its clauses left out."""
    clauses = clause_lines(lines[function.first : function.last + 1])
    return function.last + 1 - function.first - len(clauses)


def counts_of(crate, functions):
    """Returns the counts of one crate, in the order of HEADS, and the places of what is over a bound."""
    texts = dict(texts_below(f"{crate}/src", ".rt"))
    below = {path.removeprefix(f"{crate}/"): "\n".join(lines) for path, lines in texts.items()}
    found = [
        (f"{crate}/{path}:{it.first + 1}", length_of(it, texts[f"{crate}/{path}"]))
        for path, those in functions.functions_in(below).items()
        for it in those
        if it.has_body
    ]
    defined = [(path, *it) for path, lines in texts_below(f"{crate}/specs", ".antt") for it in definitions_of(lines)]
    over = [
        [f"{place}: a function of {length} lines" for place, length in found if length > LINES_OF_FUNCTION],
        [place for path, lines in texts.items() for place in long_clauses(path, lines)],
        [f"{path}: {name} takes {arguments} arguments" for path, name, arguments, _ in defined if arguments > ARGUMENTS],
        [f"{path}: {name} has {length} lines" for path, name, _, length in defined if length > LINES_OF_DEFINITION],
    ]
    functions_over, clauses, wide, long = map(len, over)
    return [len(found), functions_over, clauses, len(defined), wide, long], [place for places in over for place in places]


def main(root, shows_places):
    """Prints the table, and where it is asked for the place of each that is over a bound; returns the status."""
    sys.path.insert(0, f"{root}/planted")
    import functions

    rows, places = [], []
    for crate in sorted(glob.glob("crates/*")):
        counts, found = counts_of(crate, functions)
        rows.append((os.path.basename(crate), counts))
        places += found
    rows.append(("all", [sum(it) for it in zip(*(counts for _, counts in rows))]))
    width = max(len(name) for name, _ in rows)
    print(" " * width + "".join(f"  {it}" for it in HEADS))
    for name, counts in rows:
        print(name.ljust(width) + "".join(f"  {str(it).rjust(len(head))}" for it, head in zip(counts, HEADS)))
    if shows_places:
        print("\n".join(places))
    return 0
