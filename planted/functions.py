"""The functions of a source file, under the paths by which the prover names them."""
import re
from dataclasses import dataclass


@dataclass
class Function:
    """A function: its path below the crate, its first and last line, from 0, the path of the proof of the cycle of calls that it is in, if it is in one,
    whether it has a body, which a trait's method may lack, and whether it is a method of a trait or of an impl of one."""

    path: str
    first: int
    last: int
    cycle: str = ""
    has_body: bool = True
    is_of_trait: bool = False


CYCLE = re.compile(r" *#\[cycle\((\w+)\)\]")
START = re.compile(r"( *)(?:pub(?:\([^)]*\))? )?(?:unsafe )?(?:extern \"C\" )?fn (\w+)")
BLOCK = re.compile(r"( *)(?:pub(?:\([^)]*\))? )?(?:impl\b|mod (\w+) \{|trait (\w+))")


def module_of(path):
    """Returns the words of the path of the module that a file of src/ holds."""
    words = path.removeprefix("src/").removesuffix(".rt").split("/")
    return [] if words in (["lib"], ["main"]) else [it for it in words if it != "mod"]


def inside_angles(text, at):
    """Returns the text between the angle bracket that stands at this place and the one that closes it, and the place behind that."""
    depth = 0
    for place in range(at, len(text)):
        depth += (text[place] == "<") - (text[place] == ">" and text[place - 1] != "-")
        if depth == 0:
            return text[at + 1 : place], place + 1
    return text[at + 1 :], len(text)


def words_of(text, left_out):
    """Returns the words of a type in the prover's spelling, one after another: `&u8` gives RefU8, and `Box<dyn Handler>` BoxDynHandler."""
    text = re.sub(r"'\w+\b", "", text)
    text = text.replace("&", " ref ")
    words = [it for it in re.findall(r"\w+", text) if it not in left_out]
    return "".join(it[0].upper() + it[1:] for it in words)


def name_of_impl(head):
    """Returns the prover's name of an impl, whose head is the text up to its brace: the words of the type, of the trait and of the trait's arguments,
    without the impl's own parameters; and whether it is a trait's."""
    head = re.split(r"\bwhere\b|\{", head)[0].strip().removeprefix("impl")
    own = []
    if head.startswith("<"):
        parameters, behind = inside_angles(head, 0)
        own = re.findall(r"(?:^|,)\s*(?:const )?(\w+)", parameters)
        head = head[behind:]
    trait, found, subject = head.rpartition(" for ")
    if not found:
        return words_of(subject.partition("<")[0], own), False
    return words_of(subject, own) + words_of(re.sub(r"^\s*(\w+::)+", "", trait), own), True


def head_of(rows, at):
    """Returns the text of an impl from its first line to its brace."""
    text = ""
    for row in rows[at:]:
        text += row + " "
        if "{" in row:
            break
    return text


def ends_at(rows, first, indent):
    """Returns the last line of a block that begins in this line: the one that closes it at its own indent, or for a method without a body the last one
    before the next."""
    if rows[first].rstrip().endswith("}"):
        return first
    for at in range(first + 1, len(rows)):
        if rows[at].rstrip() in (indent + "}", indent + "{}"):
            return at
        if START.match(rows[at]) and START.match(rows[at])[1] == indent:
            return at - 1
    return len(rows) - 1


def has_body(rows, indent):
    """Returns whether the function of these lines has a body: one that ends at the function's own indent, or stands in its line."""
    return any(re.match(rf"{indent}(?!//)\S", it) and it.rstrip().endswith("}") for it in rows)


def cycle_above(rows, at, module):
    """Returns the path of the proof of the cycle that the attributes right above a function name, or nothing."""
    while at and rows[at - 1].lstrip().startswith("#["):
        at -= 1
        found = CYCLE.match(rows[at])
        if found:
            return "::".join([*module, f"+{found[1]}"])
    return ""


def homes_of(texts):
    """Returns the module of each struct and enum of a crate, by its name, where one module alone has that name."""
    homes = {}
    for path, text in texts.items():
        for name in re.findall(r"^ *(?:pub(?:\([^)]*\))? )?(?:struct|enum) (\w+)", text, re.M):
            homes.setdefault(name, []).append(module_of(path))
    return {name: found[0] for name, found in homes.items() if len(found) == 1}


def generic_types_of(texts):
    """Returns the names of the structs and enums of a crate that have types as parameters."""
    return {name for text in texts.values() for name in re.findall(r"^ *(?:pub(?:\([^)]*\))? )?(?:struct|enum) (\w+)<(?!')", text, re.M)}


def functions_of(path, text, homes, generic):
    """Returns the functions of a file of src/. A type's own functions go by the module of the type, wherever they stand."""
    rows, found, blocks, until = text.split("\n"), [], [], -1
    for at, row in enumerate(rows):
        blocks = [it for it in blocks if it.last >= at]
        start, block = START.match(row), BLOCK.match(row)
        if at > until and start:
            until = min(ends_at(rows, at, start[1]), blocks[-1].last if blocks else len(rows))
            above = blocks[-1].path if blocks else "::".join(module_of(path))
            cycle = cycle_above(rows, at, module_of(path))
            path_below = f"{above}::{start[2]}".removeprefix("::")
            is_of_trait = any(it.is_of_trait for it in blocks)
            found.append(Function(path_below, at, until, cycle, has_body(rows[at : until + 1], start[1]), is_of_trait))
        elif at > until and block:
            name, is_own, of_trait = block[2] or block[3], True, bool(block[3])
            if not name:
                head = head_of(rows, at)
                name, of_trait = name_of_impl(head)
                is_own = of_trait or name in generic and not head.lstrip().startswith("impl<")
            above = module_of(path) if is_own else homes.get(name, module_of(path))
            blocks.append(Function("::".join([*above, name]), at, ends_at(rows, at, block[1]), is_of_trait=of_trait))
    return found


def functions_in(texts):
    """Returns the functions of each file of a crate, by the file's path."""
    homes, generic = homes_of(texts), generic_types_of(texts)
    return {path: functions_of(path, text, homes, generic) for path, text in texts.items()}
