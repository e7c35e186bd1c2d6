"""Transcripts: the files PROGRAM/SUBJECT.rows of this folder, read as commands. README.md has the format."""
import os
import re
import shlex

import message_words
from record_words import Unread

FOLDER = os.path.dirname(os.path.realpath(__file__))
REPOSITORY = os.path.dirname(FOLDER)

# The marks that lines of a command's body begin with.
MARKS = {"<": "in", "<-": "in unended", "<=": "in octets", ">": "out", ">=": "out octets", "!": "err", "!=": "err octets", "status": "status"}
# What lines of a file mean: a line, text without a line feed, and a text so many times.
FILE_MARKS = {"|": lambda it: f"{it}\n", "|-": lambda it: it, "|*": lambda it: it.partition(" ")[2] * int(it.split()[0])}
OUTPUTS = {"out", "out octets", "err", "err octets", "status"}

# Streams that fail: the input that `< /` asks for, and the output of `> /dev/full`.
STREAMS = {"<": "/", ">": "/dev/full"}

# Octets of a message in hex digits, as a program prints it or as a line of input ends in it.
DIGITS = re.compile(r"(?:^|\s)((?:[0-9a-fA-F]{2}){12,})$")


class Wrong(Exception):
    """Why a file is no transcript."""


class Line:
    """A line of a command's body: its number, what it is, and its text."""

    def __init__(self, number, kind, text):
        self.number = number
        self.kind = kind
        self.text = text


class Command:
    """A command of a transcript, with what it is given and what is wanted of it."""

    def __init__(self, path, number, line, comment, files):
        self.path, self.number, self.end, self.comment, self.files = path, number, number, comment, files
        self.goes_on = line.startswith("$+")
        words = shlex.split(line.removeprefix("$+").removeprefix("$"))
        self.form = words.pop(0) if words[:1] in (["bytes"], ["short"]) else ""
        self.environment = {}
        while words and re.match("[A-Z_][A-Z0-9_]*=", words[0]):
            name, _, value = words.pop(0).partition("=")
            self.environment[name] = value
        self.streams = {it: STREAMS[it] for it in STREAMS if [it, STREAMS[it]] == words[-2:]}
        words = words[:-2] if self.streams else words
        if not words:
            raise Wrong(f"line {number}: no program is named")
        self.program, *self.arguments = [unescaped(it) for it in words]
        self.body = []
        self.comments = []

    @property
    def place(self):
        return f"{os.path.relpath(self.path, REPOSITORY)}:{self.number}"

    @property
    def wanted_status(self):
        return next((int(it.text) for it in self.body if it.kind == "status"), 0)

    @property
    def is_answering(self):
        """Whether the program answers each line of input, and ends what it answers with an empty line."""
        return self.program == "tests" and self.arguments == [] or self.mode == "lines"

    @property
    def mode(self):
        """The mode of zone_serve."""
        return self.arguments[-1] if self.program == "zone_serve" and self.arguments else ""

    @property
    def is_served_alike(self):
        """Whether the C library serves the same lines: it keeps no journal, and reads no file that another one includes. (Status 1: a line is none.)"""
        if self.program != "zone_serve" or not self.is_answering or "--journal" in self.arguments or self.streams or self.wanted_status > 1:
            return False
        files = [value.partition("=")[2] for word, value in zip(self.arguments, self.arguments[1:]) if word == "--zone"]
        return not any(b"$INCLUDE" in (self.files.get(it) or b"").upper() for it in files)

    def wanted(self, kind):
        """The octets of the lines of this kind."""
        found = [bytes.fromhex(it.text) if it.kind.endswith("octets") else f"{it.text}\n".encode() for it in self.body if it.kind.startswith(kind)]
        return b"".join(found)

    def keys(self):
        """The keys of the file that its arguments name."""
        names = [value for word, value in zip(self.arguments, self.arguments[1:]) if word == "--keys"]
        texts = [self.files.get(it, b"").decode(errors="replace") for it in names]
        return message_words.keys_of("\n".join(texts))

    def given(self, now):
        """The input, and for each of its lines the line of the transcript that it ends in and the request that it has, if it has one."""
        octets, lines, keys, last = b"", [], self.keys(), b""
        inputs = [(at, it) for at, it in enumerate(self.body) if it.kind.startswith("in")]
        for at, it in inputs:
            request = None
            if it.kind == "in octets":
                piece = octets_of(it.text, keys, now)
            else:
                text, request = expanded(it.text, keys, now)
                piece = (text if it.kind == "in unended" else f"{text}\n").encode()
            octets += piece
            *whole, last = (last + piece).split(b"\n")
            lines += [(at, request or request_in(line.decode(errors="replace"))) for line in whole]
        if last:
            lines.append((at, request or request_in(last.decode(errors="replace"))))
        return octets, lines


def unescaped(word):
    """A word as $'..' has it: \\xff is an octet."""
    if not word.startswith("$"):
        return word
    return re.sub(r"\\x([0-9a-f]{2})", lambda it: bytes.fromhex(it[1]).decode(errors="surrogateescape"), word[1:])


def expanded(text, keys, now):
    """A line of input with the messages in it, and the request that it ends in."""
    found = []

    def digits(match):
        found.append(message_words.request_of(match[1], keys, now))
        return found[-1].octets.hex()

    line = re.sub(r"\{([^{}]*)\}", digits, text)
    return line, found[-1] if found else request_in(line, keys)


def octets_of(text, keys=None, now=None):
    """The octets of hex digits, messages and 'text'. What is in brackets has its length before it, in two octets, and what is in parentheses in four;
    00*9 is an octet nine times."""

    def framed(match):
        octets = bytes.fromhex(match[1])
        return (len(octets).to_bytes(2 if match[0][0] == "[" else 4, "big") + octets).hex()

    digits = re.sub(r"\{([^{}]*)\}", lambda it: message_words.request_of(it[1], keys or {}, now).octets.hex(), text)
    digits = re.sub(r"'([^']*)'", lambda it: it[1].encode().hex(), digits)
    digits = re.sub(r"([0-9a-f]{2})\*([0-9]+)", lambda it: it[1] * int(it[2]), digits)
    return bytes.fromhex(re.sub(r"[\[(]([^\[\]()]*)[\])]", framed, digits))


def request_in(line, keys=None):
    """The request that a line has in hex digits."""
    words = line.split(None, 2)
    text = "".join(words[2].split()) if len(words) == 3 and words[0] in ("udp", "tcp") else line
    match = DIGITS.search(text)
    return message_words.Request(bytes.fromhex(match[1]), keys=keys) if match else None


class Reading:
    """Reads a transcript from its first line to its last."""

    def __init__(self, path, shared):
        self.path = path
        self.shared = shared
        self.files = {}
        self.commands = []
        self.comment = ""
        self.file = None
        self.is_octets = False

    def take(self, number, line):
        mark, _, rest = line.partition(" ")
        if line.startswith("#"):
            self.comment = line
            if self.commands:
                self.commands[-1].comments.append((number, line))
        elif mark in FILE_MARKS and self.file is not None:
            self.files[self.file] += octets_of(rest) if self.is_octets else FILE_MARKS[mark](rest).encode()
        elif mark in ("file", "bytes", "folder", "nothing"):
            self.begin_file(mark, rest.strip())
        elif mark in ("$", "$+"):
            self.file = None
            self.commands.append(Command(self.path, number, line, self.comment, {**self.shared, **self.files}))
        elif mark in MARKS and self.commands and self.file is None:
            self.commands[-1].body.append(Line(number, MARKS[mark], rest))
        elif line.strip():
            raise Wrong(f"line {number} is none of a transcript: {line}")

    def begin_file(self, mark, name):
        """A file of these lines, or of octets; an empty folder; or nothing of this name."""
        self.file = name if mark in ("file", "bytes") else None
        self.is_octets = mark == "bytes"
        self.files[name] = {"folder": {}, "nothing": None}.get(mark, b"")


def read(path, shared):
    """The commands of a transcript."""
    reading = Reading(path, shared)
    with open(path, encoding="utf-8", newline="\n") as file:
        lines = enumerate(file.read().removesuffix("\n").split("\n"), 1)
    for number, line in lines:
        # (a command goes on in the next line, as a shell has it)
        end = number
        while line.startswith("$") and line.endswith("\\"):
            end, more = next(lines, (end, ""))
            line = line[:-1] + more
        try:
            reading.take(number, line)
            if line.startswith("$"):
                reading.commands[-1].end = end
        except (ValueError, Unread) as fault:
            raise Wrong(f"line {number}: {fault}") from fault
    return reading.commands


def shared_files():
    """The files that every scenario has, by their names below cases/files."""
    found, top = {}, f"{FOLDER}/files"
    for folder, _, names in os.walk(top):
        for name in names:
            path = os.path.join(folder, name)
            with open(path, "rb") as file:
                found[os.path.relpath(path, top)] = file.read()
    return found


def scenarios(commands):
    """Commands in groups, each of which begins in a fresh folder."""
    groups = []
    for it in commands:
        if it.goes_on and groups:
            groups[-1].append(it)
        else:
            groups.append([it])
    return groups


def all_paths():
    """The transcripts of this folder."""
    found = [os.path.join(folder, name) for folder, _, names in os.walk(FOLDER) for name in names if name.endswith(".rows")]
    return sorted(found)
