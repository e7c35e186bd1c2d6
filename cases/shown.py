"""What a program did, as lines of a transcript."""
import hashlib
import re

import message_words
import transcripts
from messages_of_bytes import Fault, Reader, written

# A message on a line of its own, after its length where that is printed.
MESSAGE = re.compile(r"(?:bytes (?P<told>\d+): )?(?P<digits>(?:[0-9a-f]{2}){12,})")

# What zone_serve prints of a message that has no reply: one line, and no empty line after it.
WORDS = {"denied", "response", "unreadable", "bad line"}


class Shown:
    """Lines of a transcript, each with the line of the body that it is below (-1: below none), and the faults that were met."""

    def __init__(self, command, lines, now):
        self.command = command
        self.inputs = lines
        self.now = now
        self.found = []
        self.faults = []

    def add(self, at, mark, text):
        self.found.append((at, f"{mark} {text}" if text else mark))

    def raw(self, at, mark, octets):
        """Text by its lines, and anything else in hex digits."""
        try:
            text = octets.decode()
        except UnicodeDecodeError:
            text = "\0"
        if text and (not text.endswith("\n") or any(not it.isprintable() and it not in "\n\t" for it in text)):
            self.add(at, f"{mark}=", octets.hex())
            return
        for line in text.split("\n")[:-1]:
            self.add(at, mark, line)

    def reply(self, at, line, replies):
        """A line of output, in words where it is a reply, which is judged in any case."""
        match = MESSAGE.fullmatch(line)
        if not match:
            self.add(at, ">", line)
            return
        octets = bytes.fromhex(match["digits"])
        if match["told"] and int(match["told"]) != len(octets):
            self.faults.append(f"{match['told']} bytes are told, and {len(octets)} are there")
        if replies is None or self.command.form == "bytes" or match["told"]:
            self.judge(octets)
            self.add(at, ">", line)
            return
        lines = replies.lines(octets)
        for it in shortened(lines, octets) if self.command.form == "short" else lines:
            self.add(at, ">", it)
        self.faults += replies.faults
        replies.faults = []

    def judge(self, octets):
        """Whether a reply that stays in hex digits is written as it should be."""
        try:
            anew = written(Reader(octets, is_strict=True).message(), 0xFFFF)
            if anew != octets:
                raise Fault(f"its encoder writes it as {anew.hex()}")
        except Fault as fault:
            self.faults.append(f"a reply that is not written as it should be: {fault}")

    def answers(self, text):
        """What is answered to each line of input; false where there are more or fewer answers."""
        lines = text.split("\n")[:-1]
        for at, request in self.inputs:
            block = self.block(lines)
            if block is None:
                return False
            replies = message_words.Replies(request, self.now) if request else None
            for it in block:
                self.reply(at, it, replies)
        return not lines

    def block(self, lines):
        """Takes what is answered to the next line."""
        if self.command.program == "zone_serve" and lines and lines[0] in WORDS:
            return [lines.pop(0)]
        if "" not in lines:
            return None
        end = lines.index("")
        taken = lines[:end]
        del lines[: end + 1]
        return taken

    def octets_out(self, octets):
        """Replies as octets, to the messages of the input; false where they are not whole, or more than one to each."""
        given = self.command.given(self.now)[0]
        asked, replies = (frames_of(given), frames_of(octets)) if self.command.mode == "tcp" else ([given], [octets])
        last = max((at for at, _ in self.inputs), default=-1)
        if not asked or not replies or len(replies) > len(asked) or any(len(it) < 12 for it in [*replies, *asked[: len(replies)]]):
            return False
        for request, reply in zip(asked, replies):
            self.reply(last, reply.hex(), message_words.Replies(message_words.Request(request), self.now))
        return True

    def output(self, octets):
        """What was printed."""
        if self.command.mode in ("udp", "tcp") and self.command.form != "bytes" and octets and self.octets_out(octets):
            return
        try:
            text = octets.decode() if octets.endswith(b"\n") else ""
        except UnicodeDecodeError:
            text = ""
        if self.command.is_answering and text and self.answers(text):
            return
        self.found, self.faults = [], []
        last = max((at for at, _ in self.inputs), default=-1)
        requests = [it for _, it in self.inputs if it]
        replies = message_words.Replies(requests[-1], self.now) if requests else None
        if self.command.is_answering or not text or any(not it.isprintable() and it not in "\n\t" for it in text):
            self.raw(last, ">", octets)
            return
        for line in text.split("\n")[:-1]:
            self.reply(last, line, replies)


def frames_of(octets):
    """The messages of a stream, each after its length in two octets; none where the last is not whole."""
    found = []
    while octets:
        end = 2 + int.from_bytes(octets[:2], "big")
        found.append(octets[2:end])
        if len(octets) < end:
            return found[:-1] if found else []
        octets = octets[end:]
    return found


def shortened(lines, octets):
    """The lines of a reply with the first and the last of its answers, and the others by their count and the hash of all octets; long data by their hash."""
    lines = [f"{it[:100]}.. {len(it)} letters, sha256 {hashlib.sha256(it.encode()).hexdigest()[:16]}" if len(it) > 700 else it for it in lines]
    answers = [at for at, it in enumerate(lines) if it.startswith("answer ")]
    if len(answers) < 4:
        return lines
    digest = hashlib.sha256(octets).hexdigest()[:16]
    return [*lines[: answers[0] + 1], f".. {len(answers) - 2} answers more, {len(octets)} octets in all, sha256 {digest}", *lines[answers[-1] :]]


def shown(command, lines, now, outcome):
    """What a command did: its output with the places, what it wrote on the standard error with its status, and the faults of replies."""
    printed, told, status = outcome
    it = Shown(command, lines, now)
    it.output(printed)
    rest = Shown(command, lines, now)
    rest.raw(-1, "!", told)
    if status:
        rest.add(-1, "status", str(status))
    return it.found, [line for _, line in rest.found], it.faults


def wanted(command):
    """The lines of output that a command wants, each with the line of its body that it is below, and those of the standard error and the status."""
    marks = {kind: mark for mark, kind in transcripts.MARKS.items()}
    found, rest, last = [], [], -1
    for at, it in enumerate(command.body):
        text = f"{marks[it.kind]} {it.text}" if it.text else marks[it.kind]
        if it.kind.startswith("in"):
            last = at
        elif it.kind.startswith("out"):
            found.append((last, text))
        elif it.kind != "status" or it.text != "0":
            rest.append((-1, text))
    return joined(found), [line for _, line in joined(rest)]


def joined(lines):
    """Lines with octets in hex digits that follow one another as one line."""
    found = []
    for at, line in lines:
        mark = line.split(" ")[0]
        if mark in (">=", "!=") and found and found[-1][0] == at and found[-1][1].startswith(mark):
            found[-1] = (at, found[-1][1] + line.removeprefix(mark).replace(" ", ""))
        else:
            found.append((at, f"{mark} " + line.removeprefix(mark).replace(" ", "") if mark in (">=", "!=") else line))
    return found


def transcript_lines(command, lines):
    """Lines of output as a transcript has them, below the lines of input if the program answers each of these."""
    if not command.is_answering:
        return [text for _, text in lines]
    found = []
    for at, it in [(-1, None), *enumerate(command.body)]:
        if it is None or it.kind.startswith("in"):
            found += [f"< {it.text}"] if it else []
            found += [text for place, text in lines if place == at]
    return found
