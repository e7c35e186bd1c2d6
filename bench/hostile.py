"""Messages of at most 65,535 bytes that are made to take long to read, and honest ones of that size beside them.

    hostile.py FOLDER    writes each into a file of the folder, under a name that tells its shape

Names behind names are what costs: a question takes six bytes, a record twelve, and each may lead by a compression pointer
(RFC 1035 section 4.1.4) to a name that took many bytes, or many pointers, once.
"""
import os
import sys

LIMIT = 65535
# A pointer leads to a place below this one.
POINTER_END = 0x4000
A, NULL, TXT, OPT, IN = 1, 10, 16, 41, 1
# Where the first question stands, and where the data of a first record do whose owner is the root.
QUESTION, DATA = 12, 23
WWW = b"\3www\7example\3com\0"
ROOT = b"\0"


def two(number):
    return number.to_bytes(2, "big")


def pointer(place):
    return two(0xC000 | place)


def question(name, record_type=A, record_class=IN):
    return name + two(record_type) + two(record_class)


def record(name, record_type=A, data=b"", record_class=IN):
    return name + two(record_type) + two(record_class) + bytes(4) + two(len(data)) + data


class Message:
    """Questions, then answers, then additional records, as long as they have room."""

    def __init__(self):
        self.counts = [0, 0, 0, 0]
        self.body = bytearray()

    def place(self):
        return QUESTION + len(self.body)

    def put(self, section, item):
        """Puts one item, or says that there is no room."""
        if self.place() + len(item) > LIMIT:
            return False
        self.counts[section] += 1
        self.body += item
        return True

    def fill(self, section, item):
        """Puts items, one for each number, until there is no room."""
        number = 0
        while self.put(section, item(number)):
            number += 1
        return self

    def wire(self):
        return b"\x12\x34\x01\0" + b"".join(map(two, self.counts)) + bytes(self.body)


QUESTIONS, ANSWERS, ADDITIONALS = 0, 1, 3


def behind_data(data, name):
    """A NULL record with these data, and records behind it, each with a name."""
    message = Message()
    message.put(ANSWERS, record(ROOT, NULL, data))
    return message.fill(ANSWERS, lambda number: record(name(number)))


def chain(pointers):
    """A label, and pointers that each lead to the one before; the place of the last."""
    data = b"\1a\0" + pointer(DATA)
    while len(data) < 3 + 2 * pointers:
        data += pointer(DATA + len(data) - 2)
    return data, DATA + len(data) - 2


def through_chain(pointers):
    data, last = chain(pointers)
    return behind_data(data, lambda _: b"\1x" + pointer(last))


def into_chain(pointers, step):
    data, _ = chain(pointers)
    return behind_data(data, lambda number: pointer(DATA + 3 + 2 * (step * number % pointers)))


def chain_of_questions():
    """Each question is three pointers, its type and its class two of them, and leads through all before it."""
    message = Message()
    message.put(QUESTIONS, question(b"\1a\0"))
    last = QUESTION
    while True:
        place = message.place()
        inner = place + 4 < POINTER_END
        item = pointer(last) + (pointer(last) + pointer(place + 2) if inner else two(A) + two(IN))
        if not message.put(QUESTIONS, item):
            return message
        last = place + 4 if inner else last


def short_chain(pointers):
    """A chain in types and classes of questions, and questions that lead through all of it."""
    message = Message()
    message.put(QUESTIONS, question(b"\1a\0"))
    last, length = QUESTION, 0
    while length + 2 <= pointers:
        place = message.place()
        message.put(QUESTIONS, pointer(last) + pointer(last) + pointer(place + 2))
        last, length = place + 4, length + 2
    return message.fill(QUESTIONS, lambda _: question(pointer(last)))


def one_run(labels, size=1):
    message = Message()
    message.put(QUESTIONS, question((bytes([size]) + b"a" * size) * labels + b"\0"))
    return message.fill(QUESTIONS, lambda _: question(pointer(QUESTION)))


def one_run_of_records(labels):
    return behind_data(b"\1a" * labels + b"\0", lambda _: pointer(DATA))


def each_behind_pointer(labels):
    """Names with a label more each, and the rest by a pointer to the one before; then questions that lead to the last."""
    message = Message()
    message.put(QUESTIONS, question(b"\1a\0"))
    last = QUESTION
    for _ in range(labels - 1):
        place = message.place()
        message.put(QUESTIONS, question(b"\1a" + pointer(last)))
        last = place
    return message.fill(QUESTIONS, lambda _: question(pointer(last)))


def each_behind_pointer_of_records(labels):
    data, last = b"\1a\0", DATA
    for _ in range(labels - 1):
        place = DATA + len(data)
        data += b"\1a" + pointer(last)
        last = place
    return behind_data(data, lambda _: pointer(last))


def into_runs(backwards, part):
    """Long names in full, and questions that lead each to its own place in one of them: all its bytes are both lengths and labels."""
    message = Message()
    places = []
    while message.place() + 259 < POINTER_END:
        at = message.place()
        message.put(QUESTIONS, question(b"\1" * 254 + b"\0"))
        places += [(offset, at + offset) for offset in range(254 * part // 100)]
    places.sort(reverse=backwards)
    return message.fill(QUESTIONS, lambda number: question(pointer(places[number % len(places)][1])))


def strings():
    message = Message()
    message.put(ANSWERS, record(ROOT, TXT, bytes(LIMIT - DATA)))
    return message


def options():
    message = Message()
    message.put(ADDITIONALS, record(ROOT, OPT, (two(3) + two(0)) * ((LIMIT - DATA) // 4), 4096))
    return message


def claimed():
    message = Message().fill(QUESTIONS, lambda _: question(ROOT))
    message.counts[QUESTIONS] = 65535
    return message


def honest(section, item):
    message = Message()
    message.put(QUESTIONS, question(WWW))
    return message.fill(section, lambda _: item)


SHAPES = {
    "honest, addresses of one owner": lambda: honest(ANSWERS, record(pointer(QUESTION), A, b"\xc0\0\2\1")),
    "honest, questions of one name": lambda: honest(QUESTIONS, question(pointer(QUESTION))),
    "through 8,000 pointers": lambda: through_chain(8000),
    "through 1,000 pointers": lambda: through_chain(1000),
    "into 8,000 pointers, forwards": lambda: into_chain(8000, 1),
    "into 8,000 pointers, backwards": lambda: into_chain(8000, -1),
    "three pointers a question": chain_of_questions,
    "through 4 pointers": lambda: short_chain(4),
    "through 20 pointers": lambda: short_chain(20),
    "through 40 pointers": lambda: short_chain(40),
    "to 8 labels": lambda: one_run(8),
    "to 17 labels, 34 bytes": lambda: one_run(17),
    "to 34 labels": lambda: one_run(34),
    "to 127 labels": lambda: one_run(127),
    "to 127 labels, records": lambda: one_run_of_records(127),
    "to 4 labels, each behind a pointer": lambda: each_behind_pointer(4),
    "to 8 labels, each behind a pointer": lambda: each_behind_pointer(8),
    "to 16 labels, each behind a pointer": lambda: each_behind_pointer(16),
    "to 127 labels, each behind a pointer": lambda: each_behind_pointer(127),
    "to 127 labels, each behind a pointer, records": lambda: each_behind_pointer_of_records(127),
    "into long names, forwards": lambda: into_runs(False, 50),
    "into long names, backwards": lambda: into_runs(True, 50),
    "into long names, anywhere": lambda: into_runs(True, 100),
    "names in full": lambda: Message().fill(QUESTIONS, lambda _: question(b"\1a" * 127 + b"\0")),
    "questions of the root": lambda: Message().fill(QUESTIONS, lambda _: question(ROOT)),
    "answers of 11 bytes": lambda: Message().fill(ANSWERS, lambda _: record(ROOT)),
    "additional records of 11 bytes": lambda: Message().fill(ADDITIONALS, lambda _: record(ROOT)),
    "strings of no bytes": strings,
    "options of no bytes": options,
    "65,535 questions claimed": claimed,
}


def main():
    (folder,) = sys.argv[1:]
    os.makedirs(folder, exist_ok=True)
    for name, shape in SHAPES.items():
        message = shape().wire()
        assert len(message) <= LIMIT, name
        with open(f"{folder}/{name}", "wb") as file:
            file.write(message)


main()
