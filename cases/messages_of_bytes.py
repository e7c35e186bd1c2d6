"""DNS messages from bytes and back, by RFC 1035 section 4.1, for the transcripts: written from the RFC, and nothing of the library's."""
import collections

HEADER = 12

# Places from this one on are out of a pointer's reach (RFC 1035 section 4.1.4).
REACH = 1 << 14

# A name has so many bytes at most, its end included (RFC 1035 section 2.3.4).
NAME_BYTES = 255

# What stands last among the additionals, with names in full (RFC 6891 section 6.1.1, RFC 8945 section 4.2).
OPT, TSIG = 41, 250
LAST = OPT, TSIG

# The data in which a pointer may stand (RFC 1035 section 3.3, RFC 3597 section 4): as names, or as so many bytes, of which the last may be any number.
NAME = "name"
DATA = {2: [NAME], 5: [NAME], 12: [NAME], 15: [2, NAME], 6: [NAME, NAME, 20]}

# What stands in a record's data: bytes, and names as tuples of labels.
Record = collections.namedtuple("Record", "owner type rdclass ttl data")


class Message:
    """What a message says: the header, the bytes of its questions, what they say, and three sections of records."""

    def __init__(self, number, flags, question, questions, sections):
        self.number = number
        self.flags = flags
        self.question = question
        self.questions = questions
        self.sections = sections

    @property
    def is_cut(self):
        return bool(self.flags & 0x0200)

    def counts(self):
        return [len(it) for it in self.sections]

    def rest(self):
        """What it says but for its records, and that it was cut."""
        return self.number, self.flags | 0x0200, self.questions

    def says(self):
        return self.number, self.flags, self.questions, [[echoed(it) for it in records] for records in self.sections]


class Fault(Exception):
    """Why bytes are no message, or not one as it should be written."""


class Reader:
    """Reads a message from left to right. Where it is strict, names have pointers where they should have, and none where they must not."""

    def __init__(self, octets, is_strict):
        self.octets = octets
        self.is_strict = is_strict
        self.place = 0

    def take(self, count):
        if self.place + count > len(self.octets):
            raise Fault(f"the bytes end at {len(self.octets)}, within {count} from {self.place} on")
        self.place += count
        return self.octets[self.place - count : self.place]

    def number(self, count):
        return int.from_bytes(self.take(count), "big")

    def name(self, floor):
        """The labels of a name. Pointers lead to places from `floor` on, and before the labels that they end."""
        labels, start, end = [], self.place, None
        while count := self.number(1):
            if count < 64:
                labels.append(self.take(count))
            elif count >= 192:
                target = (count - 192) * 256 + self.number(1)
                if not floor <= target < start:
                    raise Fault(f"the pointer behind {start} leads to {target}")
                end = self.place if end is None else end
                self.place = start = target
            else:
                raise Fault(f"a label begins with {count}")
        self.place = self.place if end is None else end
        if len(in_full(labels)) > NAME_BYTES:
            raise Fault("a name is too long")
        return tuple(labels)

    def data(self, rdtype, count):
        end, parts = self.place + count, []
        if count and rdtype in DATA:
            for it in DATA[rdtype]:
                parts.append(self.name(HEADER) if it is NAME else self.take(it))
        elif rdtype == TSIG:
            parts.append(self.name_in_full("an algorithm"))
        if self.place > end:
            raise Fault(f"the data that end at {end} lead on")
        return tuple(parts) + (self.take(end - self.place),)

    def name_in_full(self, what):
        start = self.place
        labels = self.name(HEADER)
        if self.is_strict and self.place - start != len(in_full(labels)):
            raise Fault(f"the name of {what}, at {start}, has a pointer")
        return labels

    def owner(self, owners, start):
        """An owner name: a pointer where it is one of those before, by their places."""
        labels = self.name(HEADER)
        before = owners.get(labels)
        if self.is_strict and labels and before is not None and before < REACH and self.octets[start] < 192:
            raise Fault(f"the owner name at {start} stands at {before}, and is no pointer")
        owners.setdefault(labels, start)
        return labels

    def record(self, owners):
        labels = self.owner(owners, self.place)
        rdtype, rdclass, ttl, count = self.number(2), self.number(2), self.number(4), self.number(2)
        return Record(labels, rdtype, rdclass, ttl, self.data(rdtype, count))

    def additional(self, owners):
        start = self.place
        self.name(HEADER)
        is_last = self.number(2) in LAST
        self.place = start
        if not is_last:
            return self.record(owners)
        self.name_in_full("OPT or TSIG")
        self.place = start
        return self.record({})

    def message(self):
        number, flags, *counts = (self.number(2) for _ in range(6))
        # (the questions are the request's, which may lead anywhere before)
        questions = [(self.name(0), self.number(2), self.number(2)) for _ in range(counts[0])]
        question, owners = self.octets[HEADER : self.place], {}
        sections = [[self.record(owners) for _ in range(it)] for it in counts[1:3]]
        sections.append([self.additional(owners) for _ in range(counts[3])])
        if self.place != len(self.octets):
            raise Fault(f"there are {len(self.octets) - self.place} bytes behind the message")
        return Message(number, flags, question, questions, sections)


def in_full(labels):
    return b"".join(bytes([len(it)]) + it for it in labels) + b"\0"


def full_size(record):
    """The bytes of a record with every name in full."""
    data = sum(len(in_full(it) if isinstance(it, tuple) else it) for it in record.data)
    return len(in_full(record.owner)) + 10 + data


class Writer:
    """Writes a message, each name with a pointer to the longest end of it that stands before, letter case kept."""

    def __init__(self, message):
        self.octets = bytearray(HEADER) + message.question
        self.notes = {}
        self.note_question(message)

    def note_question(self, message):
        """The name of the first question, where it stands in full."""
        for labels, _, _ in message.questions[:1]:
            if self.octets[HEADER:].startswith(in_full(labels)):
                self.note(HEADER, labels, len(labels))

    def note(self, place, labels, count):
        """The first labels of a name stand from this place on: each, with all behind it, is led to later."""
        for at in range(count):
            if place < REACH:
                self.notes.setdefault(labels[at:], place)
            place += 1 + len(labels[at])

    def full_name(self, labels):
        self.octets += in_full(labels)

    def name(self, labels):
        count = next((at for at in range(len(labels)) if labels[at:] in self.notes), len(labels))
        place = len(self.octets)
        self.octets += in_full(labels[:count])[:-1]
        self.octets += (0xC000 + self.notes[labels[count:]]).to_bytes(2, "big") if labels[count:] else b"\0"
        self.note(place, labels, count)

    def record(self, record, is_last):
        write = self.full_name if is_last else self.name
        write(record.owner)
        for it, count in (record.type, 2), (record.rdclass, 2), (record.ttl, 4), (0, 2):
            self.octets += it.to_bytes(count, "big")
        start = len(self.octets)
        for it in record.data:
            if not isinstance(it, tuple):
                self.octets += it
            elif record.type == TSIG:
                self.full_name(it)
            else:
                self.name(it)
        self.octets[start - 2 : start] = (len(self.octets) - start).to_bytes(2, "big")

    def fits(self, record, limit, is_last):
        """Writes a record where it keeps the limit, and else leaves all as it was."""
        place, notes = len(self.octets), dict(self.notes)
        self.record(record, is_last)
        if len(self.octets) <= limit:
            return True
        if place + full_size(record) <= limit:
            raise Fault("a record is longer than in full")
        del self.octets[place:]
        self.notes = notes
        return False


def lists(message):
    """The lists of a message, each of which is cut by itself, and whether they are its last records."""
    answers, authorities, additionals = message.sections
    others = [it for it in additionals if it.type not in LAST]
    return [(answers, False), (authorities, False), (others, False), *(([it], True) for it in additionals if it.type in LAST)]


def written(message, limit):
    """The bytes of a message within a limit: each list is cut at the first record that does not fit, and TC is set where one was (RFC 1035 section 4.1.1)."""
    writer, counts, is_cut = Writer(message), [], False
    for records, is_last in lists(message):
        count = next((at for at, it in enumerate(records) if not writer.fits(it, limit, is_last)), len(records))
        is_cut |= count < len(records)
        counts.append(count)
    flags = message.flags | (0x0200 if is_cut else 0)
    fields = message.number, flags, len(message.questions), counts[0], counts[1], sum(counts[2:])
    return b"".join(it.to_bytes(2, "big") for it in fields) + bytes(writer.octets[HEADER:])


def echoed(record):
    """A record with a MAC that is itself a message as what that says: a script's signer may sign by the very bytes that are to be signed."""
    if record.type != TSIG:
        return record
    # (RFC 8945 section 4.2: a time of six bytes and a fudge of two, and the length of the MAC)
    rest = record.data[-1]
    end = 10 + int.from_bytes(rest[8:10], "big")
    try:
        mac = Reader(rest[10:end], is_strict=False).message().says()
    except Fault:
        return record
    return record._replace(data=(record.data[0], rest[:8], mac, rest[end:]))
