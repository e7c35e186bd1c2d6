"""Queries as bytes, and what replies say, by RFC 1035 section 4.1 with RFC 6891: nothing of the library's."""
import collections

HEADER = 12

A, NS, CNAME, SOA, PTR, MX, TXT, AAAA, SRV, DNAME, OPT, DS, SVCB, HTTPS, ANY = 1, 2, 5, 6, 12, 15, 16, 28, 33, 39, 41, 43, 64, 65, 255

TYPES = {
    "A": A, "NS": NS, "CNAME": CNAME, "SOA": SOA, "PTR": PTR, "MX": MX, "TXT": TXT, "AAAA": AAAA, "SRV": SRV, "DNAME": DNAME, "DS": DS, "SVCB": SVCB,
    "HTTPS": HTTPS, "ANY": ANY, "RRSIG": 46, "NSEC": 47, "DNSKEY": 48,
}
MNEMONICS = {number: text for text, number in TYPES.items()}
CODES = {0: "NOERROR", 1: "FORMERR", 2: "SERVFAIL", 3: "NXDOMAIN", 4: "NOTIMP", 5: "REFUSED", 6: "YXDOMAIN", 9: "NOTAUTH", 16: "BADVERS"}

# The names in the data of a type: how many octets stand before the first, and how many names there are. Behind them may stand anything.
NAMES_IN_DATA = {NS: (0, 1), CNAME: (0, 1), PTR: (0, 1), DNAME: (0, 1), MX: (2, 1), SRV: (6, 1), SVCB: (2, 1), HTTPS: (2, 1), SOA: (0, 2)}

# The types whose data name a host, whose addresses are added (RFC 1035 section 3.3, RFC 2782, RFC 9460 section 4.1).
HOST_IN_DATA = NS, MX, SRV, SVCB, HTTPS

# What a reply over UDP has at most where the query has no OPT record (RFC 1035 section 4.2.1), and what servers send at most in any case.
LEAST, MOST = 512, 1232


def type_text(number):
    return MNEMONICS.get(number, f"TYPE{number}")


def code_text(code):
    return CODES.get(code, f"code {code}")


def name_bytes(labels):
    """A name in full; labels are texts, each octet a character."""
    return b"".join(bytes([len(it)]) + it.encode("latin-1") for it in labels) + b"\0"


def escaped(label):
    """The text of a label (RFC 1035 section 5.1)."""
    return "".join(it if it.isascii() and it.isalnum() or it in "-_*" else f"\\{ord(it):03}" for it in label)


def name_text(octets):
    """The text of a name that stands in full."""
    place, labels = 0, []
    while octets[place]:
        labels.append(octets[place + 1 : place + 1 + octets[place]].decode("latin-1"))
        place += 1 + octets[place]
    return "".join(escaped(it) + "." for it in labels) or "."


def query_bytes(number, labels, rdtype, recursion_desired=False, payload=None):
    """A standard query of class IN, with an OPT record where the client has a payload, DO clear."""
    counts = (1).to_bytes(2, "big") + bytes(4) + (0 if payload is None else 1).to_bytes(2, "big")
    flags = 0x0100 if recursion_desired else 0
    question = name_bytes(labels) + rdtype.to_bytes(2, "big") + b"\0\1"
    opt = b"" if payload is None else b"\0" + OPT.to_bytes(2, "big") + payload.to_bytes(2, "big") + bytes(6)
    return number.to_bytes(2, "big") + flags.to_bytes(2, "big") + counts + question + opt


class Fault(Exception):
    """Why bytes are no message."""


def read_name(octets, place):
    """A name in full as it is spelled, and the place behind it."""
    parts, end, size = [], None, 0
    while True:
        count = octets[place]
        if count >= 192:
            target = (count - 192) * 256 + octets[place + 1]
            if target >= place:
                raise Fault(f"the pointer at {place} leads to {target}")
            end = place + 2 if end is None else end
            place = target
        elif count >= 64:
            raise Fault(f"a label begins with {count}")
        else:
            parts.append(octets[place : place + 1 + count])
            size += 1 + count
            place += 1 + count
            if size > 255 or len(octets) < place:
                raise Fault("a name is too long, or is cut off")
            if not count:
                return b"".join(parts), place if end is None else end


def read_data(octets, rdtype, place, end):
    """Data with the names in full: as they are spelled, and with the names in lower case."""
    if rdtype not in NAMES_IN_DATA:
        return octets[place:end], octets[place:end]
    before, count = NAMES_IN_DATA[rdtype]
    spelled = lower = octets[place : place + before]
    place += before
    for _ in range(count):
        name, place = read_name(octets, place)
        spelled, lower = spelled + name, lower + name.lower()
    if place > end:
        raise Fault("a name goes on behind its record")
    return spelled + octets[place:end], lower + octets[place:end]


# A record; `owner` and `data` have names in lower case, `spelled` has both as they came.
Record = collections.namedtuple("Record", "owner type rdclass ttl data spelled")


def read_record(octets, place):
    owner, place = read_name(octets, place)
    if len(octets) < place + 10:
        raise Fault("a record is cut off")
    rdtype, rdclass = int.from_bytes(octets[place : place + 2], "big"), int.from_bytes(octets[place + 2 : place + 4], "big")
    ttl, count = int.from_bytes(octets[place + 4 : place + 8], "big"), int.from_bytes(octets[place + 8 : place + 10], "big")
    place += 10
    if len(octets) < place + count:
        raise Fault("data are cut off")
    spelled, lower = read_data(octets, rdtype, place, place + count)
    return Record(owner.lower(), rdtype, rdclass, ttl, lower, (owner, spelled)), place + count


def chain_of(records):
    """Answers as RRsets in the order of their first records, each RRset a set of TTLs and data."""
    sets = {}
    for it in records:
        sets.setdefault((it.owner, it.type, it.rdclass), set()).add((it.ttl, it.data))
    return tuple((key, frozenset(of)) for key, of in sets.items())


def set_of(records):
    return frozenset(it[:5] for it in records)


def spelling_of(sections):
    """The owner names and data of all sections as they are spelled, whatever their order."""
    return tuple(frozenset((it.spelled, it.type) for it in records) for records in sections)


class Reply:
    """What the bytes of a reply say, by the parts that are compared."""

    def __init__(self, octets):
        if len(octets) < HEADER:
            raise Fault("the bytes begin with no message")
        self.octets = octets
        flags = int.from_bytes(octets[2:4], "big")
        counts = [int.from_bytes(octets[it : it + 2], "big") for it in (4, 6, 8, 10)]
        place = HEADER
        self.questions = []
        try:
            for _ in range(counts[0]):
                name, place = read_name(octets, place)
                self.questions.append((name, octets[place : place + 4]))
                place += 4
            self.sections = []
            for count in counts[1:]:
                records = []
                for _ in range(count):
                    record, place = read_record(octets, place)
                    records.append(record)
                self.sections.append(records)
        except IndexError:
            raise Fault("the bytes end within a record") from None
        if place != len(octets):
            raise Fault(f"{len(octets) - place} bytes stand behind the message")
        self.take_opt(flags & 15)
        answers, authorities, additionals = self.sections
        self.parts = {
            "code": self.code,
            "flags": tuple(name for name, bit in FLAGS if flags & bit),
            "edns": self.opt,
            "cut": False,
            "answer": chain_of(answers),
            "authority": set_of(authorities),
            "additional": set_of(additionals),
        }

    def take_opt(self, low_code):
        """Takes the OPT record out of the additionals: its version and DO, and the high bits of the code (RFC 6891 section 6.1.3)."""
        found = [it for it in self.sections[2] if it.type == OPT]
        if len(found) > 1:
            raise Fault("there are several OPT records")
        self.sections[2] = [it for it in self.sections[2] if it.type != OPT]
        self.opt = (found[0].ttl >> 16 & 255, found[0].ttl >> 15 & 1) if found else None
        self.code = low_code | (found[0].ttl >> 24 << 4 if found else 0)

    @property
    def is_cut(self):
        return "TC" in self.parts["flags"]

    def after_cut(self, reply):
        """This reply, as the one that a client gets in the place of one that was cut."""
        self.parts["cut"] = reply.is_cut
        return self

    def repeated(self):
        """Records that stand twice in a section."""
        return [it for records in self.sections for it, count in collections.Counter(it[:5] for it in records).items() if count > 1]

    def spelling(self):
        return self.questions, spelling_of(self.sections)

    def lines(self):
        """Its text, for who looks at a difference."""
        yield f"{code_text(self.code)}, flags {' '.join(self.parts['flags']).lower()}{', OPT' if self.opt else ''}"
        for title, records in zip(("answer", "authority", "additional"), self.sections):
            for it in records:
                yield f"{title:10} {name_text(it.spelled[0])} {it.ttl} {type_text(it.type)} {data_text(it.type, it.spelled[1])}"


FLAGS = [("QR", 0x8000), ("AA", 0x0400), ("TC", 0x0200), ("RD", 0x0100), ("RA", 0x0080), ("Z", 0x0040), ("AD", 0x0020), ("CD", 0x0010)]

# What is compared of a reply, and what of it where servers agree on a part alone.
PARTS = ["code", "flags", "edns", "cut", "answer", "authority", "additional"]
ALONE = ["code", "flags", "edns", "answer", "authority", "additional"]

# What a part is by: where a chain of aliases was left says what stands in the authority section, and both whose addresses are added (RFC 1034 section 4.3.2).
HANGS_ON = {"authority": ["answer"], "additional": ["answer", "authority"]}


def data_text(rdtype, octets):
    """The text of data, for who looks at a difference."""
    if rdtype == A:
        return ".".join(str(it) for it in octets)
    if rdtype not in NAMES_IN_DATA:
        return octets.hex()
    before, count = NAMES_IN_DATA[rdtype]
    place, words = before, [octets[:before].hex()] if before else []
    for _ in range(count):
        name, place = read_name(octets, place)
        words.append(name_text(name))
    if rdtype == SOA:
        words += [str(int.from_bytes(octets[it : it + 4], "big")) for it in range(place, place + 20, 4)]
    elif octets[place:]:
        words.append(octets[place:].hex())
    return " ".join(words)
