"""DNS messages in words: octets of requests from words, and replies in words. README.md has the words."""
import base64
import hashlib
import hmac
import re
import time

from messages_of_bytes import OPT, TSIG, Fault, Reader, in_full, written
from record_words import IN, Unread, class_of, class_text, data_octets, data_text, is_class, name_octets, name_text, type_of, type_text

CODES = ["NOERROR", "FORMERR", "SERVFAIL", "NXDOMAIN", "NOTIMP", "REFUSED", "YXDOMAIN", "YXRRSET", "NXRRSET", "NOTAUTH", "NOTZONE"]
FLAGS = {"qr": 0x8000, "aa": 0x0400, "tc": 0x0200, "rd": 0x0100, "ra": 0x0080, "z": 0x0040, "ad": 0x0020, "cd": 0x0010}
OPCODES = {"QUERY": 0, "IQUERY": 1, "STATUS": 2, "NOTIFY": 4, "UPDATE": 5}
ERRORS = {0: "NOERROR", 1: "FORMERR", 9: "NOTAUTH", 16: "BADSIG", 17: "BADKEY", 18: "BADTIME", 22: "BADTRUNC"}
SECTIONS = ["answer", "authority", "additional"]

# What a request has where its words do not say otherwise; a signature is taken for one of this moment if its time is so near.
ID, PAYLOAD, FUDGE, NEAR = 0x1234, 1232, 300, 120

# A scripted signer has no algorithm, so that its name is the root. Its MAC is shown, if it has at most so many octets, and not verified.
SHOWN = 16

# The hash and the length of the MAC of each algorithm (RFC 8945 section 6).
ALGORITHMS = {
    "hmac-sha1": ("sha1", 20), "hmac-sha224": ("sha224", 28), "hmac-sha256": ("sha256", 32), "hmac-sha384": ("sha384", 48), "hmac-sha512": ("sha512", 64),
    "hmac-sha256-128": ("sha256", 16), "hmac-sha384-192": ("sha384", 24), "hmac-sha512-256": ("sha512", 32),
}

TOKEN = re.compile(r'"(?:\\.|[^"\\])*"|\'[^\']*\'|;|(?:\\.|[^\s;"\'\\])+')

# Keys in the three forms that the programs read: BIND's, Knot's, and words as `dig -y` takes them.
KEY_FORMS = [
    r'key\s+"?(?P<name>[^"\s{]+)"?\s*\{\s*algorithm\s+"?(?P<algorithm>[^";\s]+)"?;\s*secret\s+"?(?P<secret>[^";\s]+)"?',
    r'id:\s*"?(?P<name>[^"\s]+)"?\s+algorithm:\s*"?(?P<algorithm>[^"\s]+)"?\s+secret:\s*"?(?P<secret>[^"\s]+)"?',
    r"(?m)^\s*(?P<algorithm>hmac-[a-z0-9-]+):(?P<name>[^:\s]+):(?P<secret>\S+)",
]


def number_of(word):
    return int(word, 0)


def numbers(*fields):
    """Numbers, each in so many octets."""
    return b"".join(it.to_bytes(count, "big") for it, count in fields)


def keys_of(text):
    """The keys of a file, by their names in small letters: algorithm and secret."""
    found = {}
    for it in (it for form in KEY_FORMS for it in re.finditer(form, text)):
        try:
            found[it["name"].lower().removesuffix(".")] = it["algorithm"].lower(), base64.b64decode(it["secret"])
        except ValueError:
            # (a secret that is no base64, which no program takes)
            continue
    return found


class Request:
    """The octets of a request, and what its replies are shown and judged by."""

    def __init__(self, octets, key=None, mac=b"", keys=None):
        self.octets = octets
        self.key = key
        self.mac = mac
        self.keys = keys or {}

    @property
    def number(self):
        return int.from_bytes(self.octets[:2], "big")

    @property
    def opcode(self):
        return self.octets[2] >> 3 & 15 if len(self.octets) > 2 else 0

    @property
    def question(self):
        """The octets of its questions, or none where they are not whole."""
        reader = Reader(self.octets, is_strict=False)
        try:
            _, _, count, *_ = (reader.number(2) for _ in range(6))
            for _ in range(count):
                reader.name(0)
                reader.take(4)
        except Fault:
            return b""
        return self.octets[12 : reader.place]


def message_number(octets, place):
    return int.from_bytes(octets[place : place + 2], "big")


# ---- requests


class Message:
    """A message as its words say it, part by part."""

    def __init__(self, keys):
        self.keys = keys
        self.number, self.flags, self.opcode = ID, 0, 0
        self.edns = None
        self.options = b""
        self.questions = []
        self.sections = {it: [] for it in SECTIONS}
        self.raw = None
        self.key, self.mac = None, b""

    def opt(self):
        """The numbers of its OPT record: the payload, the version and the flags; from now on it has one."""
        self.edns = self.edns or {"size": PAYLOAD, "version": 0, "flags": 0, "high": 0}
        return self.edns

    def header_word(self, word):
        """Takes a word of the header or of EDNS."""
        name, _, value = word.partition("=")
        if name in FLAGS and not value:
            self.flags |= FLAGS[name]
        elif name == "id":
            self.number = number_of(value)
        elif name == "opcode":
            self.opcode = OPCODES[value] if value in OPCODES else number_of(value)
        elif name == "code":
            self.flags |= number_of(value)
        elif not self.edns_word(name, value):
            raise Unread(f"{word!r} is no word of a message")

    def edns_word(self, name, value):
        if name == "edns":
            self.opt()["size"] = number_of(value) if value else PAYLOAD
        elif name in ("version", "high") and value:
            self.opt()[name] = number_of(value)
        elif name == "do":
            self.opt()["flags"] |= 0x8000
        elif name == "ednsflags":
            self.opt()["flags"] |= number_of(value)
        elif name == "nsid" and not value:
            self.option(3, b"")
        elif name == "option":
            code, _, digits = value.partition(":")
            self.option(number_of(code), bytes.fromhex(digits))
        else:
            return False
        return True

    def option(self, code, octets):
        self.opt()
        self.options += numbers((code, 2), (len(octets), 2)) + octets

    def question(self, words):
        """Takes NAME TYPE [CLASS] and words of the header."""
        name, rdtype, *more = words
        rdclass = class_of(more.pop(0)) if more and is_class(more[0]) else IN
        self.questions.append(name_octets(name) + numbers((type_of(rdtype), 2), (rdclass, 2)))
        for it in more:
            self.header_word(it)

    def record(self, section, owner, rdtype, rdclass, ttl, octets):
        self.sections[section].append(name_octets(owner) + numbers((rdtype, 2), (rdclass, 2), (ttl, 4), (len(octets), 2)) + octets)

    def record_words(self, section, words):
        """Takes NAME TTL [CLASS] TYPE DATA."""
        owner, ttl, *words = words
        rdclass = class_of(words.pop(0)) if is_class(words[0]) and len(words) > 1 else IN
        rdtype = type_of(words[0])
        self.record(section, owner, rdtype, rdclass, number_of(ttl), data_octets(rdtype, words[1:]))

    def delete(self, owner, rdtype="ANY", *data):
        """RFC 2136 sections 2.5.2 to 2.5.4: a set, all sets of a name, or one record."""
        number = type_of(rdtype)
        self.record("authority", owner, number, class_of("NONE" if data else "ANY"), 0, data_octets(number, list(data)) if data else b"")

    def need(self, word, owner, rdtype="ANY", *data):
        """RFC 2136 section 2.4, by the words of nsupdate."""
        rdclass = IN if data else class_of("ANY" if word.startswith("y") else "NONE")
        number = type_of(rdtype)
        self.record("answer", owner, number, rdclass, 0, data_octets(number, list(data)) if data else b"")

    def octets(self):
        """Its octets."""
        if self.raw is not None:
            return self.raw
        additionals = list(self.sections["additional"])
        if self.edns:
            edns = numbers((self.edns["size"], 2), (self.edns["high"], 1), (self.edns["version"], 1), (self.edns["flags"], 2))
            additionals.append(b"\0" + numbers((OPT, 2)) + edns + numbers((len(self.options), 2)) + self.options)
        parts = [self.questions, self.sections["answer"], self.sections["authority"], additionals]
        fields = [self.number, self.flags | self.opcode << 11, *(len(it) for it in parts)]
        return numbers(*((it, 2) for it in fields)) + b"".join(it for part in parts for it in part)


def raw_octets(words):
    """Hex digits, names (words with a dot) and 'text'."""
    found = b""
    for it in words:
        if it.startswith("'"):
            found += it[1:-1].encode()
        else:
            found += name_octets(it) if "." in it else bytes.fromhex(it)
    return found


def take_first(message, words):
    """Takes the first part of the words of a message, which says what kind it is of."""
    if words[0] == "hex":
        message.raw = raw_octets(words[1:])
    elif words[0] == "update":
        message.opcode = OPCODES["UPDATE"]
        more = words[2:]
        rdtype = more.pop(0) if more and re.fullmatch("[A-Z0-9]+", more[0]) and not is_class(more[0]) else "SOA"
        message.question([words[1], rdtype, *more])
    elif words[0] == "message":
        for it in words[1:]:
            message.header_word(it)
    else:
        message.question(words)


def take_part(message, words):
    """Takes a further part, of a message whose octets are not made yet."""
    word, *rest = words
    if word == "question":
        message.question(rest)
    elif word in SECTIONS:
        message.record_words(word, rest)
    elif word == "require":
        message.record_words("answer", rest)
    elif word in ("change", "add"):
        message.record_words("authority", rest)
    elif word == "delete":
        message.delete(*rest)
    elif word in ("nxdomain", "yxdomain", "nxrrset", "yxrrset"):
        message.need(word, *rest)
    else:
        for it in words:
            message.header_word(it)


def take_octets_part(message, words, now):
    """Takes a part that works on the octets that the parts before it made; false where it is another one."""
    word, _, value = words[0].partition("=")
    rest = [*value.replace(",", " ").split(), *words[1:]]
    if word not in ("signed", "more", "cut", "counts", "flip"):
        return False
    octets = message.octets()
    if word == "signed":
        message.raw, message.mac, message.key = signed(octets, rest, message.keys, now)
    elif word == "more":
        message.raw = octets + raw_octets(rest)
    elif word == "cut":
        message.raw = octets[: len(octets) - number_of(rest[0])]
    elif word == "counts":
        message.raw = octets[:4] + b"".join(number_of(it).to_bytes(2, "big") for it in rest) + octets[12:]
    else:
        place = number_of(rest[0])
        message.raw = octets[:place] + bytes([octets[place] ^ 1]) + octets[place + 1 :]
    return True


def variables(key, rdclass, ttl, algorithm, moment, fudge, error, other):
    """What of a TSIG record is signed (RFC 8945 section 4.3.3)."""
    front = name_octets(key.lower()) + numbers((rdclass, 2), (ttl, 4)) + name_octets(algorithm.lower())
    return front + numbers((moment, 6), (fudge, 2), (error, 2), (len(other), 2)) + other


def mac_of(algorithm, secret, octets):
    digest, length = ALGORITHMS.get(algorithm.lower(), ("sha256", 32))
    return hmac.new(secret, octets, getattr(hashlib, digest)).digest()[:length]


def moment_of(word, now):
    return now + int(word) if word[:1] in "+-" else number_of(word)


def key_for(key, by_name, keys):
    """The algorithm and the secret of a signature: those that are said, else those of the key of the file, else those of its first key."""
    algorithm, secret = keys.get(key.lower().removesuffix("."), next(iter(keys.values()), ("hmac-sha256", b"")))
    return by_name.get("algorithm", algorithm), base64.b64decode(by_name["secret"]) if "secret" in by_name else secret


def tsig_record(key, algorithm, moment, mac, by_name, number):
    """A TSIG record (RFC 8945 section 4.2)."""
    fudge, error, other = number_of(by_name.get("fudge", "300")), number_of(by_name.get("error", "0")), bytes.fromhex(by_name.get("other", ""))
    data = name_octets(algorithm) + numbers((moment, 6), (fudge, 2), (len(mac), 2)) + mac
    data += numbers((number_of(by_name.get("id", str(number))), 2), (error, 2), (len(other), 2)) + other
    rdclass, ttl = class_of(by_name.get("class", "ANY")), number_of(by_name.get("ttl", "0"))
    return name_octets(key) + numbers((TSIG, 2), (rdclass, 2), (ttl, 4), (len(data), 2)) + data


def signed(octets, words, keys, now):
    """A request signed by a key (RFC 8945 section 4.3): its octets, its MAC, and the secret that replies are judged by."""
    key, *settings = words
    by_name = dict(it.split("=", 1) for it in settings)
    algorithm, secret = key_for(key, by_name, keys)
    moment = moment_of(by_name.get("at", "+0"), now)
    fudge, error, other = number_of(by_name.get("fudge", "300")), number_of(by_name.get("error", "0")), bytes.fromhex(by_name.get("other", ""))
    mac = mac_of(by_name.get("hash", algorithm), secret, octets + variables(key, class_of("ANY"), 0, algorithm, moment, fudge, error, other))
    mac = bytes.fromhex(by_name["macis"]) if "macis" in by_name else mac[: number_of(by_name.get("mac", "64"))]
    counted = octets[:10] + ((message_number(octets, 10) + 1) % 65536).to_bytes(2, "big") + octets[12:]
    known = keys.get(key.lower().removesuffix("."))
    return counted + tsig_record(key, algorithm, moment, mac, by_name, message_number(octets, 0)), mac, known[1] if known else secret


def parts_of(text):
    """The words of each part."""
    parts = [[]]
    for it in TOKEN.findall(text):
        if it == ";":
            parts.append([])
        else:
            parts[-1].append(it)
    return [it for it in parts if it]


def request_of(text, keys, now=None):
    """The request that words say, signed at this moment (in seconds) where they ask for that."""
    now = int(time.time()) if now is None else now
    message = Message(keys)
    try:
        first, *parts = parts_of(text)
        take_first(message, first)
        for words in parts:
            if take_octets_part(message, words, now):
                continue
            if message.raw is not None:
                raise Unread(f"{' '.join(words)!r} comes after the octets are made")
            take_part(message, words)
        return Request(message.octets(), message.key, message.mac, keys)
    except (ValueError, IndexError, KeyError, TypeError, Unread) as fault:
        raise Unread(f"{{{text}}}: {fault}") from fault


# ---- replies


class Replies:
    """Shows the replies to one request in words, and judges how they are written; `faults` has what is wrong with them."""

    def __init__(self, request, now=None):
        self.request = request
        self.prior, self.is_first = request.mac, True
        self.now = int(time.time()) if now is None else now
        self.faults = []

    def lines(self, octets):
        """A reply in words; in hex digits where it is not written as it should be."""
        try:
            message = Reader(octets, is_strict=True).message()
            anew = written(message, 0xFFFF)
            if anew != octets:
                raise Fault(f"its encoder writes it as {anew.hex()}")
        except Fault as fault:
            self.faults.append(f"a reply that is not written as it should be: {fault}")
            return [octets.hex()]
        return [self.head(message), *self.question_lines(message), *self.record_lines(octets, message)]

    def head(self, message):
        high = next((it.ttl >> 24 for it in message.sections[2] if it.type == OPT), 0)
        code = message.flags & 15 | high << 4
        words = [CODES[code] if code < len(CODES) else {16: "BADVERS"}.get(code, f"RCODE{code}")]
        opcode = message.flags >> 11 & 15
        if not message.flags & FLAGS["qr"]:
            words.append("query")
        if opcode != self.request.opcode:
            words.append(f"opcode={opcode}")
        words += [word for word, bit in FLAGS.items() if word != "qr" and message.flags & bit]
        if message.number != self.request.number:
            words.append(f"id={message.number:#06x}")
        return " ".join(words)

    def question_lines(self, message):
        if message.question == self.request.question:
            return []
        if not message.questions:
            return ["no question"]
        whole = b"".join(in_full(labels) + numbers((rdtype, 2), (rdclass, 2)) for labels, rdtype, rdclass in message.questions)
        found = [question_text(*it) for it in message.questions]
        return found if whole == message.question else [f"{found[0]}, in octets {message.question.hex()}", *found[1:]]

    def record_lines(self, octets, message):
        lines = []
        for word, records in zip(SECTIONS, message.sections):
            for it in records:
                if it.type == OPT:
                    lines.append(opt_text(word, it))
                elif it.type == TSIG and word == "additional":
                    lines.append(self.tsig_text(octets, message, it))
                else:
                    lines.append(f"{word} {record_text(it)}")
        return lines

    def tsig_text(self, octets, message, record):
        """A TSIG record in words, with the MAC verified over the reply and the MAC before it (RFC 8945 sections 5.3 and 5.3.1)."""
        tsig = Signature(record)
        key, error = name_text(record.owner), [] if tsig.error == 0 else [ERRORS.get(tsig.error, str(tsig.error))]
        if not tsig.mac:
            return " ".join(["unsigned TSIG", key, *(error or ["NOERROR"]), *self.tsig_words(message, tsig)])
        if not record.data[0]:
            mac = tsig.mac.hex() if len(tsig.mac) <= SHOWN else f"{len(tsig.mac)} octets"
            return " ".join(["signed", key, *error, f"macis={mac}", *self.tsig_words(message, tsig)])
        start = len(octets) - len(in_full(record.owner)) - 10 - len(in_full(record.data[0])) - len(record.data[1])
        bare = numbers((tsig.number, 2)) + octets[2:10] + numbers((message_number(octets, 10) - 1, 2)) + octets[12:start]
        algorithm = name_text(record.data[0]).removesuffix(".")
        times = numbers((tsig.moment, 6), (tsig.fudge, 2))
        rest = variables(key, record.rdclass, record.ttl, algorithm, tsig.moment, tsig.fudge, tsig.error, tsig.other) if self.is_first else times
        secret = self.request.key or b""
        is_right = mac_of(algorithm, secret, numbers((len(self.prior), 2)) + self.prior + bare + rest) == tsig.mac
        self.prior, self.is_first = tsig.mac, False
        if not is_right:
            self.faults.append("the MAC of a reply is not that of its octets")
        return " ".join(["signed" if is_right else "wrongly signed", key, *error, *self.tsig_words(message, tsig)])

    def tsig_words(self, message, tsig):
        """What of a TSIG record is not as it is in most: its algorithm, time, fudge, id, other data, class and TTL."""
        asked = self.asked()
        algorithm = name_text(tsig.record.data[0])
        words = [] if asked is None or algorithm.lower() == name_text(asked.record.data[0]).lower() else [f"algorithm={algorithm}"]
        if abs(tsig.moment - self.now) > NEAR:
            words.append("at the request's time" if asked and tsig.moment == asked.moment else f"time={tsig.moment}")
        if tsig.fudge != FUDGE:
            words.append(f"fudge={tsig.fudge}")
        if tsig.number != message.number:
            words.append(f"id={tsig.number:#06x}")
        if tsig.other:
            is_now = len(tsig.other) == 6 and abs(int.from_bytes(tsig.other, "big") - self.now) <= NEAR
            words.append("with the server's time" if is_now else f"other={tsig.other.hex()}")
        if (tsig.record.rdclass, tsig.record.ttl) != (class_of("ANY"), 0):
            words.append(f"class={class_text(tsig.record.rdclass)} ttl={tsig.record.ttl}")
        return words

    def asked(self):
        """The TSIG record that the request ends in."""
        try:
            records = Reader(self.request.octets, is_strict=False).message().sections[2]
        except Fault:
            return None
        return Signature(records[-1]) if records and records[-1].type == TSIG else None


def question_text(labels, rdtype, rdclass):
    return f"question {name_text(labels)} {type_text(rdtype)}" + ("" if rdclass == IN else f" {class_text(rdclass)}")


class Signature:
    """The fields of a TSIG record (RFC 8945 section 4.2)."""

    def __init__(self, record):
        self.record = record
        octets = record.data[1]
        self.moment, self.fudge = int.from_bytes(octets[:6], "big"), message_number(octets, 6)
        end = 10 + message_number(octets, 8)
        self.mac = octets[10:end]
        self.number, self.error = message_number(octets, end), message_number(octets, end + 2)
        self.other = octets[end + 6 :]


def opt_text(section, record):
    """An OPT record in words (RFC 6891 section 6.1.2)."""
    version, flags, octets = record.ttl >> 16 & 255, record.ttl & 0xFFFF, record.data[-1]
    words = ["edns" if section == "additional" else f"{section} edns", f"size={record.rdclass}"]
    words += [f"version={version}"] if version else []
    words += ["do"] if flags & 0x8000 else []
    words += [f"ednsflags={flags & 0x7FFF:#x}"] if flags & 0x7FFF else []
    while octets:
        code, length = message_number(octets, 0), message_number(octets, 2)
        value = octets[4 : 4 + length]
        if len(value) < length or len(octets) < 4:
            return " ".join([*words, f"rest={octets.hex()}"])
        words.append(f"nsid={value.hex()}" if code == 3 else f"option={code}:{value.hex()}")
        octets = octets[4 + length :]
    return " ".join(words)


def record_text(record):
    octets = b"".join(in_full(it) if isinstance(it, tuple) else it for it in record.data)
    rdclass = "" if record.rdclass == IN else f"{class_text(record.rdclass)} "
    return f"{name_text(record.owner)} {record.ttl} {rdclass}{type_text(record.type)} {data_text(record.type, octets)}"
