"""Names, types and data of records as zone text has them, and as octets (RFC 1035 sections 3 and 5.1, RFC 3597 section 5), for `message_words`."""
import ipaddress
import re

TYPES = {
    "A": 1, "NS": 2, "MD": 3, "MF": 4, "CNAME": 5, "SOA": 6, "MB": 7, "MG": 8, "MR": 9, "NULL": 10, "WKS": 11, "PTR": 12, "HINFO": 13, "MINFO": 14, "MX": 15,
    "TXT": 16, "RP": 17, "AFSDB": 18, "SIG": 24, "KEY": 25, "AAAA": 28, "LOC": 29, "NXT": 30, "SRV": 33, "NAPTR": 35, "CERT": 37, "A6": 38, "DNAME": 39,
    "OPT": 41, "APL": 42, "DS": 43, "SSHFP": 44, "IPSECKEY": 45, "RRSIG": 46, "NSEC": 47, "DNSKEY": 48, "DHCID": 49, "NSEC3": 50, "NSEC3PARAM": 51,
    "TLSA": 52, "SMIMEA": 53, "HIP": 55, "CDS": 59, "CDNSKEY": 60, "OPENPGPKEY": 61, "CSYNC": 62, "ZONEMD": 63, "SVCB": 64, "HTTPS": 65, "SPF": 99,
    "TKEY": 249, "TSIG": 250, "IXFR": 251, "AXFR": 252, "MAILB": 253, "MAILA": 254, "ANY": 255, "URI": 256, "CAA": 257,
}
CLASSES = {"IN": 1, "CH": 3, "HS": 4, "NONE": 254, "ANY": 255}
IN = 1

# The data of the types that are written in words, part by part; every other has its octets (RFC 3597 section 5).
DATA = {
    "A": ["v4"], "AAAA": ["v6"], "NS": ["name"], "CNAME": ["name"], "PTR": ["name"], "DNAME": ["name"], "MX": [2, "name"],
    "SOA": ["name", "name", 4, 4, 4, 4, 4], "TXT": ["strings"], "SRV": [2, 2, 2, "name"],
}

# A label's bytes that are written as they are.
PLAIN = re.compile(rb"[A-Za-z0-9_*+-]")


class Unread(Exception):
    """Why words say no message."""


def number_of(word, known, front):
    """The number of a type or class by its mnemonic, or as TYPE65280 or CLASS3."""
    if word in known:
        return known[word]
    if word.startswith(front) and word[len(front) :].isdigit():
        return int(word[len(front) :])
    raise Unread(f"{word!r} is no {front.lower()}")


def type_of(word):
    return number_of(word, TYPES, "TYPE")


def class_of(word):
    return number_of(word, CLASSES, "CLASS")


def is_class(word):
    return word in CLASSES or bool(re.fullmatch("CLASS[0-9]+", word))


def type_text(number):
    return next((word for word, it in TYPES.items() if it == number), f"TYPE{number}")


def class_text(number):
    return next((word for word, it in CLASSES.items() if it == number), f"CLASS{number}")


def plain_octets(text):
    """The octets of text in which three digits or a byte may follow a backslash (RFC 1035 section 5.1)."""
    found = re.sub(rb"\\(?:([0-9]{3})|(.))", lambda it: bytes([int(it[1])]) if it[1] else it[2], text.encode())
    return found


def labels_of(name):
    """The labels of a name, with or without a dot at its end."""
    labels = re.findall(r"(?:\\[0-9]{3}|\\.|[^.\\])+", name)
    if name != "." and ".".join(labels) != name.removesuffix(".") or name == "":
        raise Unread(f"{name!r} is no name")
    return tuple(plain_octets(it) for it in labels) if name != "." else ()


def name_octets(name):
    return b"".join(bytes([len(it)]) + it for it in labels_of(name)) + b"\0"


def label_text(label):
    return "".join(chr(it) if PLAIN.match(bytes([it])) else f"\\{it:03}" for it in label)


def name_text(labels):
    """A name as zone text has it; by every other spelling of it `labels_of` says the same labels."""
    return "".join(f"{label_text(it)}." for it in labels) or "."


def string_octets(word):
    octets = plain_octets(word[1:-1] if word.startswith('"') else word)
    if len(octets) > 255:
        raise Unread("a string is longer than 255 octets")
    return bytes([len(octets)]) + octets


def string_text(octets):
    return '"' + "".join(chr(it) if 32 <= it < 127 and it not in b'"\\' else f"\\{it:03}" for it in octets) + '"'


def part_octets(part, word):
    if part == "v4":
        return ipaddress.IPv4Address(word).packed
    if part == "v6":
        return ipaddress.IPv6Address(word).packed
    if part == "name":
        return name_octets(word)
    return int(word).to_bytes(part, "big")


def data_octets(rdtype, words):
    """The octets of data in words: in those of its type, or as \\# with a count and hex digits."""
    if words[:1] == ["\\#"]:
        octets = bytes.fromhex("".join(words[2:]))
        if len(octets) != int(words[1]):
            raise Unread(f"{len(octets)} octets are said to be {words[1]}")
        return octets
    parts = DATA.get(type_text(rdtype))
    if parts == ["strings"] or not words:
        return b"".join(string_octets(it) for it in words)
    if parts is None or len(parts) != len(words):
        raise Unread(f"{' '.join(words)!r} is no data of type {type_text(rdtype)}")
    return b"".join(part_octets(it, word) for it, word in zip(parts, words))


def name_at(octets, place):
    """The labels of a name in full, and the place after it."""
    labels = []
    while octets[place]:
        if octets[place] > 63:
            raise IndexError
        labels.append(octets[place + 1 : place + 1 + octets[place]])
        place += 1 + octets[place]
    return labels, place + 1


def string_at(octets, place):
    end = place + 1 + octets[place]
    if end > len(octets):
        raise IndexError
    return octets[place + 1 : end], end


def number_text(octets):
    return str(int.from_bytes(octets, "big"))


def v4_text(octets):
    return str(ipaddress.IPv4Address(octets))


def v6_text(octets):
    """An address of IPv6, with one of IPv4 that it may have mapped in dots."""
    mapped = bytes(10) + b"\xff\xff"
    return f"::ffff:{v4_text(octets[12:])}" if octets[:12] == mapped else str(ipaddress.IPv6Address(octets))


def words_of(parts, octets):
    """The words of data in these parts; an IndexError where the octets end too early."""
    words, place = [], 0
    for part in parts:
        if part == "name":
            labels, place = name_at(octets, place)
            words.append(name_text(labels))
        else:
            count = {"v4": 4, "v6": 16}.get(part, part)
            taken, place = octets[place : place + count], place + count
            words.append({"v4": v4_text, "v6": v6_text}.get(part, number_text)(taken))
    if place != len(octets):
        raise IndexError
    return words


def data_text(rdtype, octets):
    """Data in words that `data_octets` reads as these very octets."""
    raw = f"\\# {len(octets)} {octets.hex()}".strip()
    parts = DATA.get(type_text(rdtype))
    if parts is None or not octets:
        return raw
    try:
        if parts == ["strings"]:
            words, place = [], 0
            while place < len(octets):
                text, place = string_at(octets, place)
                words.append(string_text(text))
        else:
            words = words_of(parts, octets)
        return " ".join(words) if data_octets(rdtype, words) == octets else raw
    except (IndexError, ValueError, Unread):
        return raw
