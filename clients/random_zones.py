"""Zones at random from seeds, with all that a standard query may meet (RFC 1034 section 4.3.2, RFC 4592, RFC 6672), and names to ask of them.

Names are tuples of labels, as they are spelled, without the root. A zone is one that servers take: no data beside an alias (RFC 2181 section 10.1),
none below a DNAME (RFC 6672 section 2.4), one TTL for each RRset (RFC 2181 section 5.2), no record twice, with names in other letter case neither.
"""
import random

import replies

LABELS = ["a", "b", "c", "d", "www", "mail", "ns", "host", "web", "x1", "x-2", "_tcp", "_sip"]

# Labels of octets that text has escapes for, that are like others in more than ASCII letters, or that are no wildcards.
ODD_LABELS = ["a.b", "*x", "x*", "\u00c9", "\u00e9", " ", "@", "\0", '"', "**"]

# A type that has no meaning anywhere.
UNKNOWN = 65280

TTLS = [60, 300, 900, 3600, 86400]

# What is outside of all zones.
OUTSIDE = ("outside", "invalid")

# A name has so many octets at most, its end included (RFC 1035 section 2.3.4).
NAME_BYTES = 255


def lower(name):
    """A name in lower case: ASCII letters alone (RFC 4343 section 3)."""
    return tuple(it.lower() if it.isascii() else it for it in name)


def text_of(name):
    return "".join(replies.escaped(it) + "." for it in name) or "."


def size_of(name):
    return sum(1 + len(it) for it in name) + 1


def is_below(name, other):
    """Whether a name stands at the other or below it."""
    return len(name) >= len(other) and lower(name)[len(name) - len(other) :] == lower(other)


def generic(octets):
    """Data as octets (RFC 3597 section 5)."""
    return f"\\# {len(octets)} {octets.hex()}".strip()


def same_data(text, other):
    """Whether data are the same but for letter case, in text and in octets."""
    lowered = [bytes.fromhex(it.split()[-1]).lower() if it.startswith("\\# ") and it[3] != "0" else it.lower() for it in (text, other)]
    return lowered[0] == lowered[1]


class Zone:
    """A zone: its apex, and its RRsets by owner names in lower case."""

    def __init__(self, seed):
        self.seed = seed
        self.draw = random.Random(seed)
        self.spelled = {}
        self.sets = {}
        self.ttls = {}
        self.apex = self.some_apex()
        self.fill()
        # (all names that exist: owners, and those between them and the apex)
        self.existing = {key[it:] for key in self.spelled for it in range(len(key) - len(self.apex) + 1)}
        self.situations = {}

    # What stands in it.

    def types_at(self, name):
        return self.sets.get(lower(name), {})

    def has(self, name, rdtype):
        return rdtype in self.types_at(name)

    def ancestors(self, name):
        """The name and those above it, down from the apex."""
        return [name[it:] for it in range(len(name) - len(self.apex), -1, -1)]

    def cut_above(self, name):
        """The highest cut at or above a name, or None."""
        return next((it for it in self.ancestors(name)[1:] if self.has(it, replies.NS)), None)

    def redirection_above(self, name):
        """The DNAME above a name, or None."""
        return next((it for it in self.ancestors(name)[:-1] if self.has(it, replies.DNAME)), None)

    def exists(self, name):
        return lower(name) in self.existing

    def is_free(self, name):
        """Whether nothing stands at a name or below it, while the zone is made."""
        return not any(is_below(it, name) for it in self.spelled)

    def wildcard_of(self, name):
        """The source of synthesis of a name that does not exist, whether it is there or not (RFC 4592 section 3.3.1)."""
        encloser = next(it for it in reversed(self.ancestors(name)) if self.exists(it))
        return ("*", *encloser)

    def situation(self, name):
        """Where a name stands, for the list of kinds of differences."""
        if name not in self.situations:
            self.situations[name] = self.situation_of(name)
        return self.situations[name]

    def situation_of(self, name):
        """The same, looked up anew."""
        if not is_below(name, self.apex):
            return "outside the zone"
        cut = self.cut_above(name)
        if cut:
            return "at a cut" if len(cut) == len(name) else "below a cut"
        if self.redirection_above(name):
            return "below a DNAME"
        if lower(name) == lower(self.apex):
            return "at the apex"
        if self.exists(name):
            return self.situation_of_owner(name)
        source = self.wildcard_of(name)
        if self.has(source, replies.CNAME):
            return "below a wildcard that is an alias"
        if self.types_at(source):
            return "below a wildcard"
        return "below an empty wildcard" if self.exists(source) else "at nothing"

    def situation_of_owner(self, name):
        """What a name that exists is."""
        if not self.types_at(name):
            return "at an empty non-terminal"
        if self.has(name, replies.CNAME):
            return "at an alias"
        if self.has(name, replies.DNAME):
            return "at a DNAME"
        return "at a wildcard" if name[0] == "*" else "at data"

    # How it comes about.

    def chance(self, share):
        return self.draw.random() < share

    def some_apex(self):
        first = f"z{self.seed}"
        return self.draw.choice([(first, "test"), (first, "test"), (first.upper(), "Test"), (first, "some", "deeper", "example"), (first,)])

    def spell(self, name):
        """A name in mixed case, now and then."""
        if not self.chance(0.2):
            return name
        return tuple("".join(self.draw.choice([it.lower(), it.upper()]) if it.isascii() else it for it in label) for label in name)

    def takes(self, name, rdtype):
        """Whether servers take a record of this type there."""
        types = self.types_at(name)
        if size_of(name) > NAME_BYTES or self.redirection_above(name):
            return False
        if replies.CNAME in types or rdtype == replies.CNAME and types:
            return False
        if rdtype == replies.DNAME:
            return not any(is_below(it, name) and len(it) > len(name) for it in self.spelled) and replies.NS not in types and name[0] != "*"
        if rdtype == replies.NS and lower(name) != lower(self.apex):
            return replies.DNAME not in types and name[0] != "*"
        return True

    def add(self, name, rdtype, data):
        """Adds a record where servers take it, and says whether it is there."""
        if not self.takes(name, rdtype):
            return False
        key = lower(name)
        self.spelled.setdefault(key, self.spell(name))
        of_type = self.sets.setdefault(key, {}).setdefault(rdtype, [])
        self.ttls.setdefault((key, rdtype), self.draw.choice(TTLS))
        is_single = rdtype in (replies.CNAME, replies.DNAME, replies.SOA)
        if not any(is_single or same_data(it, data) for it in of_type):
            of_type.append(data)
        return True

    def some_label(self):
        return self.draw.choice(ODD_LABELS if self.chance(0.05) else LABELS)

    def some_name(self, above=None, depth=None):
        """A name below one of the zone, or below the apex."""
        above = self.apex if above is None else above
        return tuple(self.some_label() for _ in range(depth or self.draw.choice([1, 1, 1, 2, 2, 3]))) + above

    def some_owner(self):
        return self.draw.choice(sorted(self.spelled))

    def free_name(self, above=None, depth=None):
        """A name where there is nothing yet, and nothing below."""
        for _ in range(100):
            name = self.some_name(above, depth)
            if self.is_free(name) and not self.redirection_above(name):
                return name
        # (where all are taken)
        return (f"n{len(self.spelled)}", *(self.apex if above is None else above))

    def add_a(self, name):
        return self.add(name, replies.A, f"192.0.2.{self.draw.randrange(256)}")

    def add_aaaa(self, name):
        return self.add(name, replies.AAAA, f"2001:db8::{self.draw.randrange(1, 65536):x}")

    def add_addresses(self, name):
        """One address or several, of one family or both."""
        adders = self.draw.choice([[self.add_a], [self.add_aaaa], [self.add_a, self.add_aaaa], [self.add_a, self.add_a, self.add_aaaa]])
        return all([it(name) for it in adders])

    def some_host(self):
        """A host that records may name: inside or outside, with addresses or without, behind a wildcard or an alias, below a cut."""
        kind = self.draw.randrange(10)
        if kind == 0:
            return (self.some_label(), *OUTSIDE)
        if kind == 1:
            return self.some_name()
        if kind == 2:
            return (self.some_label(), *self.some_owner())[-100:]
        hosts = [it for it in sorted(self.sets) if replies.A in self.sets[it] or replies.AAAA in self.sets[it]]
        return self.draw.choice(hosts) if hosts else self.some_name()

    def host_text(self):
        return text_of(self.spell(self.whole(self.some_host())))

    def whole(self, name):
        """A name that is not too long."""
        return name if size_of(name) <= NAME_BYTES else self.apex

    def host_bytes(self, is_spelled=True):
        host = self.whole(self.some_host())
        return replies.name_bytes(self.spell(host) if is_spelled else lower(host))

    def add_data(self, name):
        """One RRset of some type."""
        kind = self.draw.randrange(12)
        if kind < 3:
            return self.add_addresses(name)
        if kind < 5:
            return self.add(name, replies.TXT, f'"text {self.draw.randrange(1000)}"')
        if kind < 7:
            return all([self.add(name, replies.MX, f"{self.draw.randrange(30)} {self.host_text()}") for _ in range(self.draw.choice([1, 1, 2, 3]))])
        if kind < 9:
            octets = bytes([0, self.draw.randrange(9), 0, 1, 1, 187])
            return all([self.add(name, replies.SRV, generic(octets + self.host_bytes())) for _ in range(self.draw.choice([1, 2]))])
        if kind == 9:
            return self.add(name, UNKNOWN, generic(self.draw.randbytes(self.draw.randrange(1, 9))))
        if kind == 10:
            return self.add(name, replies.PTR, self.host_text())
        rdtype = self.draw.choice([replies.SVCB, replies.HTTPS])
        # (Knot 3.2 finds no addresses of a host that these spell with capitals)
        target = b"\0" if self.chance(0.3) else self.host_bytes(is_spelled=False)
        front, back = ((b"\0\0", b"") if self.chance(0.4) and target != b"\0" else (b"\0\1", bytes.fromhex("00010003026832")))
        return self.add(name, rdtype, generic(front + target + back))

    def fill(self):
        apex = self.apex
        numbers = f"{self.draw.randrange(1, 1 << 31)} 3600 600 604800 {self.draw.choice([30, 300, 7200, 90000])}"
        self.add(apex, replies.SOA, f"{text_of(('ns', *apex))} {text_of(('admin', *apex))} {numbers}")
        self.add(apex, replies.NS, text_of(("ns", *OUTSIDE)))
        if self.seed % 12 == 7:
            # (a DNAME at the apex, and so nothing below it)
            self.add(apex, replies.DNAME, generic(replies.name_bytes(("other", *OUTSIDE))))
            self.add(apex, replies.MX, f"5 {text_of(('mail', *apex))}")
            self.add(apex, replies.TXT, '"above it all"')
            return
        for host in self.draw.sample([("ns", *apex), ("ns2", *apex), ("ns", "of", *apex)], self.draw.randrange(1, 3)):
            self.add(apex, replies.NS, text_of(host))
        self.add_addresses(("ns", *apex))
        self.add_addresses(("ns2", *apex))
        self.add_addresses(("ns", "of", *apex))
        for _ in range(self.draw.randrange(8, 16)):
            name = self.some_name()
            for _ in range(self.draw.choice([1, 1, 2, 3])):
                self.add_data(name)
        for part in (self.add_wildcards, self.add_cuts, self.add_redirections, self.add_aliases, self.add_long_names, self.add_large_sets, self.add_apex_data):
            part()

    def add_apex_data(self):
        for _ in range(self.draw.randrange(3)):
            self.add_data(self.apex)

    def add_wildcards(self):
        """Wildcards at several depths: below the apex, below names with data, below none, below each other; with names below them."""
        for _ in range(self.draw.randrange(3, 7)):
            above = self.draw.choice([self.some_owner(), self.some_name(), self.apex, self.some_owner()[1:]])
            above = above if is_below(above, self.apex) else self.apex
            name = ("*", *above)
            kind = self.draw.randrange(8)
            if kind == 0:
                self.add_data(("*", *name))
            elif kind == 1:
                self.add_data((self.some_label(), *name))
            elif kind == 2:
                self.add(name, replies.CNAME, self.target_text())
            else:
                for _ in range(self.draw.choice([1, 2])):
                    self.add_data(name)

    def add_cut(self, name):
        """A cut with one to three servers, with glue or without, and perhaps DS."""
        for _ in range(self.draw.choice([1, 2, 2, 3])):
            kind = self.draw.randrange(6)
            if kind == 0:
                host = ("ns", *OUTSIDE)
            elif kind == 1:
                host = self.some_host()
            elif kind == 2:
                host = name
            else:
                host = (self.draw.choice(["ns", "ns1", "NS-b"]), *name)
            host = self.whole(host)
            if self.add(name, replies.NS, text_of(host)) and is_below(host, name) and self.chance(0.75):
                self.add_addresses(host)
        if self.chance(0.5):
            self.add(name, replies.DS, generic(self.draw.randbytes(2) + bytes([13, 2]) + self.draw.randbytes(32)))

    def add_cuts(self):
        for _ in range(self.draw.randrange(2, 5)):
            name = self.free_name()
            self.add_cut(name)
            if self.chance(0.3):
                # occluded: at the cut
                self.add_data(name)
            for _ in range(self.draw.randrange(3)):
                below = self.some_name(name)
                self.add_data(below)
            kind = self.draw.randrange(6)
            if kind == 0:
                self.add_cut(self.free_name(name))
            elif kind == 1:
                self.add_data(("*", *name))
            elif kind == 2:
                self.add(self.free_name(name), replies.CNAME, self.target_text())
            elif kind == 3:
                self.add(self.free_name(name), replies.DNAME, generic(replies.name_bytes(self.whole(self.some_owner()))))

    def add_redirections(self):
        """DNAMEs: into the zone, to nothing, outside, into a cut, to each other, in a loop, to a name that grows too long."""
        for _ in range(self.draw.randrange(2, 6)):
            name = self.free_name()
            kind = self.draw.randrange(8)
            if kind == 0:
                target = ("other", *OUTSIDE)
            elif kind == 1:
                target = tuple("l" * 60 for _ in range(3)) + self.apex
            elif kind == 2:
                target = name if self.chance(0.5) else (self.some_label(), *name)
            elif kind == 3:
                target = self.apex
            else:
                above = self.some_owner()
                target = above[self.draw.randrange(2) :]
                target = target if is_below(target, self.apex) else self.apex
            if self.add(name, replies.DNAME, generic(replies.name_bytes(self.whole(target)))) and self.chance(0.4):
                self.add_data(name)

    def target_text(self):
        return text_of(self.spell(self.whole(self.some_target())))

    def some_target(self):
        """What an alias leads to: data, nothing, outside, a cut or below it, below a DNAME, an empty non-terminal, the apex, another alias."""
        kind = self.draw.randrange(10)
        owner = self.some_owner()
        if kind == 0:
            return (self.some_label(), *OUTSIDE)
        if kind == 1:
            return ("nothing", *self.some_name())
        if kind == 2:
            cuts = [it for it in sorted(self.sets) if replies.NS in self.sets[it] and it != lower(self.apex)]
            cut = self.draw.choice(cuts) if cuts else self.apex
            return self.draw.choice([cut, ("www", *cut), ("deep", "down", *cut)])
        if kind == 3:
            redirections = [it for it in sorted(self.sets) if replies.DNAME in self.sets[it]]
            return (self.some_label(), *(self.draw.choice(redirections) if redirections else owner))
        if kind == 4:
            return (self.some_label(), *owner)
        if kind == 5:
            return owner[1:] if len(owner) > len(self.apex) else owner
        return owner

    def add_aliases(self):
        for _ in range(self.draw.randrange(5, 10)):
            self.add(self.free_name(), replies.CNAME, self.target_text())
        # a chain of up to nine links, whose end is whatever an alias leads to
        links = [("l" + str(it), *self.apex) for it in range(self.draw.randrange(2, 10))]
        for it, to in zip(links, links[1:]):
            self.add(it, replies.CNAME, text_of(self.spell(to)))
        self.add(links[-1], replies.CNAME, self.target_text())
        # a loop of one to three
        loop = [("o" + str(it), *self.apex) for it in range(self.draw.randrange(1, 4))]
        for it, to in zip(loop, loop[1:] + loop[:1]):
            self.add(it, replies.CNAME, text_of(to))

    def longest(self, label, above):
        """A name of as many such labels as fit."""
        name = above
        while size_of((label, *name)) <= NAME_BYTES:
            name = (label, *name)
        left = NAME_BYTES - size_of(name) - 1
        return (label[:left], *name) if left > 0 else name

    def add_long_names(self):
        """Names of as many labels as there can be, and of as many octets."""
        if self.chance(0.5):
            self.add_data(self.longest("a", self.apex))
        if self.chance(0.5):
            self.add_data(self.longest("m" * 63, self.apex))
        if self.chance(0.3):
            self.add(("*", *self.longest("q", self.apex)[2:]), replies.TXT, '"below a long name"')

    def add_large_sets(self):
        """RRsets that a reply over UDP has no room for, with EDNS or without."""
        name = self.free_name(depth=1)
        if self.chance(0.6):
            for it in range(self.draw.choice([4, 6, 16])):
                self.add(name, replies.TXT, '"' + f"{it} ".ljust(120, "t") + '"')
        if self.chance(0.4):
            cut = self.free_name(depth=1)
            for it in range(self.draw.choice([3, 6, 9])):
                host = (f"server{it}", *cut)
                self.add(cut, replies.NS, text_of(host))
                self.add_a(host)
                self.add_aaaa(host)

    def text(self):
        """The zone as a file that all servers take: types without a form of their own everywhere by their numbers (RFC 3597 section 5)."""
        lines = ["$TTL 3600"]
        by_name = {"A", "NS", "CNAME", "SOA", "PTR", "MX", "TXT", "AAAA"}
        for key, sets in self.sets.items():
            for rdtype, of_type in sets.items():
                text = replies.type_text(rdtype)
                text = text if text in by_name else f"TYPE{rdtype}"
                lines += [f"{text_of(self.spelled[key])} {self.ttls[key, rdtype]} IN {text} {it}" for it in of_type]
        return "\n".join(lines) + "\n"

    # What is asked of it.

    def asked_names(self):
        """Names in the zone, below and beside those, between them, through wildcards, below cuts and DNAMEs, outside."""
        found, draw = [], self.draw
        for name in sorted(self.spelled):
            if name[0].startswith("server"):
                # (the many hosts of a large set are alike)
                continue
            found += [name, ("below", *name), (self.some_label(), *name), (self.some_label(), "two", *name), ("beside", *name[1:]), name[1:]]
            if self.has(name, replies.DNAME):
                found += [("a", "b", "c", *name), self.longest("w" * 40, name), ("w" * 60, *name), (self.some_label(), *name), ("*", *name)]
            if name[0] == "*":
                found += [("new", *name[1:]), ("one", "two", *name[1:]), (self.some_label(), *name[1:]), ("*", "new", *name[1:]), ("*", *name)]
            if self.has(name, replies.NS):
                found += [("*", *name), ("ns", *name), self.longest("a", name)]
        found += [("z", *OUTSIDE), self.apex[1:], (self.apex[0] + "z", *self.apex[1:]), self.longest("a", self.apex), self.longest("n" * 63, self.apex)]
        kept = {lower(it) for it in found if size_of(it) <= NAME_BYTES}
        return [self.spell(it) for it in sorted(kept)]

    def asked_types(self, name):
        """Types that it has, and some that it has not."""
        common = ["A", "AAAA", "NS", "SOA", "MX", "TXT", "CNAME", "DNAME", "DS", "SRV", "ANY", "HTTPS", "SVCB", "DNSKEY", "RRSIG", "NSEC"]
        at = set(self.types_at(name)) | {UNKNOWN if self.chance(0.3) else replies.A}
        if is_below(name, self.apex) and not self.exists(name):
            at |= set(self.types_at(self.wildcard_of(name)))
        at |= {replies.TYPES[it] for it in self.draw.sample(common, 6)}
        return sorted(at)
