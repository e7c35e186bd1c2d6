"""Messages for the load run, by a seed: good ones, damaged ones and hostile ones, for the server that `files` and `ARGUMENTS` describe.

Each comes with the address that it is from, and with what is to come of it: a response code, FAULT for what is no message, or None for either.
"""
import os
import random
import sys

sys.path.insert(0, os.path.join(os.path.dirname(os.path.realpath(__file__)), "../clients"))
import updates

# What the server holds: two zones that take updates, two more, and a list of blocked names.
APEX = "$TTL 3600\n@ IN SOA ns admin 7 3600 1800 604800 86400\n@ IN NS ns\n"
ZONES = ["example.com", "example.org", "example.net", "example.edu"]
ARGUMENTS = [
    *(word for it in ZONES for word in ("--zone", f"{it}={it}.zone")),
    "--blocklist", "blocked", "--keys", "keys", "--nsid", "ns1", "--allow-transfer", "192.0.2.0/24",
    *(word for it in ZONES[:2] for word in ("--allow-update", f"{it}={updates.KEY} zone ANY")), "lines",
]

# Who may have zones, and who may not.
CLIENT, STRANGER = "192.0.2.1", "198.51.100.1"
BAD_SECRET = bytes(32)

FAULT = "a fault"
NOERROR, NXDOMAIN, NOTIMP, REFUSED, YXDOMAIN, NOTAUTH = 0, 3, 4, 5, 6, 9
A, NS, SOA, NULL, MX, TXT, OPT, AXFR, ANY = 1, 2, 6, 10, 15, 16, 41, 252, 255
IN, NONE = 1, 254
UPDATE = 0x2800
RECURSION_DESIRED = 0x100

# There are so many hosts in the zone, and so many names that updates add and delete.
HOSTS = 100
UPDATED = 50

# Of a hundred messages so many are good, and so many damaged; the others are hostile.
GOOD = 60
DAMAGED = 25


def files():
    """The files that the server reads, by their names."""
    hosts = "".join(f"www{i} IN A 192.0.2.{i}\n" for i in range(HOSTS))
    found = {f"{it}.zone": APEX + "ns IN A 192.0.2.53\n" for it in ZONES}
    found["example.com.zone"] += hosts
    return found | {"blocked": "blocked.example.edu\n", "keys": updates.STATEMENT}


def two(number):
    return number.to_bytes(2, "big")


def wire(name):
    return b"".join(two(len(it))[1:] + it.encode() for it in name.split(".") if it) + b"\0"


def header(identifier, flags=RECURSION_DESIRED, counts=(1, 0, 0, 0)):
    return b"".join(map(two, (identifier, flags, *counts)))


def question(name, record_type=A):
    return wire(name) + two(record_type) + two(IN)


def record(name, record_type, data, record_class=IN, ttl=0):
    return name + two(record_type) + two(record_class) + ttl.to_bytes(4, "big") + two(len(data)) + data


def pointer(place):
    return two(0xC000 | place)


def edns(options=b"", version=0, dnssec_ok=0):
    return b"\0" + two(OPT) + two(1232) + bytes([0, version, dnssec_ok, 0]) + two(len(options)) + options


class Messages:
    """A stream of messages, the same for the same seed but for the times and MACs of signatures."""

    def __init__(self, seed):
        self.random = random.Random(seed)

    def query(self, name, record_type=A, more=b"", additionals=0):
        return header(self.identifier, counts=(1, 0, 0, additionals)) + question(name, record_type) + more

    def update(self, zone, section, secret=updates.SECRET, prerequisites=0, count=1):
        """An update, signed by the key with this secret, or by none."""
        message = header(self.identifier, UPDATE, (1, prerequisites, count, 0)) + question(zone, SOA) + section
        return updates.signed(message, secret=secret) if secret else message

    def refused_transfer(self):
        self.client = STRANGER
        return self.query("example.com", AXFR)

    def host(self):
        return f"www{self.random.randrange(HOSTS)}.example.com"

    def good_query(self):
        return self.random.choice([
            lambda: (self.query(self.host()), NOERROR),
            lambda: (self.query(self.host(), A, edns(two(3) + two(0)), 1), NOERROR),
            lambda: (self.query(self.host(), A, edns(dnssec_ok=0x80), 1), NOERROR),
            lambda: (self.query(self.host(), A, edns(version=1), 1), NOERROR),
            lambda: (self.query(self.host(), MX), NOERROR),
            lambda: (self.query(self.host(), ANY), NOERROR),
            lambda: (self.query(f"nx{self.random.randrange(10**6)}.example.com"), NXDOMAIN),
            lambda: (self.query("example.com", SOA), NOERROR),
            lambda: (self.query("blocked.example.edu"), NOERROR),
            lambda: (self.query("example.net", AXFR), NOERROR),
            lambda: (self.refused_transfer(), REFUSED),
            lambda: (self.query(f"www{self.random.randrange(10**6)}.example"), REFUSED),
            lambda: (header(self.identifier, 0x1000) + question(self.host()), NOTIMP),
        ])()

    def good_update(self):
        name = wire(f"u{self.random.randrange(UPDATED)}.example.com")
        addition = record(name, A, bytes([192, 0, 2, self.random.randrange(4)]), ttl=60)
        deletion = record(name, ANY, b"", ANY)
        in_use = record(wire("example.com"), ANY, b"", NONE)
        return self.random.choice([
            lambda: (self.update("example.com", addition), NOERROR),
            lambda: (self.update("example.com", deletion), NOERROR),
            lambda: (self.update("example.com", in_use + addition, prerequisites=1), YXDOMAIN),
            lambda: (self.update("example.com", addition, None), REFUSED),
            lambda: (self.update("example.org", b"", BAD_SECRET, count=0), NOTAUTH),
            lambda: (self.update("example", b"", count=0), NOTAUTH),
        ])()

    def good(self):
        return self.good_update() if self.random.randrange(4) == 0 else self.good_query()

    def damaged(self):
        """A message with some bytes changed, left out or put in. Updates are such as would not be made."""
        name = wire(f"u{self.random.randrange(UPDATED)}.example.org")
        update = self.update("example.org", record(name, A, b"\xc0\0\2\1", ttl=60), BAD_SECRET)
        message = bytearray(update if self.random.randrange(3) == 0 else self.good_query()[0])
        for _ in range(self.random.randrange(1, 4)):
            place = self.random.randrange(len(message))
            change = self.random.randrange(4)
            if change == 0:
                message[place] = self.random.randrange(256)
            elif change == 1:
                message[place : place + 2] = pointer(self.random.randrange(len(message)))
            elif change == 2:
                message[place:place] = self.random.randbytes(2)
            elif place:
                del message[place:]
        return bytes(message), None

    def chain(self, pointers, names):
        """A query with additional records whose names lead through a chain of pointers, in the data of the first of them."""
        front = self.query(self.host())
        at = len(front) + 11
        data = b"\1a\0" + pointer(at)
        for _ in range(pointers - 1):
            data += pointer(at + len(data) - 2)
        last = at + len(data) - 2
        more = record(b"\0", NULL, data) + record(b"\1x" + pointer(last), A, b"\xc0\0\2\1") * names
        return front[:10] + two(1 + names) + front[12:] + more, NOERROR

    def labels(self):
        """Questions with a label more each, and the rest by a pointer to the one before. The 128th name is too long."""
        count = self.random.randrange(120, 136)
        body, last = question("a"), 12
        for _ in range(count - 1):
            place = 12 + len(body)
            body += b"\1a" + pointer(last) + two(A) + two(IN)
            last = place
        return header(self.identifier, counts=(count, 0, 0, 0)) + body, 1 if count < 128 else FAULT

    def lies(self):
        """Counts and lengths of what is not there."""
        host = self.host()
        return self.random.choice([
            (header(self.identifier, counts=(65535, 0, 0, 0)) + question(host), FAULT),
            (header(self.identifier, counts=(1, 0, 0, 65535)) + question(host) + edns(), FAULT),
            (self.query(host, A, record(b"\0", A, b"")[:-2] + two(65535), 1), FAULT),
            (self.query(host, A, edns(two(3) + two(65535)), 1), NOERROR),
            (header(self.identifier) + pointer(12) + two(A) + two(IN), FAULT),
            (header(self.identifier) + b"\1a" + pointer(12) + two(A) + two(IN), FAULT),
            (header(self.identifier) + b"\x40a\0" + two(A) + two(IN), FAULT),
        ])

    def small_parts(self):
        """Many options, strings and records of the least size."""
        count = self.random.randrange(1, 200)
        host = self.host()
        return self.random.choice([
            (self.query(host, A, edns((two(3) + two(0)) * count), 1), NOERROR),
            (self.query(host, A, record(b"\0", TXT, bytes(count)), 1), NOERROR),
            (self.query(host, A, record(b"\0", A, b"") * count, count), NOERROR),
            (header(self.identifier, counts=(count + 1, 0, 0, 0)) + question("") * (count + 1), 1),
        ])

    def hostile(self):
        shape = self.random.randrange(100)
        if shape == 0:
            return self.chain(2000, 100)
        if shape < 40:
            return self.chain(self.random.randrange(1, 100), self.random.randrange(1, 10))
        if shape < 50:
            return self.labels()
        return self.lies() if shape < 80 else self.small_parts()

    def next(self):
        """The kind of the next message, the address that it is from, its bytes, and what is to come of it."""
        self.identifier, self.client = self.random.randrange(65536), CLIENT
        share = self.random.randrange(100)
        kind = "good" if share < GOOD else "damaged" if share < GOOD + DAMAGED else "hostile"
        message, wanted = getattr(self, kind)()
        return kind, self.client, message, wanted
