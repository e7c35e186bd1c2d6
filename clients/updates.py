"""Updates as bytes (RFC 2136 section 2), signed by a key (RFC 8945): nothing of the library's."""
import base64
import hashlib
import hmac
import struct
import time

A, SOA, TXT, TSIG, AXFR, ANY_TYPE = 1, 6, 16, 250, 252, 255
IN, NONE, ANY = 1, 254, 255

KEY, ALGORITHM, SECRET = "updates.example", "hmac-sha256", b"0123456789abcdef0123456789abcdef"

# The key as a file of keys has it.
STATEMENT = f'key "{KEY}" {{ algorithm {ALGORITHM}; secret "{base64.b64encode(SECRET).decode()}"; }};\n'


def name(text):
    """A name in wire form."""
    return b"".join(bytes([len(it)]) + it.encode() for it in text.split(".") if it) + b"\0"


def record(owner, kind, of_class, ttl, data):
    return name(owner) + struct.pack(">HHIH", kind, of_class, ttl, len(data)) + data


def question(owner, kind):
    return name(owner) + struct.pack(">HH", kind, IN)


def query(owner, kind, number=7):
    return struct.pack(">HHHHHH", number, 0, 1, 0, 0, 0) + question(owner, kind)


def update(zone, records, required=(), number=7):
    """An update of a zone with these prerequisites, whose update section has these records."""
    return struct.pack(">HHHHHH", number, 5 << 11, 1, len(required), len(records), 0) + question(zone, SOA) + b"".join(required) + b"".join(records)


def signed(message, key=KEY, secret=SECRET, algorithm=ALGORITHM):
    """The message with a TSIG record of now (RFC 8945 section 4.2); its additional section had no record or more."""
    now = int(time.time()).to_bytes(6, "big") + struct.pack(">H", 300)
    mac = hmac.new(secret, message + name(key) + struct.pack(">HI", ANY, 0) + name(algorithm) + now + bytes(4), getattr(hashlib, algorithm[5:])).digest()
    data = name(algorithm) + now + struct.pack(">H", len(mac)) + mac + message[:2] + bytes(4)
    count = int.from_bytes(message[10:12], "big") + 1
    return message[:10] + count.to_bytes(2, "big") + message[12:] + record(key, TSIG, ANY, 0, data)
