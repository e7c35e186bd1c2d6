#!/usr/bin/env python3
"""fuzz.py ZONED SECONDS: damaged datagrams and streams, cut, joined and left anyhow, against a zoned that was built with
-fsanitize=address,undefined; after them it has to answer as ever, by the same worker. SEED and PORT are taken from the environment."""
import os
import random
import socket
import subprocess
import sys
import tempfile
import time

ZONED = os.path.abspath(sys.argv[1])
PORT = int(os.environ.get("PORT", "16361"))
chance = random.Random(int(os.environ.get("SEED", "1")))


def query(name, kind=1):
    labels = b"".join(bytes([len(l)]) + l.encode() for l in name.split("."))
    return chance.randbytes(2) + b"\x01\x00\x00\x01\0\0\0\0\0\0" + labels + b"\0" + kind.to_bytes(2, "big") + b"\0\1"


def damaged():
    name = chance.choice(["www.example.com", "no.example.com", "example.com", "other.org"])
    m = bytearray(query(name, chance.choice([1, 6, 252, 251, 255, 41, 250])))
    for _ in range(chance.choice([0, 0, 1, 3, 10])):
        m[chance.randrange(len(m))] = chance.randrange(256)
    if chance.random() < 0.2:
        return bytes(m[: chance.randrange(len(m) + 1)])
    return bytes(m + chance.randbytes(chance.choice([0, 0, 20, 3000])))


def stream():
    messages = (damaged() for _ in range(chance.choice([1, 2, 50, 400])))
    return b"".join(len(m).to_bytes(2, "big") + m for m in messages) + chance.randbytes(chance.choice([0, 0, 1, 70000]))


def connect():
    s = socket.create_connection(("127.0.0.1", PORT))
    s.setblocking(False)
    return s


def use(s):
    """Does something with a connection; whether it is left."""
    try:
        if chance.random() < 0.6:
            s.send(stream())
        if chance.random() < 0.5:
            s.recv(chance.choice([1, 1000, 1 << 20]))
        if chance.random() < 0.1:
            s.shutdown(socket.SHUT_WR)
    except BlockingIOError:
        pass
    except OSError:
        return True
    return chance.random() < 0.1


def ask(family, address):
    """Sends a socket a part of a request, or other bytes, and reads something, or leaves."""
    with socket.socket(family, socket.SOCK_STREAM) as s:
        s.settimeout(1)
        try:
            s.connect(address)
            request = b"GET /metrics HTTP/1.1\r\nHost: localhost\r\n\r\n"
            s.send(chance.choice([request, request[: chance.randrange(1, 30)], chance.randbytes(chance.randrange(1, 200)), chance.randbytes(9000)]))
            s.recv(chance.choice([1, 8192]))
        except OSError:
            pass


def round_of(datagrams, connections):
    datagrams.sendto(damaged(), ("127.0.0.1", PORT))
    try:
        datagrams.recv(65535)
    except OSError:
        pass
    if len(connections) < 50 and chance.random() < 0.2:
        try:
            connections.append(connect())
        except OSError:
            pass
    if connections:
        s = chance.choice(connections)
        if use(s):
            s.close()
            connections.remove(s)


def answers_as_ever():
    with socket.socket(socket.AF_INET, socket.SOCK_DGRAM) as s:
        s.settimeout(5)
        s.sendto(query("www.example.com"), ("127.0.0.1", PORT))
        try:
            return s.recv(512)[-4:] == bytes([192, 0, 2, 1])
        except OSError:
            return False


def children(host):
    return open(f"/proc/{host.pid}/task/{host.pid}/children").read().split()


def main():
    zone = tempfile.NamedTemporaryFile("w", delete=False)
    records = "".join(f'h{i} IN TXT "{"x" * 200}"\n' for i in range(2000))
    zone.write("$TTL 60\n@ IN SOA ns admin 7 3600 1800 604800 86400\n@ IN NS ns\nwww IN A 192.0.2.1\n" + records)
    zone.close()
    control = f"{zone.name}.control"
    limits = ["--tcp-most", "40", "--tcp-client", "60", "--tcp-idle", "1", "--rate-limit", "100", "--metrics", f"127.0.0.1@{PORT + 1}", "--control", control]
    host = subprocess.Popen([ZONED, "--listen", f"127.0.0.1@{PORT}", "--zone", f"example.com={zone.name}", *limits])
    any(answers_as_ever() for _ in range(6))
    first, end, count, connections = children(host), time.time() + float(sys.argv[2]), 0, []
    datagrams = socket.socket(socket.AF_INET, socket.SOCK_DGRAM)
    datagrams.setblocking(False)
    while time.time() < end:
        count += 1
        round_of(datagrams, connections)
        if chance.random() < 0.01:
            ask(*chance.choice([(socket.AF_INET, ("127.0.0.1", PORT + 1))] * 3 + [(socket.AF_UNIX, control)]))
    for s in connections:
        s.close()
    datagrams.close()
    time.sleep(1.5)
    good, same = answers_as_ever(), children(host) == first
    host.terminate()
    status = host.wait(20)
    holds = good and same and status == 0
    print(f"{count} rounds: answers as ever {good}, by the same worker {same}, status {status}")
    print(f"{int(holds)} passed, {int(not holds)} failed")
    return not holds


sys.exit(main())
