#!/usr/bin/env python3
"""tries_notify.py ZONED: tries how zoned tells other servers that zones have changed (RFC 1996), on loopback: the octets of a notice, when it is sent and sent
again, which answers end it; and that NSD and Knot follow an update, where they are installed or can be. The last line is 'N passed, M failed'."""
import os
import re
import shutil
import signal
import socket
import struct
import subprocess
import sys
import tempfile
import threading
import time

sys.dont_write_bytecode = True

import tries
from packages import install
from tries import Kept, PORT, control, query, start, told, udp, wait_for, want, wire

FOLLOW = 3  # seconds within which a secondary has an update


class Secondary:
    """A server that is told of changes, and answers as it is asked to: `reply` makes of a notice what is sent back, if anything."""

    def __init__(self, port, address="127.0.0.1", reply=None):
        self.socket = socket.socket(socket.AF_INET, socket.SOCK_DGRAM)
        self.socket.bind((address, port))
        self.socket.settimeout(0.1)
        self.notices, self.reply, self.is_over = [], reply or answer, False
        self.thread = threading.Thread(target=self.run, daemon=True)
        self.thread.start()

    def run(self):
        while not self.is_over:
            try:
                bytes_, source = self.socket.recvfrom(65535)
            except OSError:
                continue
            self.notices.append((time.monotonic(), bytes_, source))
            threading.Thread(target=self.answer, args=(bytes_, source), daemon=True).start()

    def answer(self, notice, source):
        reply = self.reply(notice)
        if reply is not None:
            self.socket.sendto(reply, source)

    def close(self):
        self.is_over = True
        self.thread.join()
        self.socket.close()

    def has(self, count, within):
        """Whether so many notices have come within these seconds."""
        return tries.goes_on(lambda: len(self.notices) >= count, within)

    def serials(self):
        return [serial_of(it[1]) for it in self.notices]

    def forget(self):
        self.notices = []


def answer(notice, code=0):
    return notice[:2] + bytes([0xa4, code]) + b"\0\x01\0\0\0\0\0\0" + notice[12:12 + notice[12:].index(0) + 5]


def serial_of(notice):
    return int.from_bytes(notice[-20:-16], "big")


def expected(zone, serial, i, ttl=60):
    """The octets of a notice (RFC 1996 section 3.7): AA, the question of the zone's SOA, and its SOA record."""
    soa = wire(f"ns.{zone}") + wire(f"admin.{zone}") + struct.pack("!5I", serial, 3600, 1800, 604800, 86400)
    record = wire(zone) + b"\0\x06\0\x01" + ttl.to_bytes(4, "big") + len(soa).to_bytes(2, "big") + soa
    return i + b"\x24\0\0\x01\0\x01\0\0\0\0" + wire(zone) + b"\0\x06\0\x01" + record


def write_zone(path, serial=7, more=""):
    with open(path, "w") as it:
        it.write(f"$TTL 60\n@ IN SOA ns admin {serial} 3600 1800 604800 86400\n@ IN NS ns\nwww IN A 192.0.2.1\n{more}")


def try_notices(folder, port):
    """The start, updates, a reload; and each kind of answer."""
    secondary = Secondary(port + 1)
    kept = Kept(folder, port)
    control_path = os.path.join(kept.folder, "control")
    kept.words += ["--also-notify", f"127.0.0.1@{port + 1}", "--control", control_path]
    want("a server with a secondary is ready", kept.start())
    want("a notice comes at the start", secondary.has(1, 2))
    notice = secondary.notices[0][1]
    want("with the zone's SOA record, octet by octet", notice == expected("example.com", 7, notice[:2]))
    time.sleep(2.5)
    want("it is not sent again after its answer", len(secondary.notices) == 1)
    want("zonestatus says the serial, and that no notice waits", "serial: 7\nnotices-waiting: 0\n" in control(control_path, "zonestatus", "example.com")[1])
    want("an update is made", kept.update("a") == 0)
    want("and told", secondary.has(2, 1) and secondary.serials()[1] == 8 == kept.serial())
    want("an update that changes nothing is not told", kept.update("a") == 0 and not secondary.has(3, 1))
    for i in range(20):
        kept.update(f"b{i}")
    want("of several at once the last is told", tries.goes_on(lambda: secondary.serials()[-1] == 28, 2) and len(secondary.notices) < 20)
    before = len(secondary.notices)
    want("a reload that changes nothing tells nothing", kept.reload() and not secondary.has(before + 1, 1))
    want("nor does a worker that begins again", kept.kill("worker") and not secondary.has(before + 1, 1))
    try_answers(kept, secondary, port)
    want("it ends", kept.end())
    secondary.close()


def try_answers(kept, secondary, port):
    """Which answers end a notice, and which do not."""
    other = socket.socket(socket.AF_INET, socket.SOCK_DGRAM)
    wrong = {
        "another id": lambda it: bytes([it[0] ^ 1]) + answer(it)[1:],
        "another question": lambda it: answer(it).replace(b"\x07example", b"\x07exbmple"),
        "the opcode of a query": lambda it: it[:2] + b"\x84\0" + answer(it)[4:],
        "QR unset": lambda it: it[:2] + b"\x24\0" + answer(it)[4:],
        "a few octets": lambda it: it[:11],
        "nothing": lambda it: None,
    }
    for number, (what, reply) in enumerate(wrong.items()):
        secondary.forget()
        secondary.reply = reply
        kept.update(f"w{number}")
        want(f"after an answer with {what} it is sent again, two seconds later", secondary.has(2, 4) and 1.8 < secondary.notices[1][0] - secondary.notices[0][0] < 3)
        want("with another id", secondary.notices[0][1][2:] == secondary.notices[1][1][2:])
        secondary.reply = answer
        tries.goes_on(lambda: len(secondary.notices) > 2, 5)
    secondary.forget()
    secondary.reply = lambda it: other.sendto(answer(it), secondary.notices[-1][2]) and None
    kept.update("x0")
    want("an answer from another port does not count", secondary.has(2, 4))
    secondary.forget()
    secondary.reply = lambda it: time.sleep(1) or answer(it)
    kept.update("x1")
    want("an answer a second later does", secondary.has(1, 1) and not secondary.has(2, 3))
    secondary.forget()
    secondary.reply = lambda it: answer(it, 5)
    kept.update("x2")
    want("a refusal ends it", secondary.has(1, 1) and not secondary.has(2, 3))
    want("and is said once", kept.says(f"example.com.: 127.0.0.1@{port + 1} answered REFUSED to the notice of serial", 1) == 1)
    secondary.forget()
    secondary.reply = lambda it: answer(it, 4)[:12].replace(b"\0\x01", b"\0\0", 1)
    kept.update("x3")
    want("so does an error without the question", secondary.has(1, 1) and not secondary.has(2, 3))
    secondary.forget()
    secondary.reply = lambda it: None
    kept.update("x4")
    want("a notice without an answer is sent after 2 and after 4 seconds more", secondary.has(3, 8) and [round((b[0] - a[0]) / 2) for a, b in zip(secondary.notices, secondary.notices[1:])] == [1, 2])
    kept.update("x5")
    want("a later one takes its place", tries.goes_on(lambda: len(set(secondary.serials())) == 2, 2) and not tries.goes_on(lambda: secondary.serials()[-1] != max(secondary.serials()), 3))
    secondary.reply = answer
    other.close()


def try_settings(folder, port):
    """Who is told of which zone."""
    paths = {name: os.path.join(folder, f"{name}.told") for name in ("example.com", "example.org")}
    for name, path in paths.items():
        write_zone(path, more="@ IN NS ns2\nns IN A 127.0.0.12\nns2 IN A 127.0.0.13\n")
    zones = [word for name, path in paths.items() for word in ("--zone", f"{name}={path}")]
    both, one = Secondary(port + 1), Secondary(port + 2)
    hosts = []
    try:
        hosts = [Secondary(53, "127.0.0.12"), Secondary(53, "127.0.0.13")]
    except OSError as error:
        print(f"note: port 53 of 127.0.0.12 cannot be opened ({error}), so --notify yes is not tried")
    config = os.path.join(folder, "told.toml")
    with open(config, "w") as it:
        it.write(f'also-notify = ["127.0.0.1@{port + 1}", "example.org=127.0.0.1@{port + 2}"]\nnotify = "yes"\n')
    host = start(["--config", config, *zones], port, stderr=subprocess.PIPE, text=True)
    want("a server with two secondaries is ready", wait_for(port))
    want("one is told of both zones, the other of its own", both.has(2, 2) and one.has(1, 2) and not one.has(2, 1) and wire("example.org") in one.notices[0][1])
    if hosts:
        want("with yes a server of NS records is told of both, and the primary of none", hosts[1].has(2, 2) and not hosts[0].has(1, 1))
    write_zone(paths["example.com"], 8)
    host.send_signal(signal.SIGHUP)
    want("a reload tells of the zone that has changed", both.has(3, 3) and both.serials()[2] == 8 and not both.has(4, 1) and not one.has(2, 0.2))
    host.terminate()
    want("it ends", host.wait(15) == 0)
    both.forget()
    for words, what in (([], "without --notify"), (["--notify", "explicit"], "with explicit"), (["--notify", "no"], "with no")):
        for it in (both, *hosts):
            it.forget()
        host = start([*zones, *words, "--also-notify", f"127.0.0.1@{port + 1}"], port, stderr=subprocess.PIPE, text=True)
        is_told = wait_for(port) and both.has(2, 2)
        want(f"{what} {'no secondary is' if 'no' in words else 'configured ones are'} told", is_told == ("no" not in words) and not any(it.notices for it in hosts))
        host.terminate()
        host.wait(15)
    for it in (both, one, *hosts):
        it.close()
    check = ["--check", *zones]
    faults = {("--notify", "maybe"): "not yes, explicit or no", ("--also-notify", "ns.example.com"): "not ADDRESS[@PORT]", ("--also-notify", "127.0.0.1@0"): "not a port from 1 to 65535",
              ("--also-notify", "127.0.0.1@65536"): "not a port from 1 to 65535", ("--also-notify", "example.net=127.0.0.1"): "there is no zone of this name"}
    for (option, text), says in faults.items():
        want(f"{option} {text} is refused", told([*check, option, text]) == (1, f'zoned: {option}: "{text}": {says}\n'))
    want("an address of IPv6 is taken", told([*check, "--also-notify", "example.com=2001:db8::1@5353"]) == (0, ""))


def try_many(folder, port):
    """A start with many zones: all are told, and queries are answered meanwhile."""
    path = os.path.join(folder, "many.told")
    write_zone(path)
    names = [f"z{i}.example" for i in range(3000)]
    secondary = Secondary(port + 1)
    secondary.socket.setsockopt(socket.SOL_SOCKET, socket.SO_RCVBUF, 4 << 20)
    host = start([word for it in names for word in ("--zone", f"{it}={path}")] + ["--also-notify", f"127.0.0.1@{port + 1}"], port, stderr=subprocess.PIPE, text=True)
    want("a server of 3,000 zones is ready", wait_for(port))
    want("a query is answered meanwhile", udp(query("www.z5.example"), port=port)[-4:] == bytes([192, 0, 2, 1]))
    want("each zone is told", tries.goes_on(lambda: len({it[1][12:30] for it in secondary.notices}) == len(names), 30))
    host.terminate()
    want("it ends", host.wait(15) == 0)
    secondary.close()


NSD = """server:
    ip-address: 127.0.0.1@{port}
    username: ""
    chroot: ""
    zonesdir: "{folder}"
    database: ""
    pidfile: "{folder}/nsd.pid"
    xfrdfile: "{folder}/xfrd.state"
    xfrdir: "{folder}"
    zonelistfile: "{folder}/zone.list"
    logfile: "{folder}/nsd.log"
remote-control:
    control-enable: no
zone:
    name: example.com
    zonefile: "{folder}/nsd.zone"
    allow-notify: 127.0.0.1 NOKEY
    request-xfr: 127.0.0.1@{primary} NOKEY
"""
KNOT = """server:
    rundir: "{folder}"
    listen: 127.0.0.1@{port}
database:
    storage: "{folder}/knot"
log:
  - target: "{folder}/knot.log"
    any: info
remote:
  - id: primary
    address: 127.0.0.1@{primary}
acl:
  - id: notifies
    address: 127.0.0.1
    action: notify
zone:
  - domain: example.com
    storage: "{folder}"
    master: primary
    acl: notifies
"""


def try_follower(folder, port, program, package, text, words):
    """That a secondary of another kind follows updates by notices, though it would look only after an hour."""
    if not install(program, package):
        print(f"note: {program} is not here, and is not tried")
        return
    there = tempfile.mkdtemp(dir=folder)
    path = os.path.join(there, "config")
    with open(path, "w") as it:
        it.write(text.format(port=port + 1, primary=port, folder=there))
    kept = Kept(folder, port)
    kept.words += ["--also-notify", f"127.0.0.1@{port + 1}"]
    want("a primary is ready", kept.start())
    with open(os.path.join(there, "said"), "w") as said:
        other = subprocess.Popen([shutil.which(program), *words, path], stdout=said, stderr=said)
    try:
        want(f"{program} has the zone", tries.goes_on(lambda: has(port + 1, "www.example.com"), 30))
        seconds = []
        for i in range(5):
            kept.update(f"f{i}")
            began = time.monotonic()
            tries.goes_on(lambda: has(port + 1, f"f{i}.dyn.example.com"), FOLLOW + 5)
            seconds.append(time.monotonic() - began)
        want(f"{program} has each of five updates within {FOLLOW} seconds (at most {max(seconds):.2f})", max(seconds) <= FOLLOW)
        want("no notice is refused or given up", "the notice of serial" not in kept.said())
    finally:
        other.terminate()
        try:
            other.wait(15)
        except subprocess.TimeoutExpired:
            other.kill()
        want("it ends", kept.end())


def has(port, name):
    """Whether a server has an address for a name."""
    reply = udp(query(name), 0.3, port)
    return reply is not None and tries.answers(reply) > 0


def main():
    with tempfile.TemporaryDirectory(prefix="zoned-notify-") as folder:
        os.chmod(folder, 0o755)
        try_settings(folder, PORT)
        try_notices(folder, PORT)
        try_many(folder, PORT)
        try_follower(folder, PORT, "nsd", "nsd", NSD, ["-d", "-c"])
        try_follower(folder, PORT, "knotd", "knot", KNOT, ["-c"])


if __name__ == "__main__":
    main()
    print(f"{tries.passed} passed, {tries.failed} failed")
    sys.exit(tries.failed != 0)
