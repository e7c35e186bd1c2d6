"""NSD, Knot DNS and BIND on ports of loopback, each with the same zone files, and messages sent to them."""
import os
import select
import shutil
import socket
import subprocess
import sys
import time

import replies

PACKAGES = {
    "nsd": "nsd", "knotd": "knot", "named": "bind9", "unbound": "unbound", "ip": "iproute2", "dnsperf": "dnsperf", "named-compilezone": "bind9-utils", "kzonecheck": "knot-dnssecutils",
}

# How long a server may take to have its zones, and a reply to come, in seconds.
SECONDS = 20
REPLY_SECONDS = 3

# So many datagrams are under way at a time, so that none is lost to a full socket.
AT_A_TIME = 40

# What zone_serve tells in its mode `lines` in the place of replies.
WORDS = "denied", "response", "unreadable", "bad line"

# What is set otherwise than by default, and not for places alone, is in docs/TESTED.md with its reason; `minimal-responses` and `refuse-any` of NSD and
# `minimal-any` of BIND are as by default, and said because much hangs on them.
NSD = """\
server:
    server-count: 1
    ip-address: {address}@{port}
    do-ip6: no
    username: ""
    chroot: ""
    zonesdir: "{folder}"
    database: ""
    xfrdfile: ""
    zonelistfile: "{folder}/zone.list"
    xfrdir: "{folder}"
    pidfile: "{folder}/nsd.pid"
    rrl-ratelimit: 0
    minimal-responses: no
    refuse-any: no

remote-control:
    control-enable: no
"""
NSD_ZONE = """
zone:
    name: "{name}"
    zonefile: "{file}"
"""

KNOT = """\
server:
    listen: {address}@{port}
    rundir: {folder}
    udp-workers: 1
    tcp-workers: 1
    background-workers: 1

database:
    storage: {folder}

log:
  - target: stderr
    any: warning

template:
  - id: default
    journal-content: none
    zonefile-sync: -1

zone:
"""
KNOT_ZONE = """\
  - domain: "{name}"
    file: "{file}"
"""

BIND = """\
options {{
    directory "{folder}";
    pid-file "{folder}/named.pid";
    session-keyfile "{folder}/session.key";
    listen-on port {port} {{ {address}; }};
    listen-on-v6 {{ none; }};
    recursion no;
    minimal-responses no;
    minimal-any no;
    zero-no-soa-ttl no;
    notify no;
    empty-zones-enable no;
    dnssec-validation no;
    check-names primary ignore;
    check-integrity no;
    check-mx ignore;
    check-mx-cname ignore;
    check-srv-cname ignore;
    check-wildcard no;
}};
controls {{ }};
"""
BIND_ZONE = """
zone "{name}" {{ type primary; file "{file}"; }};
"""

CONFIGURATIONS = {"nsd": (NSD, NSD_ZONE), "knot": (KNOT, KNOT_ZONE), "bind": (BIND, BIND_ZONE)}
COMMANDS = {"nsd": ["nsd", "-d", "-c"], "knot": ["knotd", "-c"], "bind": ["named", "-g", "-n", "1", "-c"]}
NAMES = list(CONFIGURATIONS)


def install(programs):
    """Installs the packages of the programs that lack."""
    os.environ["PATH"] += ":/usr/sbin:/sbin"
    missing = sorted({PACKAGES[it] for it in programs if not shutil.which(it)})
    if missing:
        subprocess.run(["apt-get", "update"], check=True, stdout=sys.stderr)
        words = ["apt-get", "install", "--yes", "--no-install-recommends", *missing]
        subprocess.run(words, check=True, stdout=sys.stderr, env={**os.environ, "DEBIAN_FRONTEND": "noninteractive"})


def is_free(address, port):
    """Whether nothing listens on this port of this address, over UDP and TCP."""
    for kind in (socket.SOCK_DGRAM, socket.SOCK_STREAM):
        with socket.socket(socket.AF_INET, kind) as it:
            try:
                it.bind((address, port))
            except OSError:
                return False
    return True


def free_port(address="127.0.0.1", used=[5600]):
    """A free port, another one at each call."""
    used[0] = next(it for it in range(used[0] + 1, 6000) if is_free(address, it))
    return used[0]


def put(path, text):
    with open(path, "w") as it:
        it.write(text)


class Running:
    """The processes that were started, each of which ends with this script."""

    def __init__(self, folder):
        self.folder, self.started = folder, []

    def start(self, name, words, **more):
        with open(os.path.join(self.folder, f"{name}.log"), "ab") as log:
            self.started.append(subprocess.Popen(words, stdout=log, stderr=log, stdin=subprocess.DEVNULL, cwd=self.folder, **more))

    def stop(self):
        for it in self.started:
            it.terminate()
        for it in self.started:
            try:
                it.wait(10)
            except subprocess.TimeoutExpired:
                it.kill()
                it.wait()

    def log(self, name):
        with open(os.path.join(self.folder, f"{name}.log"), errors="replace") as it:
            return it.read()


def start(running, kind, zones, address="127.0.0.1"):
    """Starts a server of this kind with these zones, names and files, and returns its port."""
    port, folder = free_port(address), os.path.join(running.folder, kind)
    os.makedirs(folder)
    whole, of_zone = CONFIGURATIONS[kind]
    text = whole.format(address=address, port=port, folder=folder) + "".join(of_zone.format(name=name, file=file) for name, file in zones)
    put(os.path.join(folder, f"{kind}.conf"), text)
    running.start(kind, [*COMMANDS[kind], os.path.join(folder, f"{kind}.conf")])
    return port


def exchange(address, port, message, seconds=REPLY_SECONDS):
    """Sends a datagram, and returns its reply, or None where none comes in time."""
    with socket.socket(socket.AF_INET, socket.SOCK_DGRAM) as it:
        it.settimeout(seconds)
        it.connect((address, port))
        try:
            it.send(message)
            return it.recv(65535)
        except OSError:
            return None


def lacking(port, apexes, address="127.0.0.1"):
    """Waits until a server answers for the SOA of each zone, and returns the zones that it lacks at the end."""
    end = time.monotonic() + SECONDS
    apexes = list(apexes)
    while apexes and time.monotonic() < end:
        reply = exchange(address, port, replies.query_bytes(1, apexes[0], replies.SOA), 0.5)
        if reply and reply[3] & 15 == 0 and reply[2] & 4:
            apexes.pop(0)
        elif reply:
            # (one that is there and has not loaded it yet, or refuses its file)
            time.sleep(0.5)
        else:
            time.sleep(0.1)
    return apexes


def ask_over_udp(port, messages):
    """The reply to each message, in order, or None where none came in time even to a second try."""
    found = [None] * len(messages)
    for _ in range(2):
        left = [it for it in range(len(messages)) if found[it] is None]
        ask_some(port, messages, left, found)
    return found


def ask_some(port, messages, places, found):
    """Asks the messages at these places, so many at a time; a reply belongs to the message of its id."""
    with socket.socket(socket.AF_INET, socket.SOCK_DGRAM) as it:
        it.setsockopt(socket.SOL_SOCKET, socket.SO_RCVBUF, 1 << 22)
        it.connect(("127.0.0.1", port))
        for begin in range(0, len(places), AT_A_TIME):
            under_way = {messages[place][:2]: place for place in places[begin : begin + AT_A_TIME]}
            for place in under_way.values():
                it.send(messages[place])
            while under_way and select.select([it], [], [], REPLY_SECONDS)[0]:
                octets = it.recv(65535)
                place = under_way.pop(octets[:2], None)
                if place is not None:
                    found[place] = octets


def read_exactly(stream, count):
    octets = b""
    while len(octets) < count:
        more = stream.recv(count - len(octets))
        if not more:
            raise OSError("the connection ended")
        octets += more
    return octets


def ask_over_tcp(port, messages):
    """The reply to each message, in order, one after the other over connections that stay while the server lets them; None where none came."""
    found, stream = [], None
    for message in messages:
        octets = None
        for _ in range(2):
            try:
                if stream is None:
                    stream = socket.create_connection(("127.0.0.1", port), REPLY_SECONDS)
                stream.sendall(len(message).to_bytes(2, "big") + message)
                octets = read_exactly(stream, int.from_bytes(read_exactly(stream, 2), "big"))
                break
            except OSError:
                stream = stream and stream.close()
        found.append(octets)
    if stream:
        stream.close()
    return found
