"""NSD, Knot DNS and BIND as secondaries on ports of loopback, each with its file of dist/secondaries."""
import os
import re
import time

import servers

ROOT = os.path.dirname(os.path.dirname(os.path.realpath(__file__)))

COMMANDS = {"nsd": ["nsd", "-d", "-c"], "knot": ["knotd", "-c"], "named": ["named", "-g", "-c"]}


def configuration(kind, primary, port, folder):
    """The text of the file of a kind, with these ports and this folder in the place of its addresses, ports and folders."""
    with open(os.path.join(ROOT, f"dist/secondaries/{kind}.conf")) as it:
        text = it.read()
    text = text.replace("192.0.2.1@53", f"127.0.0.1@{primary}").replace("192.0.2.1 port 53", f"127.0.0.1 port {primary}").replace("192.0.2.1", "127.0.0.1")
    text = text.replace("0.0.0.0@53", f"127.0.0.1@{port}").replace("listen-on port 53 { any; }", f"listen-on port {port} {{ 127.0.0.1; }}")
    text = re.sub(r"/(var/(lib|cache)|run)/(nsd|knot|bind|named)\b", folder, text)
    # (as root, NSD would become the user nsd, who may not write here)
    return text.replace("server:\n", 'server:\n    username: ""\n', 1) if kind == "nsd" else text


def start(running, kind, primary, title=None, change=lambda text: text, words=()):
    """Starts a secondary of this kind and logs it by its title, and returns its port; what its file says is changed first."""
    port, title = servers.free_port(), title or kind
    folder = os.path.join(running.folder, title)
    os.makedirs(folder)
    file = os.path.join(folder, f"{kind}.conf")
    servers.put(file, change(configuration(kind, primary, port, folder)))
    for _ in range(3):
        running.start(title, [*COMMANDS[kind], file, *words])
        time.sleep(1)
        # (NSD 4.6.1 may end so where the machine has much to do)
        if "did not get start signal" not in running.log(title).rpartition("starting")[2]:
            break
    return port


def labels(name):
    return b"".join(bytes([len(it)]) + it.encode() for it in name.split(".")) + b"\0"


def reply_code(port, message, seconds=3):
    """Sends a datagram, and returns the code of its reply, or None where none comes in time."""
    octets = servers.exchange("127.0.0.1", port, message, seconds)
    return octets[3] & 15 if octets else None


def notify(port, name):
    """Sends a NOTIFY (RFC 1996 section 3.7), and returns the code of its reply, or None."""
    return reply_code(port, bytes.fromhex("515124000001000000000000") + labels(name) + bytes.fromhex("00060001"))
