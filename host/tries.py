#!/usr/bin/env python3
"""tries.py ZONED [PART..]: tries what zoned does with sockets, clients and signals, and each rule of a server, on loopback, or only parts
that need a folder and a port, as journal_kills, crashes and full_disks. The last line is 'N passed, M failed'. PORT is the first of six
ports that it uses, ZONE_SERVE the zone_serve that it is compared with, unless COMPARED is empty, KILLS how often a zoned with a journal is
killed, and FULL in how many rounds its disk is full."""
import hmac
import importlib.machinery
import os
import random
import re
import resource
import signal
import socket
import subprocess
import sys
import tempfile
import threading
import time

ZONED = os.path.abspath(sys.argv[1])
PORT = int(os.environ.get("PORT", "16351"))
ZONE_SERVE = os.environ.get("ZONE_SERVE", os.path.join(os.path.dirname(os.path.dirname(os.path.abspath(__file__))), "crates/zone_serve/out/zone_serve"))
METRICS = f"127.0.0.1@{PORT + 5}"
SOA_AND_NS = "$TTL 60\n@ IN SOA ns admin 7 3600 1800 604800 86400\n@ IN NS ns\n"
WWW = "www IN A 192.0.2.%d\n"
KILLS, FULL = int(os.environ.get("KILLS", "40")), int(os.environ.get("FULL", "3"))
passed = failed = 0


def query(name, kind=1, i=0x1234, dns_class=1, payload=None, flags=b"\x01\x00"):
    """A query of one question, with an OPT record that offers a payload, if it is given."""
    labels = b"".join(bytes([len(l)]) + l.encode() for l in name.split("."))
    head = i.to_bytes(2, "big") + flags + b"\x00\x01\0\0\0\0" + (b"\0\0" if payload is None else b"\0\1")
    opt = b"" if payload is None else b"\0\0\x29" + payload.to_bytes(2, "big") + b"\0\0\0\0\0\0"
    return head + labels + b"\0" + kind.to_bytes(2, "big") + dns_class.to_bytes(2, "big") + opt


def code(message):
    return message[3] % 16


def answers(message):
    return int.from_bytes(message[6:8], "big")


def is_truncated(message):
    return message[2] & 2 != 0


def frame(message):
    return len(message).to_bytes(2, "big") + message


def udp(message, timeout=2.0, port=PORT, source="127.0.0.1"):
    with socket.socket(socket.AF_INET, socket.SOCK_DGRAM) as s:
        s.bind((source, 0))
        s.settimeout(timeout)
        s.sendto(message, ("127.0.0.1", port))
        try:
            return s.recv(65535)
        except OSError:
            return None


def tcp(port=PORT, source="127.0.0.1"):
    s = socket.create_connection(("127.0.0.1", port), source_address=(source, 0))
    s.settimeout(10)
    return s


def read(stream):
    length = stream.read(2)
    return stream.read(int.from_bytes(length, "big")) if len(length) == 2 else None


def over_tcp(message, source="127.0.0.1", port=PORT):
    with tcp(port, source) as s:
        s.sendall(frame(message))
        return read(s.makefile("rb"))


def want(what, holds):
    global passed, failed
    passed, failed = passed + bool(holds), failed + (not holds)
    print("ok  " if holds else "FAIL", what, flush=True)


def children(pid):
    return [int(c) for c in open(f"/proc/{pid}/task/{pid}/children").read().split()]


def closes(s, within):
    s.settimeout(within)
    try:
        return s.recv(1) == b""
    except ConnectionError:
        return True
    except OSError:
        return False


def resident(pid):
    return int([l for l in open(f"/proc/{pid}/status") if l.startswith("VmRSS")][0].split()[1])


def start(words, port, address="127.0.0.1", **more):
    return subprocess.Popen([ZONED, "--listen", f"{address}@{port}", *words], **more)


def wait_for(port):
    """Waits until the server at a port answers."""
    for _ in range(200):
        if udp(query("www.example.com"), 0.1, port) is not None:
            return True
        time.sleep(0.05)
    return False


def try_clients():
    """What it does with datagrams, streams and connections."""
    want("a datagram is answered", udp(query("www.example.com"))[-4:] == bytes([192, 0, 2, 1]))
    want("a denied address has no reply", udp(query("www.example.com"), 0.3, source="127.0.0.9") is None)
    s = tcp()
    f = s.makefile("rb")
    s.sendall(b"".join(frame(query("www.example.com", 1, i)) for i in range(1000)))
    want("a thousand requests one behind the other", [int.from_bytes(read(f)[:2], "big") for _ in range(1000)] == list(range(1000)))
    for b in frame(query("www.example.com")):
        s.sendall(bytes([b]))
        time.sleep(0.001)
    want("a request byte by byte", read(f)[-4:] == bytes([192, 0, 2, 1]))
    s.sendall(frame(query("example.com", 252)))
    records = 0
    while records < 20004:
        records += answers(read(f))
    want("a transfer of 20,004 records in several replies", records == 20004)
    s.sendall(frame(query("www.example.com")))
    want("and the connection goes on", read(f)[-4:] == bytes([192, 0, 2, 1]))
    s.sendall(frame(query("example.com", 252)))
    s.shutdown(socket.SHUT_WR)
    records = 0
    while reply := read(f):
        records += answers(reply)
    want("a client that sends no more still has its transfer", records == 20004)
    s.close()


def try_connections(worker):
    """Which connections are closed, and what a client that does not read costs."""
    s = tcp()
    s.sendall(frame(bytes(11)))
    want("a stream with no message is closed", closes(s, 1))
    s = tcp()
    begun = time.time()
    want("an idle connection is closed", closes(s, 4) and time.time() - begun > 1.5)
    s, begun, closed = tcp(), time.time(), False
    try:
        for b in frame(query("www.example.com") * 100):
            s.sendall(bytes([b]))
            time.sleep(0.1)
            if time.time() - begun > 6:
                break
    except OSError:
        closed = True
    want("a client that sends a byte at a time is closed", closed and time.time() - begun < 5)
    many = [tcp() for _ in range(21)]
    want("a client has so many connections", closes(many[20], 1))
    many[0].sendall(frame(query("www.example.com")))
    want("and the others go on", many[0].recv(100)[-4:] == bytes([192, 0, 2, 1]))
    for m in many:
        m.close()
    before, s, sent, data = resident(worker), tcp(), 0, frame(query("example.com", 252)) * 50
    s.setblocking(False)
    try:
        for _ in range(50):
            sent += s.send(data)
    except OSError:
        pass
    time.sleep(1.0)
    want(f"a client that does not read holds little for {sent // 31} transfers", resident(worker) - before < 50000)
    want("and others are answered", udp(query("www.example.com")) is not None)
    s.close()


def try_rules():
    """Each rule of a server, over both transports."""
    reply = udp(b"\0" * 2 + b"\1\0\0\1" + b"\xff" * 20)
    want("a datagram of which only the header can be read is FORMERR", reply is not None and code(reply) == 1)
    want("a datagram shorter than a header has no reply", udp(b"\0" * 11, 0.3) is None)
    s = tcp()
    s.sendall(frame(b"\0" * 11))
    want("nor has such a message over TCP", closes(s, 1))
    want("a response has no reply", udp(query("www.example.com", flags=b"\x81\x00"), 0.3) is None)
    s = tcp()
    s.sendall(frame(query("www.example.com", flags=b"\x81\x00")))
    want("nor has one over TCP", closes(s, 1))
    reply = udp(query("large.example.com", 16, payload=4096))
    want("a reply over UDP has at most 1,232 bytes, and TC", 12 < len(reply) <= 1232 and is_truncated(reply))
    reply = udp(query("large.example.com", 16, payload=700))
    want("and no more than the client takes", len(reply) <= 700 and is_truncated(reply))
    reply = udp(query("large.example.com", 16))
    want("which is 512 if it says nothing", len(reply) <= 512 and is_truncated(reply))
    reply = udp(query("large.example.com", 16, payload=4096), port=PORT + 1)
    want("with --max-udp 600 it has at most 600", len(reply) <= 600 and is_truncated(reply))
    reply = over_tcp(query("large.example.com", 16))
    want("and over TCP it is whole", len(reply) > 4000 and not is_truncated(reply))
    reply = udp(query("example.com", 252))
    want("AXFR over UDP is answered with TC and no answers", is_truncated(reply) and answers(reply) == 0 and code(reply) == 0)
    reply = udp(query("example.com", 251))
    want("IXFR over UDP is answered with the SOA alone", not is_truncated(reply) and answers(reply) == 1 and code(reply) == 0)
    reply = over_tcp(query("example.com", 252), "127.0.0.8")
    want("a transfer to an address that may have none is refused", code(reply) == 5 and answers(reply) == 0)
    reply = udp(query("example.com", 252), source="127.0.0.8")
    want("over UDP too", code(reply) == 5 and answers(reply) == 0 and not is_truncated(reply))
    reply = over_tcp(query("example.com", 252), port=PORT + 1)
    want("without an option that allows it nobody has a transfer", code(reply) == 5 and answers(reply) == 0)
    want("that address may ask", answers(udp(query("www.example.com"), source="127.0.0.8")) == 1)
    for dns_class, name in ((3, "CH"), (4, "HS"), (254, "NONE"), (7, "no class")):
        reply = udp(query("www.example.com", dns_class=dns_class))
        want(f"a query of class {name} is refused", code(reply) == 5 and answers(reply) == 0)
    want("one of class ANY is answered", answers(udp(query("www.example.com", dns_class=255))) == 1)
    want("one of class CH over TCP is refused", code(over_tcp(query("www.example.com", dns_class=3))) == 5)


def try_loop():
    """Two servers whose replies are handed to each other: what the first says to a query, the second does not answer."""
    count, message = 0, query("www.example.com")
    for turn in range(10):
        message = udp(message, 0.5, PORT + turn % 2)
        if message is None:
            break
        count += 1
    want("two servers that are handed each other's replies end at the first", count == 1)


def over_http(request):
    """What the port of metrics answers: its status, and the text after its heads."""
    with socket.create_connection(("127.0.0.1", PORT + 5)) as s:
        s.settimeout(5)
        s.sendall(request)
        head, _, text = s.makefile("rb").read().decode().partition("\r\n\r\n")
        return head[9:12], text


def statistics_text():
    return over_http(b"GET /metrics HTTP/1.1\r\nHost: localhost\r\nAccept: text/plain\r\n\r\n")[1]


def statistics():
    """Each counter by the text before it."""
    text = statistics_text()
    return {what: int(count) for what, count in (line.rsplit(" ", 1) for line in text.splitlines() if not line.startswith("# TYPE zoned_"))}


def counts(before, wanted):
    """Whether what was counted since comes to this, and to nothing else. A reply may come before it is counted."""
    for _ in range(50):
        now = statistics()
        grown = {what: count - before[what] for what, count in now.items() if count != before[what]}
        if grown == wanted:
            return True
        time.sleep(0.05)
    print("note: counted", grown)
    return False


def try_statistics(port=PORT, records_wanted=20004):
    """What is counted of each kind of message, in numbers."""
    queries, unanswered, replies = "zoned_queries_total", "zoned_unanswered_total", "zoned_replies_total"
    received, sent = "zoned_received_bytes_total", "zoned_sent_bytes_total"
    before, message = statistics(), query("www.example.com")
    want("statistics have a line for each of 27 numbers", len(before) == 27)
    reply = udp(message, port=port)
    want("a datagram and its reply are counted", counts(before, {f'{queries}{{transport="udp"}}': 1, received: len(message), f'{replies}{{code="NOERROR"}}': 1, sent: len(reply)}))
    before, message = statistics(), query("no.example.com")
    with tcp(port) as s:
        f = s.makefile("rb")
        s.sendall(3 * frame(message))
        size = sum(len(read(f)) for _ in range(3))
    want("so are messages of a connection, by their codes", counts(before, {f'{queries}{{transport="tcp"}}': 3, received: 3 * len(message), f'{replies}{{code="NXDOMAIN"}}': 3, sent: size}))
    before, message = statistics(), query("www.example.com", dns_class=3)
    reply = udp(message, port=port)
    want("REFUSED is counted", counts(before, {f'{queries}{{transport="udp"}}': 1, received: len(message), f'{replies}{{code="REFUSED"}}': 1, sent: len(reply)}))
    before, message = statistics(), query("large.example.com", 16)
    reply = udp(message, port=port)
    want("so is a reply that is truncated", counts(before, {f'{queries}{{transport="udp"}}': 1, received: len(message), f'{replies}{{code="NOERROR"}}': 1, "zoned_truncated_total": 1, sent: len(reply)}))
    for what, message, source in (("denied", query("www.example.com"), "127.0.0.9"), ("response", query("www.example.com", flags=b"\x81\x00"), "127.0.0.1"), ("unreadable", b"\0" * 11, "127.0.0.1")):
        before = statistics()
        udp(message, 0.2, source=source, port=port)
        want(f"a message without a reply is counted as {what}", counts(before, {f'{queries}{{transport="udp"}}': 1, received: len(message), f'{unanswered}{{reason="{what}"}}': 1}))
    before, records = statistics(), 0
    with tcp(port) as s:
        s.sendall(frame(query("example.com", 252)))
        f, replies_sent, size = s.makefile("rb"), 0, 0
        while records < records_wanted:
            reply = read(f)
            records, replies_sent, size = records + answers(reply), replies_sent + 1, size + len(reply)
    want("each reply of a transfer is counted", counts(before, {f'{queries}{{transport="tcp"}}': 1, received: len(query("example.com", 252)), f'{replies}{{code="NOERROR"}}': replies_sent, sent: size}))


def try_metrics():
    """Requests over HTTP: only one is answered with the counters, and none keeps a connection."""
    ok, text = over_http(b"GET /metrics HTTP/1.0\n")
    want("the first line of a request is enough", ok == "200" and text.startswith("# TYPE zoned_queries_total counter\n"))
    for line, wanted in (("GET / HTTP/1.1", "404"), ("GET /metricsx HTTP/1.1", "404"), ("POST /metrics HTTP/1.1", "405"), ("HEAD /metrics HTTP/1.1", "405"), ("\0" * 5000, "400")):
        want(f"{line[:22].strip(chr(0))} is answered {wanted}", over_http(line.encode() + b"\r\n\r\n") == (wanted, ""))
    want("half a line is answered 400", over_http(b"GET /met") == ("400", ""))
    began, many = time.time(), [socket.create_connection(("127.0.0.1", PORT + 5)) for _ in range(8)]
    want("a client that sends nothing is closed", all(closes(it, 10) for it in many))
    want("others are answered meanwhile", udp(query("www.example.com")) is not None and time.time() - began < 10)
    for it in many:
        it.close()


def try_workers(zone, port, path):
    """That all workers are counted together, and that none is forgotten."""
    host = start(["--zone", f"example.com={zone}", "--workers", "3", "--metrics", METRICS, "--tcp-idle", "1"], port)
    want("three workers start", wait_for(port))
    # (a worker counts behind its reply, so what answered just now may not stand there yet)
    time.sleep(0.5)
    before = statistics()
    for _ in range(60):
        udp(query("www.example.com"), port=port)
    message = query("www.example.com")
    grown = {'zoned_queries_total{transport="udp"}': 60, "zoned_received_bytes_total": 60 * len(message), 'zoned_replies_total{code="NOERROR"}': 60, "zoned_sent_bytes_total": 60 * len(udp(message, port=port))}
    grown = {what: count // 60 * 61 for what, count in grown.items()}
    want("what they count is told together", counts(before, grown))
    before = statistics()
    for worker in children(host.pid):
        os.kill(worker, signal.SIGKILL)
        time.sleep(0.1)
    host.send_signal(signal.SIGHUP)
    time.sleep(4)
    want("and stays when workers end and files are read anew", counts(before, {}))
    with tcp(port) as s:
        s.sendall(frame(query("www.example.com")))
        s.recv(512)
        begun = time.time()
        host.terminate()
        want("they end at once though a connection stays open to which nothing is to be sent", host.wait(15) == 0 and time.time() - begun < 2)
    open(path, "w").write("kept")
    want("a file is not replaced by a socket", status(["--listen", f"127.0.0.1@{port}", "--zone", f"example.com={zone}", "--control", path]) == 1 and open(path).read() == "kept")


def try_limits(zone, port):
    """That a network gets so many replies over UDP a second, and of those above it every second one says TC."""
    host = start(["--zone", f"example.com={zone}", "--rate-limit", "5", "--rate-slip", "2", "--metrics", METRICS], port)
    want("a server with limits starts", wait_for(port))
    with socket.socket(socket.AF_INET, socket.SOCK_DGRAM) as s:
        s.connect(("127.0.0.1", port))
        s.settimeout(0.3)
        message, replies = query("www.example.com"), []
        # within one second of the clock
        time.sleep(1.05 - time.time() % 1)
        before = statistics()
        for _ in range(15):
            s.send(message)
        try:
            while True:
                replies.append(s.recv(512))
        except OSError:
            pass
    whole = [reply for reply in replies if not is_truncated(reply)]
    want("a network gets so many replies a second", len(whole) == 5 and all(reply[-4:] == bytes([192, 0, 2, 1]) for reply in whole))
    short = [reply for reply in replies if is_truncated(reply)]
    want("every second one above that says TC, with the question alone", len(short) == 5 and all(reply[:2] == message[:2] and reply[4:] == message[4:] and answers(reply) == 0 for reply in short))
    now = statistics()
    kept = 'zoned_unanswered_total{reason="limited"}'
    want("and the others are counted as kept back", now[kept] - before[kept] == 5 and now["zoned_truncated_total"] - before["zoned_truncated_total"] == 5)
    time.sleep(1.05 - time.time() % 1)
    for _ in range(8):
        udp(message, 0.05, port)
    want("another network has replies of its own", udp(message, 0.5, port, source="127.0.1.1")[-4:] == bytes([192, 0, 2, 1]))
    with tcp(port) as s, s.makefile("rb") as f:
        s.sendall(20 * frame(message))
        want("over TCP there is no limit", all(read(f)[-4:] == bytes([192, 0, 2, 1]) for _ in range(20)))
    host.terminate()
    want("and it ends", host.wait(15) == 0)


def try_signals(host, notified, zone):
    """Reload, a worker that ends, and the end."""
    open(zone, "w").write(SOA_AND_NS + WWW % 2)
    host.send_signal(signal.SIGHUP)
    want("systemd is told of a reload", notified.recv(100).startswith(b"RELOADING=1") and notified.recv(100) == b"STATUS=\nREADY=1\n")
    time.sleep(0.3)
    want("a changed zone is served", udp(query("www.example.com"))[-4:] == bytes([192, 0, 2, 2]))
    open(zone, "w").write("nonsense")
    host.send_signal(signal.SIGHUP)
    notified.recv(100)
    want("and why a file was not taken", notified.recv(1000).startswith(f"STATUS=refused zone files: 1 of 1; the first: {zone}:1:9: ".encode()))
    want("its zone is served as before", udp(query("www.example.com"))[-4:] == bytes([192, 0, 2, 2]))
    os.kill(children(host.pid)[-1], signal.SIGKILL)
    time.sleep(1.8)
    want("a worker that is killed is begun again", udp(query("www.example.com"))[-4:] == bytes([192, 0, 2, 2]))
    host.send_signal(signal.SIGTERM)
    want("systemd is told of the end", notified.recv(100) == b"STOPPING=1\n")
    want("it ends", host.wait(5) == 0)


def status(words):
    return subprocess.run([ZONED, *words], stdout=subprocess.DEVNULL, stderr=subprocess.DEVNULL).returncode


def try_privileges(zone, port):
    """That it is somebody else once its sockets are open. Only root may become so."""
    if os.geteuid() != 0:
        print("note: not root, so --user is not tried")
        return
    host = start(["--zone", f"example.com={zone}", "--user", "nobody", "--workers", "2"], port)
    want("it starts as nobody", wait_for(port) and goes_on(lambda: len(children(host.pid)) == 2, 5))
    for pid in (host.pid, *children(host.pid)):
        told = dict(l.split(":\t", 1) for l in open(f"/proc/{pid}/status") if ":\t" in l)
        want("a process is nobody, in no other group, and may become nobody else", "0" not in told["Uid"].split() + told["Gid"].split() + told["Groups"].split() and told["NoNewPrivs"] == "1\n")
    want("it has two workers", len(children(host.pid)) == 2)
    host.terminate()
    want("and ends", host.wait(15) == 0)


def try_wildcards(zone, port):
    """That a reply comes from the address that was asked, also where it listens at every one."""
    host = start(["--listen", f"::@{port}", "--zone", f"example.com={zone}"], port, address="0.0.0.0")
    want("it listens at every address", wait_for(port))
    for family, address in ((socket.AF_INET, "127.0.0.2"), (socket.AF_INET6, "::1")):
        with socket.socket(family, socket.SOCK_DGRAM) as s:
            s.settimeout(2)
            s.connect((address, port))
            try:
                s.send(query("www.example.com"))
                want(f"and {address} answers as that address", s.recv(512)[-4:] == bytes([192, 0, 2, 1]))
            except OSError as e:
                want(f"and {address} answers as that address ({e})", False)
    host.terminate()
    want("and ends", host.wait(15) == 0)


def has_ipv6():
    try:
        with socket.create_server(("::1", 0), family=socket.AF_INET6):
            return True
    except OSError:
        return False


def try_same(zone):
    """What zone_serve answers, byte for byte: it has the same rules and zones, and other code around them."""
    if os.environ.get("COMPARED") == "" or not os.path.exists(ZONE_SERVE):
        print("note: nothing is compared with zone_serve in this run")
        return
    names = ["www.example.com", "WWW.example.COM", "example.com", "no.example.com", "h1.example.com", "large.example.com", "other.org", "a.b.c.example.com"]
    messages = [query(n, k, payload=p) for n in names for k in (1, 2, 6, 16, 28, 255) for p in (None, 4096)]
    messages += [query("example.com", 251), query("www.example.com", flags=b"\x29\x00"), query("www.example.com", flags=b"\x11\x00"), query("www.example.com", dns_class=3)]
    messages += [query("www.example.com") + b"\0", query("www.example.com")[:-3], b"\x12\x34" + bytes(10), query("example.com", 41)]

    def serve(word, data):
        return subprocess.run([ZONE_SERVE, "--zone", f"example.com={zone}", "--allow-transfer", "127.0.0.1", word], input=data, stdout=subprocess.PIPE, stderr=subprocess.DEVNULL).stdout

    want(f"{len(messages)} datagrams are answered as by zone_serve", all((udp(m, 0.3) or b"") == serve("udp", m) for m in messages))
    answered = [m for m in messages if udp(m, 0.3) is not None]
    wanted = serve("tcp", b"".join(map(frame, answered)))
    with tcp() as s:
        s.sendall(b"".join(frame(m) for m in answered))
        # (that for IXFR has several replies)
        replies = s.makefile("rb").read(len(wanted))
    want(f"and {len(answered)} messages of a connection", replies == wanted)


def try_joined(folder, port):
    """Two zones, one below the other, and a list of blocked names of which lines are skipped."""
    above, below, names = (os.path.join(folder, name) for name in ("above", "below", "names"))
    open(above, "w").write(SOA_AND_NS + f"sub IN NS ns.sub\nsub IN DS 1 8 2 {'ab' * 32}\n")
    open(below, "w").write(SOA_AND_NS + WWW % 9)
    open(names, "w").write("<html>\nbad.sub.example.com\n<p>\n")
    words = ["--zone", f"sub.example.com={below}", "--zone", f"example.com={above}", "--blocklist", names]
    host = start(words, port, stderr=subprocess.PIPE, text=True)
    for _ in range(100):
        if (reply := udp(query("sub.example.com", 43), 0.1, port)) is not None:
            break
    want("the DS records of a zone are answered by the one above it", reply is not None and code(reply) == 0 and answers(reply) == 1 and b"\xab" * 32 in reply)
    want("and all else of it by itself", udp(query("www.sub.example.com"), port=port)[-4:] == bytes([192, 0, 2, 9]))
    want("a blocked name is 0.0.0.0", udp(query("bad.sub.example.com"), port=port)[-4:] == bytes(4))
    host.terminate()
    told = host.communicate(timeout=15)[1]
    want("lines of a list that give no name are told", f"zoned: {names}: 2 lines skipped, which give no name: 1, 3\n" in told)


SECRET = bytes(range(32))
KEYS = "key \"one.example\" { algorithm hmac-sha256; secret \"AAECAwQFBgcICQoLDA0ODxAREhMUFRYXGBkaGxwdHh8=\"; };\n"


def wire(name):
    return b"".join(bytes([len(l)]) + l.encode() for l in name.split(".")) + b"\0"


def signed(message, secret=SECRET):
    """The message with a TSIG record of the key (RFC 8945 section 4.2)."""
    name, algorithm, now = wire("one.example"), wire("hmac-sha256"), int(time.time()).to_bytes(6, "big") + b"\x01\x2c"
    mac = hmac.new(secret, message + name + b"\0\xff" + bytes(4) + algorithm + now + bytes(4), "sha256").digest()
    rdata = algorithm + now + b"\0\x20" + mac + message[:2] + bytes(4)
    record = name + b"\0\xfa\0\xff" + bytes(4) + len(rdata).to_bytes(2, "big") + rdata
    return message[:10] + (int.from_bytes(message[10:12], "big") + 1).to_bytes(2, "big") + message[12:] + record


def update(name, last):
    """An update that adds an address to a name of example.com (RFC 2136)."""
    head = b"\x12\x34\x28\x00\0\x01\0\0\0\x01\0\0" + wire("example.com") + b"\0\x06\0\x01"
    return head + wire(name) + b"\0\x01\0\x01\0\0\0\x3c\0\x04" + bytes([192, 0, 2, last])


def has_signature(message):
    return message[10:12] == b"\0\x01" and wire("hmac-sha256") in message


def try_keys(folder, zone, port):
    """Keys and updates: who may, who may not, and what is seen of an update."""
    keys, config = os.path.join(folder, "keys"), os.path.join(folder, "keys.toml")
    open(keys, "w").write(KEYS)
    with open(config, "w") as it:
        it.write(f'listen = "127.0.0.1@{port}"\nkeys = "{keys}"\nallow-transfer-key = "one.example"\n[[zone]]\nname = "example.com"\nfile = "{zone}"\n')
        it.write('[[zone.update]]\nkey = "one.example"\nrule = "subdomain dyn.example.com"\ntypes = ["A"]\n')
    host = subprocess.Popen([ZONED, "--config", config], stderr=subprocess.PIPE, text=True)
    want("a server with keys and rules is ready", wait_for(port))

    def ask(message):
        with tcp(port) as s:
            s.sendall(frame(message))
            return read(s.makefile("rb"))

    reply = udp(update("a.dyn.example.com", 7), port=port)
    want("an update without a signature is refused", code(reply) == 5 and answers(udp(query("a.dyn.example.com"), port=port)) == 0)
    reply = udp(signed(update("a.dyn.example.com", 7), bytes(32)), port=port)
    want("one with another secret too, as NOTAUTH", code(reply) == 9 and answers(udp(query("a.dyn.example.com"), port=port)) == 0)
    reply = udp(signed(update("www.example.com", 8)), port=port)
    want("one outside the rule is refused, and its reply is signed", code(reply) == 5 and has_signature(reply))
    reply = udp(signed(update("a.dyn.example.com", 7)), port=port)
    want("one that the rule grants is made, and its reply is signed", code(reply) == 0 and has_signature(reply))
    want("the next query sees it", udp(query("a.dyn.example.com"), port=port)[-4:] == bytes([192, 0, 2, 7]))
    want("and one over TCP", ask(query("a.dyn.example.com"))[-4:] == bytes([192, 0, 2, 7]))
    want("what is made over TCP is seen over UDP", code(ask(signed(update("b.dyn.example.com", 9)))) == 0 and udp(query("b.dyn.example.com"), port=port)[-4:] == bytes([192, 0, 2, 9]))
    want("a signed query has a signed reply", has_signature(udp(signed(query("www.example.com")), port=port)))
    want("a transfer without a signature is refused", code(ask(query("example.com", 252))) == 5)
    reply = ask(signed(query("example.com", 252)))
    want("one that the key signed is given", code(reply) == 0 and answers(reply) >= 6 and has_signature(reply))
    with tcp(port) as old:
        old.sendall(frame(query("a.dyn.example.com")))
        read(old.makefile("rb"))
        host.send_signal(signal.SIGHUP)
        want("a reload ends connections to the zone before it", closes(old, 3))
    want("and forgets updates", wait_for(port) and code(udp(query("a.dyn.example.com"), port=port)) == 3)
    host.terminate()
    said = host.communicate(timeout=15)[1]
    want("that they are forgotten is told, and no secret", "updates are lost" in said and "AAECAw" not in said)
    zones = ["--zone", f"example.com={zone}", "--keys", keys]
    want("rules and several workers are refused", told(["--listen", f"127.0.0.1@{port}", *zones, "--allow-update", "example.com=one.example", "--workers", "2"])[0] == 2)
    faults = {
        "a rule of no zone": ("example.org=one.example", "zoned: --allow-update: rule 1 of who may update is for a zone that is not served\n"),
        "a rule of no key": ("example.com=two.example", 'zoned: --allow-update: "example.com=two.example": there is no key of this name\n'),
        "a rule of no type": ("example.com=one.example zone NONE", 'zoned: --allow-update: "example.com=one.example zone NONE": unknown type\n'),
    }
    for what, (rule, says) in faults.items():
        status_is, said = told(["--check", *zones, "--allow-update", rule])
        want(f"{what} is told", status_is == 1 and said.endswith(says))
    open(keys, "w").write(KEYS.replace("AAECAw", "!!"))
    status_is, said = told(["--check", *zones])
    want("a bad file of keys is told, and nothing of its secret", status_is == 1 and said.startswith(f"zoned: {keys}:1: ") and "BAUG" not in said)
    with open(config, "a") as it:
        it.write('tipes = ["AAAA"]\n')
    lines = open(config).read().count("\n")
    want("a wrong key of a rule is told with its line", told(["--config", config, "--check"])[1].startswith(f'zoned: {config}:{lines}: "zone" must be '))


def try_zone_transfers(folder, port):
    """Who may transfer which zone: by its own rules, or without any by those for all zones."""
    keys, config, one, two = (os.path.join(folder, it) for it in ("transfer_keys", "transfers.toml", "one.zone", "two.zone"))
    open(keys, "w").write(KEYS)
    for it in (one, two):
        open(it, "w").write(SOA_AND_NS + WWW % 1)
    zones = ["--zone", f"example.com={one}", "--zone", f"example.net={two}", "--keys", keys]

    def ask(name, source, kind=252, sign=False):
        message = query(name, kind)
        return over_tcp(signed(message) if sign else message, f"127.0.0.{source}", port)

    def who(sign=False):
        """From which of two addresses each zone may be transferred: those of example.com, and those of example.net."""
        given = [[it for it in (1, 2) if answers(ask(name, it, sign=sign)) == 4] for name in ("example.com", "example.net")]
        refused = [[it for it in (1, 2) if code(ask(name, it, sign=sign)) == 5] for name in ("example.com", "example.net")]
        return given if all(sorted(a + b) == [1, 2] for a, b in zip(given, refused)) else None

    def tried(words):
        host = start([*zones, *words], port)
        ready = wait_for(port)
        found = (who(), who(sign=True), code(ask("example.net", 1, 251)), code(ask("www.example.net", 1)), code(ask("www.example.net", 2))) if ready else None
        host.terminate()
        host.wait(15)
        return found

    a, b, key = ["--allow-transfer", "127.0.0.1"], ["--allow-transfer", "Example.NET.=127.0.0.2"], "--allow-transfer-key"
    want("a zone with a rule of its own is transferred by that alone, and another by those for all", tried([*b, *a]) == ([[1], [2]], [[1], [2]], 5, 9, 5))
    want("the key for all zones is for the others", tried([*b, key, "one.example"]) == ([[], [2]], [[1, 2], [2]], 5, 5, 5))
    want("a key for a zone is for no other, and closes it to the networks for all", tried([*a, key, "example.net=one.example"]) == ([[1], []], [[1], [1, 2]], 5, 9, 5))
    part = ["--allow-transfer", "127.0.0.0/8", "--deny-transfer", "127.0.0.2", "--allow-transfer", "example.net=127.0.0.0/8", "--deny-transfer", "example.net=127.0.0.1"]
    want("a network of a zone that may not is for no other", tried(part) == ([[1], [2]], [[1], [2]], 5, 9, 5))
    want("a zone that only denies is given to nobody", tried(["--allow-transfer", "127.0.0.0/8", "--deny-transfer", "example.net=127.0.0.1"])[0] == [[1, 2], []])
    with open(config, "w") as it:
        it.write(f'listen = "127.0.0.1@{port}"\nkeys = "{keys}"\nallow-transfer = "127.0.0.1"\n[[zone]]\nname = "example.com"\nfile = "{one}"\n')
        it.write(f'[[zone]]\nname = "example.net"\nfile = "{two}"\nallow-transfer = ["127.0.0.0/8", "192.0.2.0/24"]\ndeny-transfer = "127.0.0.1"\nallow-transfer-key = "one.example"\n')
    host = subprocess.Popen([ZONED, "--config", config])
    want("rules of a zone in its table", wait_for(port) and (who(), who(sign=True)) == ([[1], [2]], [[1], [1, 2]]))
    text = open(config).read()
    open(config, "w").write(text + "deny-transfers = 1\n")
    want("another key there is told with its line", told(["--config", config, "--check"])[1].startswith(f'zoned: {config}:13: "zone" must be '))
    open(config, "w").write(text.replace('= "127.0.0.1"\nallow-transfer-key', '= "127.0.0.2"\nallow-transfer-key'))
    host.send_signal(signal.SIGHUP)
    time.sleep(0.7)
    want("a reload changes them", wait_for(port) and who() == [[1], [1]])
    host.terminate()
    want("and it ends", host.wait(15) == 0)
    faults = {
        "a zone that is not served": ("--allow-transfer", "example.org=127.0.0.1", "there is no zone of this name"),
        "what is no name of a zone": ("--deny-transfer", "a..b=127.0.0.1", "not the name of a zone"),
        "a network that is none": ("--deny-transfer", "example.net=127.0.0.1/33", "the prefix is longer than the address"),
        "a key that is not there": (key, "example.net=two.example", "there is no key of this name"),
        "a key for a zone that is not served": (key, "example.org=one.example", "there is no zone of this name"),
    }
    for what, (option, word, says) in faults.items():
        want(f"{what} is told, with option and word", told(["--check", *zones, option, word]) == (1, f'zoned: {option}: "{word}": {says}\n'))


class Kept:
    """A server of example.com that keeps updates in a journal, in a new folder."""

    def __init__(self, folder, port, limit=None, stops=None):
        """limit is of its files, in bytes; stops is called with the journal when all are killed."""
        self.folder, self.port, self.limit, self.stops = tempfile.mkdtemp(dir=folder), port, limit, stops
        self.zone, self.keys, self.journal = (os.path.join(self.folder, name) for name in ("zone", "keys", "journal"))
        self.log = os.path.join(self.folder, "log")
        open(self.zone, "w").write(SOA_AND_NS + WWW % 1)
        open(self.keys, "w").write(KEYS)
        self.words = ["--zone", f"example.com={self.zone}", "--keys", self.keys, "--allow-update", "example.com=one.example subdomain dyn.example.com A"]
        self.words += ["--allow-transfer", "127.0.0.1", "--journal", f"example.com={self.journal}"]
        self.host = None

    def start(self, waits=True):
        """Starts it, and waits until it answers."""
        limits = None if self.limit is None else lambda: resource.setrlimit(resource.RLIMIT_FSIZE, (self.limit, resource.RLIM_INFINITY))
        environment = {**os.environ, **(self.stops.environment if self.stops else {})}
        with open(self.log, "a") as log:
            self.host = start(self.words, self.port, stderr=log, preexec_fn=limits, env=environment)
        return not waits or wait_for(self.port)

    def worker(self):
        return max(children(self.host.pid))

    def kill(self, what, stop=None):
        """Kills the worker, or all with their parent; waits until there are others that answer. Clients stop by the event, after the kill."""
        pids = children(self.host.pid)
        if what == "all":
            self.host.kill()
        for it in pids:
            try:
                os.kill(it, signal.SIGKILL)
            except ProcessLookupError:
                pass
        if stop:
            stop.set()
        if what == "all":
            self.host.wait()
        while any(os.path.exists(f"/proc/{it}") for it in pids):
            time.sleep(0.01)
        if what != "all":
            return wait_for(self.port)
        if self.stops:
            self.stops(self.journal)
        return self.start()

    def reload(self):
        """Has it read its files again, and waits until it answers."""
        before = children(self.host.pid)
        self.host.send_signal(signal.SIGHUP)
        for _ in range(500):
            if not set(before) & set(children(self.host.pid)):
                break
            time.sleep(0.01)
        return wait_for(self.port)

    def end(self):
        """Whether it ends, and all of its children with it."""
        pids = children(self.host.pid)
        self.host.terminate()
        return self.host.wait(15) == 0 and not any(os.path.exists(f"/proc/{it}") for it in pids)

    def said(self):
        return open(self.log).read()

    def says(self, text, times=1):
        """How often it has said this, within two seconds or once it has so often."""
        for _ in range(100):
            if self.said().count(text) >= times:
                break
            time.sleep(0.02)
        return self.said().count(text)

    def not_written(self, path=None, end=""):
        """What it says if a file of the journal cannot be written."""
        return f"zoned: {path or self.journal}{end}: the journal is not written, and its zone takes no updates until all files are read again"

    def update(self, label, last=7):
        """The code of the reply to a signed update over UDP, or None."""
        reply = udp(signed(update(f"{label}.dyn.example.com", last)), port=self.port)
        return reply and code(reply)

    def has(self, labels):
        """Of names below dyn.example.com, those that are there."""
        labels = sorted(labels)
        with tcp(self.port) as s:
            sender = threading.Thread(target=s.sendall, args=(b"".join(frame(query(f"{it}.dyn.example.com")) for it in labels),))
            sender.start()
            f = s.makefile("rb")
            found = {it for it in labels if answers(read(f)) > 0}
            sender.join()
        return found

    def serial(self):
        reply = udp(query("example.com", 6), port=self.port)
        return int.from_bytes(reply[-20:-16], "big")


def writes(pid):
    """How often a process has written."""
    return int([l for l in open(f"/proc/{pid}/io") if l.startswith("syscw")][0].split()[1])


def try_journal(folder, port):
    """Updates that were acknowledged are there, whatever ended the worker, or all."""
    kept = Kept(folder, port)
    path = os.path.join(kept.folder, "queries")
    kept.words += ["--query-log", path, "--rate-limit", "100000"]
    want("a server with a journal is ready, and made its files, for its user only", kept.start() and all(os.stat(kept.journal + it).st_mode & 0o777 == 0o600 for it in ("", "-wal")))
    want("by one process below it", len(children(kept.host.pid)) == 1)
    want("an update over UDP is acknowledged", kept.update("udp") == 0)
    with tcp(port) as s:
        s.sendall(b"".join(frame(signed(update(f"p{i}.dyn.example.com", i))) for i in range(50)))
        f = s.makefile("rb")
        codes = [code(read(f)) for _ in range(50)]
        s.sendall(frame(query("p49.dyn.example.com")))
        want("so are fifty in one segment over TCP, and the connection sees them", codes == [0] * 50 and read(f)[-4:] == bytes([192, 0, 2, 49]))
    made = {"udp", *(f"p{i}" for i in range(50))}
    want("one without a signature is refused", code(udp(update("unsigned.dyn.example.com", 7), port=port)) == 5)
    with tcp(port) as s:
        s.sendall(frame(query("example.com", 251)[:8] + b"\0\1\0\0" + query("example.com", 251)[12:] + wire("example.com") + b"\0\6\0\1\0\0\0\0\0\x16" + b"\0\0" + (7).to_bytes(4, "big") + bytes(16)))
        want("who asks for what changed (IXFR) is given each change", answers(read(s.makefile("rb"))) == 2 + 3 * len(made))
    serial = kept.serial()
    want("the serial counts each", serial == 7 + len(made))
    want("a query log beside a journal has its lines", goes_on(lambda: len(open(path).readlines()) >= 50, 3))
    for what in ("worker", "all"):
        is_there = kept.kill(what)
        want(f"what was acknowledged is there after a kill ({what}), and nothing else", is_there and kept.has(made | {"unsigned"}) == made and kept.serial() == serial)
    want("what ended is reported", kept.said().count("zoned: worker 0 ended\n") == 1)
    before = writes(kept.worker())
    want("and it goes on", all(kept.update("later", last) == 0 for last in range(20)))
    count = writes(kept.worker()) - before
    want(f"by a few writes for each update, however many were before ({count} for 20)", 20 <= count <= 80)
    want("all is there after a reload", kept.reload() and kept.has(made | {"later"}) == made | {"later"})
    open(kept.zone, "w").write((SOA_AND_NS + WWW % 99).replace(" 7 3600", " 999 3600"))
    want("the journal counts, and not a zone file that was changed", kept.reload() and udp(query("www.example.com"), port=port)[-4:] == bytes([192, 0, 2, 1]))
    want("which is reported with both serials", f"zoned: {kept.journal}: the journal counts, with serial {serial + 20}, and not the zone file, with serial 999\n" in kept.said())
    want("and updates go on", kept.update("reloaded") == 0)
    with tcp(port) as old:
        old.sendall(frame(query("p1.dyn.example.com")))
        read(old.makefile("rb"))
        kept.host.send_signal(signal.SIGHUP)
        want("a reload ends connections to the process before it", closes(old, 3) and wait_for(port))
    open(kept.zone, "w").write("nonsense")
    want("a bad zone file is not taken, and the zone goes on", kept.reload() and kept.has({"reloaded"}) == {"reloaded"})
    open(kept.zone, "w").write(SOA_AND_NS)
    with tcp(port) as s:
        s.sendall(frame(query("p2.dyn.example.com")))
        read(s.makefile("rb"))
        want("it ends though a connection stays open", kept.end())
    want("all is there at the next start", kept.start() and kept.has(made | {"later", "reloaded"}) == made | {"later", "reloaded"} and kept.serial() == serial + 21)
    want("it ends again, and no process found the lock of another", kept.end() and "has this journal" not in kept.said())


def try_journal_clients(folder, port):
    """Long messages, large transfers and messages without a reply, while replies wait for a disk."""
    kept = Kept(folder, port)
    records = "".join(f'h{i} IN TXT "{"x" * 200}"\n' for i in range(20000))
    large = "".join(f'large IN TXT "{i:03}{"x" * 250}"\n' for i in range(240))
    open(kept.zone, "w").write(SOA_AND_NS + WWW % 1 + records + large)
    kept.words += ["--deny", "127.0.0.9", "--allow-transfer", "127.0.0.0/8", "--deny-transfer", "127.0.0.8", "--max-udp", "700", "--nsid", "here", "--metrics", METRICS]
    want("a large zone with a journal is ready", kept.start())
    with tcp(port) as s:
        f = s.makefile("rb")
        for number in range(2):
            s.sendall(frame(query("example.com", 252)) + frame(signed(update(f"t{number}.dyn.example.com", 7))) + frame(query("www.example.com")))
            count = 0
            while count < 20244 + number:
                count += answers(read(f))
            want(f"a transfer of {count} records in several replies, an update and a query after it", count == 20244 + number and code(read(f)) == 0 and read(f)[-4:] == bytes([192, 0, 2, 1]))
        s.sendall(frame(query("large.example.com", 16)))
        reply = read(f)
        want("a reply of 60,000 bytes and more", len(reply) > 60000 and answers(reply) == 240)
        long = query("www.example.com")[:10] + b"\0\1" + query("www.example.com")[12:] + b"\0\0\x29\x10\0\0\0\0\0"
        rest = 65535 - len(long) - 2
        long += rest.to_bytes(2, "big") + b"\xfd\xe9" + (rest - 4).to_bytes(2, "big") + bytes(rest - 4)
        s.sendall(frame(long) + frame(query("www.example.com", i=0x4321)))
        first, second = read(f), read(f)
        want("a message of 65,535 bytes, and one after it", len(long) == 65535 and code(first) == 0 and answers(first) == 1 and second[:2] == b"\x43\x21")
        s.sendall(b"".join(frame(query("www.example.com", 1, i)) for i in range(1000)))
        want("a thousand messages one after the other", [int.from_bytes(read(f)[:2], "big") for _ in range(1000)] == list(range(1000)))
    with tcp(port) as s:
        s.sendall(frame(query("example.com", 252)) * 3)
        s.recv(1000)
    want("a client that goes away in the middle of a transfer", answers(udp(query("www.example.com"), port=port)) == 1)
    with tcp(port) as s:
        s.sendall(frame(signed(update("last.dyn.example.com", 7))) + frame(bytes(11)))
        want("an update before what is no message is on the disk and answered", code(read(s.makefile("rb"))) == 0 and kept.has({"last"}) == {"last"})
    want("and each update is there after a kill of all", kept.kill("all") and kept.has({"t0", "t1", "last"}) == {"t0", "t1", "last"})
    try_statistics(port, 20247)
    want("it did all that by the process that it began with, and ends", "ended" not in kept.said() and kept.end())


def try_one_writer(folder, port):
    """Another process at the journal, another zone at it, and files that are no journal."""
    kept = Kept(folder, port)
    want("--check makes no journal", status(["--check", *kept.words]) == 0 and not os.path.exists(kept.journal))
    kept.start()
    kept.update("first")
    second = told(["--listen", f"127.0.0.1@{port - 1}", *kept.words])
    want("a second server at a journal ends, and says why", second == (1, f"zoned: {kept.journal}: another process or zone has this journal\n"))
    if os.path.exists(ZONE_SERVE):
        words = [ZONE_SERVE, *kept.words, "lines"]
        third = subprocess.run(words, input="", stdout=subprocess.DEVNULL, stderr=subprocess.PIPE, text=True)
        want("so does a zone_serve", third.returncode != 0 and "the journal is in use" in third.stderr)
    want("--check says nothing of the journal of a server that runs", told(["--check", *kept.words])[0] == 0)
    want("and the first goes on", kept.update("second") == 0 and kept.has({"first", "second"}) == {"first", "second"})
    kept.end()
    here = ["--listen", f"127.0.0.1@{port}"]
    entry = update("a.dyn.example.com", 1).replace(b"com", b"net")
    os.remove(kept.journal + "-wal")
    for what, text, says in (("of another zone", b"\1" + len(entry).to_bytes(4, "big") + entry + b"\0", "an entry is not an update of this zone"), ("that is a text", b"@ IN SOA ns admin 1 2 3 4 5\n", "not a journal")):
        open(kept.journal, "wb").write(text)
        status_is, said = told([*here, *kept.words])
        want(f"a journal {what} is reported", status_is == 1 and f"zoned: {kept.journal}: {says}\n" in said)
        want("and it is as it was", open(kept.journal, "rb").read() == text)
    os.remove(kept.journal)
    os.mkfifo(kept.journal)
    for path, says in ((kept.folder + "/none/journal", "No such file or directory"), (kept.folder, "Is a directory"), (kept.journal, "it is not a regular file")):
        status_is, said = told([*here, *kept.words[:-1], f"example.com={path}"])
        want(f"a file that cannot be a journal is reported: {says}", status_is == 1 and f"zoned: {path}: {says}\n" in said)
    os.remove(kept.journal)
    status_is, said = told([*here, *kept.words[:2], *kept.words[-2:]])
    want("a journal of a zone without rules is reported", status_is == 1 and "no zone of this name takes updates" in said)
    words = [*kept.words, "--zone", f"example.org={kept.zone}", "--allow-update", "example.org=one.example", "--journal"]
    for path in (kept.journal, kept.journal + "-wal", f"{kept.folder}/./journal"):
        status_is, said = told([*here, *words, f"example.org={path}"])
        want("two zones do not share a file", status_is == 1 and f"zoned: {path}: another process or zone has this journal\n" in said)
    status_is, said = told([*here, *kept.words, "--journal", f"example.com={kept.folder}/other"])
    want("nor has a zone two journals", status_is == 1 and len(said.splitlines()) == 1)


def try_journal_configuration(folder, port):
    """A journal by a file in TOML, and a reload whose journal is not opened."""
    kept = Kept(folder, port)
    config = os.path.join(kept.folder, "toml")
    zone = f'listen = "127.0.0.1@{port}"\nkeys = "{kept.keys}"\njournal = ["example.com={kept.journal}"]\n[[zone]]\nname = "example.com"\nfile = "{kept.zone}"\n'
    rule = '[[zone.update]]\nkey = "one.example"\n'
    open(config, "w").write(zone + rule)
    with open(kept.log, "a") as log:
        kept.host = subprocess.Popen([ZONED, "--config", config], stderr=log)
    want("a journal may be said in a configuration", wait_for(port) and kept.update("first") == 0 and os.path.exists(kept.journal))
    open(config, "w").write(zone)
    want("a reload whose journal is not opened is reported", kept.reload() and "no zone of this name takes updates" in kept.said() and "zoned: the settings of before hold again\n" in kept.said())
    want("and what was before goes on", kept.update("second") == 0 and kept.has({"first", "second"}) == {"first", "second"})
    open(config, "w").write(zone.replace(f"{kept.journal}", f"{kept.journal}.new") + rule)
    want("another journal may be said at a reload", kept.reload() and kept.has({"first"}) == set() and kept.update("third") == 0)
    open(config, "w").write(zone + rule)
    want("and the one before again", kept.reload() and kept.has({"first", "second", "third"}) == {"first", "second"})
    open(config, "w").write(zone.replace("journal = ", "nsid = ").replace(f'["example.com={kept.journal}"]', '"here"') + rule)
    want("and none", kept.reload() and kept.has({"first"}) == set() and kept.update("fourth") == 0)
    open(config, "w").write(zone + rule)
    want("and one again", kept.reload() and kept.has({"first", "second", "fourth"}) == {"first", "second"})
    want("it ends", kept.end())


def try_journal_limit(folder, port):
    """A file that may not grow: updates are refused until all files are read again, and queries go on."""
    kept = Kept(folder, port, limit=32768)
    kept.words += ["--metrics", METRICS]
    kept.start()
    made, number, code_is = set(), 0, 0
    while number < 1000 and code_is == 0:
        code_is = kept.update(f"n{number}")
        if code_is == 0:
            made.add(f"n{number}")
        number += 1
    told_by = kept.not_written(kept.journal) + ": File too large\n", kept.not_written(kept.journal + "-wal") + ": File too large\n"
    count = lambda: sum(kept.said().count(it) for it in told_by)
    want("an update that is not written is not answered, and that is reported", code_is is None and count() == 1 and len(made) >= 100)
    want("and counted", "\nzoned_journal_failures_total 1\n" in statistics_text())
    want("each update after it is refused, and queries go on", wait_for(port) and {kept.update("more") for _ in range(3)} <= {2, 5} and kept.has(made | {f"n{number - 1}"}) == made and count() == 1)
    serial = kept.serial()
    want("the zone is that of the updates that were acknowledged", serial == 7 + len(made))
    resource.prlimit(kept.host.pid, resource.RLIMIT_FSIZE, (1 << 20, resource.RLIM_INFINITY))
    want(f"after a reload, where it may grow, all {len(made)} updates that were acknowledged are there, and updates go on", kept.reload() and kept.has(made) == made and kept.update("later") == 0)
    want("and it ends", kept.end())
    kept.limit = 4096
    want("a start that may write nothing serves the zone", kept.start() and kept.has(made | {"later"}) == made | {"later"})
    kept.update("refused")
    want("and an update is refused, which is reported", wait_for(port) and kept.update("refused") in (2, 5) and count() == 2)
    want("and it ends", kept.end())
    kept.limit = None
    want("and without the limit all is there", kept.start() and kept.has(made | {"later", "refused"}) == made | {"later"} and kept.update("last") == 0 and kept.end())
    kept.start()
    os.rename(kept.journal, kept.journal + ".away")
    os.mkdir(kept.journal)
    before, began = kept.said().count(": Is a directory\n"), time.time()
    os.kill(kept.worker(), signal.SIGKILL)
    time.sleep(5)
    times, seconds = kept.said().count(": Is a directory\n") - before, time.time() - began
    want(f"a worker that cannot begin is begun once a second ({times} in {seconds:.1f} seconds)", 2 <= times <= seconds + 1)
    os.rmdir(kept.journal)
    os.rename(kept.journal + ".away", kept.journal)
    want("and once it can all is there", wait_for(port) and kept.has(made | {"last"}) == made | {"last"})
    os.rename(kept.journal, kept.journal + ".away")
    os.mkdir(kept.journal)
    os.kill(kept.worker(), signal.SIGKILL)
    time.sleep(1)
    want("while it cannot, the parent ends when it is to", kept.end())


def at_hand(kept, messages):
    """The codes of the replies to datagrams that wait together while the worker is stopped, in their order; fewer if some are not answered."""
    worker, found = kept.worker(), []
    with socket.socket(socket.AF_INET, socket.SOCK_DGRAM) as s:
        s.settimeout(10)
        s.connect(("127.0.0.1", kept.port))
        os.kill(worker, signal.SIGSTOP)
        for it in messages:
            s.send(it)
        os.kill(worker, signal.SIGCONT)
        try:
            while len(found) < len(messages):
                found.append(code(s.recv(65535)))
        except OSError:
            pass
    return found


def try_journal_at_once(folder, port):
    """Updates that are at hand together are written together; if they are not written none is answered."""
    kept = Kept(folder, port)
    want("a server with a journal is ready", kept.start())
    before = writes(kept.worker())
    labels = [f"n{it}" for it in range(30)]
    codes = at_hand(kept, [signed(update(f"{it}.dyn.example.com", 7)) for it in labels])
    count = writes(kept.worker()) - before
    want(f"thirty updates at hand are acknowledged, by few writes ({count})", codes == [0] * 30 and 2 <= count <= 40)
    mixed = [signed(update("a.dyn.example.com", 1)), query("a.dyn.example.com"), b"short", update("b.dyn.example.com", 1), signed(update("c.dyn.example.com", 1)), query("b.dyn.example.com")]
    want("queries among them see those before them, and others have their own answers", at_hand(kept, mixed) == [0, 0, 5, 0, 3])
    want("all is there after a kill of all", kept.kill("all") and kept.has({*labels, "a", "b", "c"}) == {*labels, "a", "c"} and kept.serial() == 39)
    long = [signed(update(f"long{it}.dyn.example.com", 7)) for it in range(150)]
    want("more than are taken at once are acknowledged too", at_hand(kept, long) == [0] * 150 and kept.serial() == 189)
    want("and it ends", kept.end())
    kept, made, number, last = Kept(folder, port, limit=32768), set(), 0, None
    kept.start()
    while number < 2000 and last is None:
        labels = [f"n{it}" for it in range(number, number + 20)]
        number += 20
        codes = at_hand(kept, [signed(update(f"{it}.dyn.example.com", 7)) for it in labels])
        if codes == [0] * 20:
            made.update(labels)
        else:
            last = labels
    want(f"if they are not written none is answered, and that is reported ({codes})", codes == [] and wait_for(port) and kept.says(": File too large\n") == 1 and len(made) >= 80)
    want("the next worker has all that were acknowledged, and none of the last", kept.has(made | set(last)) == made)
    want("and it ends", kept.end())


def try_journal_full(folder, port):
    """A file system that is full: updates are refused, and queries go on."""
    disk = tempfile.mkdtemp(dir=folder)
    if subprocess.run(["mount", "-t", "tmpfs", "-o", "size=256k", "tmpfs", disk], stderr=subprocess.DEVNULL).returncode != 0:
        print("note: nothing can be mounted here, so no full file system is tried")
        return
    try:
        kept, made, number = Kept(folder, port), set(), 0
        kept.words[-1] = f"example.com={disk}/journal"
        kept.start()
        while number < 5000 and "the journal is not written" not in kept.said():
            labels = [f"n{it}" for it in range(number, number + 50)]
            number += 50
            with tcp(port) as s:
                s.sendall(b"".join(frame(signed(update(f"{it}.dyn.example.com", 7))) for it in labels))
                f = s.makefile("rb")
                try:
                    made.update(it for it in labels if (reply := read(f)) and code(reply) == 0)
                except OSError:
                    pass
        want(f"a full file system is reported, after {len(made)} updates", kept.says(": No space left on device\n") == 1 and len(made) > 300)
        want("updates are refused, and queries go on", wait_for(port) and kept.update("refused") in (2, 5) and kept.has(made) == made)
        worker = kept.worker()
        want("by the same worker", [kept.update("refused") in (2, 5) for _ in range(5)] == [True] * 5 and kept.worker() == worker)
        want("all is there after a reload", kept.reload() and kept.has(made) == made)
        subprocess.run(["mount", "-o", "remount,size=4m", disk], check=True)
        want("and with room, once files are read again, updates go on", kept.reload() and kept.has(made) == made and kept.update("later") == 0)
        before = writes(kept.worker())
        codes = at_hand(kept, [signed(update(f"last{it}.dyn.example.com", 7)) for it in range(20)])
        want("and are written together", codes == [0] * 20 and writes(kept.worker()) - before <= 30)
        want("and it ends", kept.end())
    finally:
        subprocess.run(["umount", "-l", disk])


def two_names(label):
    """An update that adds two names, of which a zone has both or none."""
    message = update(f"{label}a.dyn.example.com", 7)
    return signed(message[:9] + b"\x02" + message[10:] + message[message.index(wire(f"{label}a.dyn.example.com")) :].replace(wire(f"{label}a")[:-1], wire(f"{label}b")[:-1], 1))


def fill(kept, clients):
    """Has so many updates of two names at hand at a time be answered until the journal is not written: the labels that were acknowledged, and the others."""
    made, others = set(), set()
    while "the journal is not written" not in kept.said() and len(made) < 20000:
        labels = [f"n{len(made) + len(others) + it}" for it in range(clients)]
        with tcp(kept.port) as s:
            s.sendall(b"".join(frame(two_names(it)) for it in labels))
            f = s.makefile("rb")
            try:
                answered = {it for it in labels if (reply := read(f)) and code(reply) == 0}
            except OSError:
                answered = set()
        made |= answered
        others |= set(labels) - answered
    return made, others


def full_disk(kept, disk, chance):
    """What is wrong when the disk of a journal gets full, and after a reload, a start and room."""
    kept.start()
    made, others = fill(kept, chance.choice([1, 7, 50]))
    names, wanted = {f"{it}{end}" for it in made | others for end in "ab"}, {f"{it}{end}" for it in made for end in "ab"}
    if not made or kept.says(": No space left on device\n") != 1:
        return f"the disk was not full after {len(made)} updates"
    for what, again in (("the failure", lambda: wait_for(kept.port)), ("a reload", kept.reload), ("a kill of all", lambda: kept.kill("all"))):
        if not again() or kept.has(names) != wanted:
            return f"after {what} the zone is not as acknowledged"
    subprocess.run(["mount", "-o", "remount,size=16m", disk], check=True)
    if not kept.reload() or kept.has(names) != wanted or kept.update("later") != 0:
        return "with room updates do not go on"
    return None if kept.end() else "it does not end"


def try_full_disks(folder, port):
    """Rounds in which the file system of a journal gets full, after another number of updates each time: all of them are there after that, and none half."""
    chance, faults = random.Random(10), []
    for _ in range(FULL):
        disk = tempfile.mkdtemp(dir=folder)
        if subprocess.run(["mount", "-t", "tmpfs", "-o", f"size={4 * chance.randrange(8, 100)}k", "tmpfs", disk], stderr=subprocess.DEVNULL).returncode != 0:
            print("note: nothing can be mounted here, so no full file system is tried")
            return
        kept = Kept(folder, port)
        kept.words[-1] = f"example.com={disk}/journal"
        try:
            faults += [it for it in [full_disk(kept, disk, chance)] if it]
        finally:
            if kept.host.poll() is None:
                kept.host.kill()
            subprocess.run(["umount", "-l", disk])
    want(f"{FULL} rounds with a full disk {faults[:1] or ''}", not faults)


def send_updates(kept, name, over_tcp_too, stop, told_of, seconds=0.3):
    """A client that sends one update after the other, each fifth of which is refused, until it is to stop; notes the code of each reply."""
    number = 0
    while not stop.is_set():
        label = f"{name}n{number}"
        message = signed(update(f"{label}.example.com" if number % 5 == 4 else f"{label}.dyn.example.com", 7))
        try:
            if over_tcp_too and number % 2:
                with tcp(kept.port) as s:
                    s.settimeout(seconds)
                    s.sendall(frame(message))
                    reply = read(s.makefile("rb"))
            else:
                reply = udp(message, seconds, kept.port)
        except OSError:
            reply = None
        told_of[label] = code(reply) if reply else None
        number += 1


class Updating:
    """Four clients, of which two use TCP too."""

    def __init__(self, kept, name, seconds=0.3, over_tcp_too=True):
        self.stop, self.notes = threading.Event(), [{} for _ in range(4)]
        self.clients = [threading.Thread(target=send_updates, args=(kept, f"{name}c{i}", over_tcp_too and i % 2, self.stop, self.notes[i], seconds), daemon=True) for i in range(4)]
        for it in self.clients:
            it.start()

    def codes(self):
        """The code of each label, once they have stopped."""
        self.stop.set()
        for it in self.clients:
            it.join()
        return {label: code_is for note in self.notes for label, code_is in note.items()}


class Stops:
    """Machines that stop: what zoned wrote and did not sync is lost, torn or kept, as clients/crashes has it."""

    def __init__(self, folder, chance):
        clients = os.path.join(os.path.dirname(os.path.dirname(os.path.abspath(__file__))), "clients")
        self.crashes = importlib.machinery.SourceFileLoader("crashes", f"{clients}/crashes").load_module()
        self.notes, self.chance, self.taken = os.path.join(folder, "notes"), chance, 0
        shim = os.path.join(folder, "keep_unsynced.so")
        subprocess.run(["gcc", "-O2", "-shared", "-fPIC", "-o", shim, f"{clients}/keep_unsynced.c"], check=True)
        self.environment = {"LD_PRELOAD": shim, "UNSYNCED": self.notes}

    def __call__(self, journal):
        self.taken += self.crashes.stop_machine(journal, self.notes, self.chance)


def run_of(crashes, port):
    """A class for clients/crashes: one start of zoned, which it asks over UDP, and for the zone over TCP."""

    class Run(crashes.Run):
        def __init__(self, program, home, shim=None, notes=None):
            environment = {**os.environ, **({"LD_PRELOAD": shim, "UNSYNCED": notes} if shim else {})}
            self.process = start(crashes.ARGUMENTS[:-1], port, cwd=home, env=environment, stdin=subprocess.PIPE, stdout=subprocess.PIPE, stderr=subprocess.PIPE)
            self.timer = None

        def sent(self, lines):
            messages = [bytes.fromhex(it.decode().split()[2]) for it in lines]
            try:
                if not lines[0].startswith(b"udp"):
                    while self.process.poll() is None and not udp(query("ns.example.com"), 0.1, port):
                        time.sleep(0.01)
                    with tcp(port) as s:
                        s.sendall(frame(messages[0]))
                        return [it for it in [read(s.makefile("rb"))] if it]
                with socket.socket(socket.AF_INET, socket.SOCK_DGRAM) as s:
                    s.connect(("127.0.0.1", port))
                    s.settimeout(5)
                    # (so that they are one batch)
                    worker = max(children(self.process.pid))
                    os.kill(worker, signal.SIGSTOP)
                    for it in messages:
                        s.send(it)
                    os.kill(worker, signal.SIGCONT)
                    return [s.recv(512) for _ in messages]
            except (OSError, ValueError):
                return []

        def kill_after(self, seconds):
            self.timer = threading.Timer(seconds, self.kill)
            self.timer.start()

        def kill(self):
            """Kills the parent and the worker."""
            self.process.send_signal(signal.SIGSTOP)
            for it in [*children(self.process.pid), self.process.pid]:
                os.kill(it, signal.SIGKILL)

        def end(self):
            if self.timer is None:
                self.process.terminate()
            return super().end()

    return Run


def try_crashes(folder, port):
    """What clients/crashes does: updates of several kinds, some together, and a kill; what is there is all or none of each group."""
    stops = None if b"__asan" in open(ZONED, "rb").read() else Stops(folder, random.Random(9))
    clients = os.path.join(os.path.dirname(os.path.dirname(os.path.abspath(__file__))), "clients")
    crashes = importlib.machinery.SourceFileLoader("crashes", f"{clients}/crashes").load_module()
    crashes.Run = run_of(crashes, port)
    rounds = crashes.Rounds(ZONED, tempfile.mkdtemp(dir=folder), random.Random(9), stops and os.path.join(folder, "keep_unsynced.so"))
    faults = [it for it in (rounds.failure() for _ in range(KILLS // 2)) if it]
    want(f"{KILLS // 2} rounds of clients/crashes: {rounds.killed} kills, {rounds.acknowledged} updates acknowledged, {rounds.compacted} compactions, {rounds.taken_back} writes taken back {faults[:1] or ''}", not faults and rounds.acknowledged > 20)


def try_journal_kills(folder, port):
    """Kills at random moments with updates in flight; when all are killed, the machine stops too. (Nothing is preloaded before a sanitizer.)"""
    chance, made, refused, lost = random.Random(7), set(), set(), set()
    stops = None if b"__asan" in open(ZONED, "rb").read() else Stops(folder, chance)
    kept = Kept(folder, port, stops=stops)
    kept.start()
    for number in range(KILLS):
        clients = Updating(kept, f"r{number}")
        time.sleep(chance.uniform(0.02, 0.3))
        is_there = kept.kill(("all", "worker")[number % 2], clients.stop)
        seen = clients.codes()
        made |= {label for label, code_is in seen.items() if code_is == 0}
        refused |= {label for label, code_is in seen.items() if code_is == 5}
        lost |= made - kept.has(made) if is_there else set()
        if lost or not is_there:
            break
    want(f"{KILLS} kills with updates in flight, and a start after each", is_there)
    want(f"all {len(made)} that were acknowledged are there after each {sorted(lost) or ''}", len(made) > 20 and not lost)
    codes = [udp(query(f"{label}.example.com"), port=port) for label in sorted(refused)]
    want(f"and none of {len(refused)} that were refused", len(refused) > 5 and all(reply and code(reply) == 3 for reply in codes) and not kept.has(refused))
    if stops:
        want(f"and {stops.taken} writes were not synced", stops.taken > 0)
    want("it ends", kept.end())


def try_journal_reloads(folder, port):
    """Reloads with updates in flight: each is answered, and each that was acknowledged is there."""
    kept, chance = Kept(folder, port), random.Random(8)
    kept.start()
    clients = Updating(kept, "r", 30, over_tcp_too=False)
    for _ in range(12):
        time.sleep(chance.uniform(0.02, 0.3))
        kept.reload()
    seen = clients.codes()
    made = {label for label, code_is in seen.items() if code_is == 0}
    other = {label: code_is for label, code_is in seen.items() if code_is not in (0, 5)}
    want(f"12 reloads with updates in flight: all {len(seen)} are answered {other or ''}", len(made) > 20 and not other)
    want("and those that were acknowledged are there", kept.has(made) == made and kept.serial() == 7 + len(made))
    clients = Updating(kept, "t", 30)
    for _ in range(6):
        time.sleep(chance.uniform(0.02, 0.3))
        kept.reload()
    more = {label for label, code_is in clients.codes().items() if code_is == 0}
    want(f"6 more, with connections: all {len(more)} that were acknowledged are there", len(more) > 10 and kept.has(made | more) == made | more)
    want("no worker failed for that, and it ends", all("the journal counts" in it for it in kept.said().splitlines()) and kept.end())


def try_activation(zone, port):
    """That it serves sockets that it is started with, as systemd starts it, in any order."""
    with socket.create_server(("127.0.0.1", port)) as stream, socket.socket(socket.AF_INET, socket.SOCK_DGRAM) as datagrams:
        datagrams.bind(("127.0.0.1", port))

        def place():
            high = os.dup(datagrams.fileno())
            os.dup2(stream.fileno(), 3)
            os.dup2(high, 4)

        words = ["sh", "-c", 'LISTEN_PID=$$ LISTEN_FDS=2 exec "$@"', "sh", ZONED, "--zone", f"example.com={zone}", "--workers", "2"]
        refused = subprocess.run([*words, "--listen", f"127.0.0.1@{port}"], preexec_fn=place, pass_fds=(3, 4), stderr=subprocess.DEVNULL).returncode
        want("addresses beside the sockets of systemd are refused", refused == 2)
        host = subprocess.Popen(words, preexec_fn=place, pass_fds=(3, 4))
    want("it serves sockets that it is started with", wait_for(port))
    with tcp(port) as s:
        s.sendall(frame(query("www.example.com")))
        want("and connections to them", read(s.makefile("rb"))[-4:] == bytes([192, 0, 2, 1]))
    host.send_signal(signal.SIGHUP)
    time.sleep(0.7)
    want("after a reload too", answers(udp(query("www.example.com"), port=port)) == 1)
    host.terminate()
    want("and ends", host.wait(15) == 0)


def try_log(folder, zone, port):
    """Lines that tell queries, one in so many; what a client may write into them; and a file that is moved away."""
    log = os.path.join(folder, "queries")
    host = start(["--zone", f"example.com={zone}", "--query-log", log], port)
    want("a server with a log is ready", wait_for(port))
    time.sleep(0.3)
    begun = open(log).read().count("\n")
    reply = udp(query("no.example.com", 28), port=port)
    with tcp(port) as s, s.makefile("rb") as f:
        s.sendall(frame(query("www.example.com")))
        over = read(f)
    forged = udp(query("x IN A NOERROR 9\n1 192\t\\.example.com", 65280), port=port)
    time.sleep(0.3)
    lines = [line.split(" ", 1) for line in open(log).read().splitlines()[begun:]]
    want("each query has a line", [rest for _, rest in lines[:2]] == [f"127.0.0.1 udp no.example.com. IN AAAA NXDOMAIN {len(reply)}", f"127.0.0.1 tcp www.example.com. IN A NOERROR {len(over)}"])
    want("with its time", all(abs(int(at) - time.time()) < 10 for at, _ in lines))
    name = "x\\032IN\\032A\\032NOERROR\\0329\\0101\\032192\\009\\092.example.com."
    want("no name adds a word or a line", [rest for _, rest in lines[2:]] == [f"127.0.0.1 udp {name} IN TYPE65280 NXDOMAIN {len(forged)}"])
    with tcp(port) as s, s.makefile("rb") as f:
        s.sendall(frame(b"\1\2\1" + bytes(9) + b"\x3f\0\n ".ljust(64, b"a") * 1000))
        s.shutdown(socket.SHUT_WR)
        read(f)
    time.sleep(0.3)
    want("a message without a question has no long line", all(len(line) < 1400 for line in open(log)))
    want("a log is not for everybody", os.stat(log).st_mode & 0o007 == 0)
    os.rename(log, log + ".1")
    host.send_signal(signal.SIGHUP)
    time.sleep(0.7)
    udp(query("www.example.com", 16), port=port)
    time.sleep(0.3)
    want("SIGHUP begins a log that was moved away", " www.example.com. IN TXT NOERROR " in open(log).read())
    host.terminate()
    want("and it ends", host.wait(15) == 0)
    host = start(["--zone", f"example.com={zone}", "--query-log", log + ".2", "--query-log-every", "10"], port)
    wait_for(port)
    time.sleep(0.3)
    begun = open(log + ".2").read().count("\n")
    for _ in range(40):
        udp(query("www.example.com"), port=port)
    time.sleep(0.3)
    want("one in ten has a line", open(log + ".2").read().count("\n") - begun == 4)
    host.terminate()
    want("and it ends", host.wait(15) == 0)
    os.mkfifo(folder + "/pipe")
    for path, why in ((folder + "/none/queries", "No such file"), (folder + "/pipe", "No such device"), ("/dev/full", "lines are lost")):
        host = start(["--zone", f"example.com={zone}", "--query-log", path], port, stderr=subprocess.PIPE, text=True)
        is_answered = wait_for(port)
        time.sleep(0.3)
        is_answered = is_answered and udp(query("www.example.com"), port=port) is not None
        host.terminate()
        said = host.communicate(timeout=15)[1]
        want(f"a log that cannot be written keeps no query from its answer, and is told once: {why}", is_answered and said.count(why) == 1 and host.returncode == 0)


def try_pipes(folder, zone, port):
    """Pipes that nobody reads any more: neither the log nor the standard error ends a process (SIGPIPE)."""
    pipe = os.path.join(folder, "unread")
    os.mkfifo(pipe)
    reader = os.open(pipe, os.O_RDONLY | os.O_NONBLOCK)
    host = start(["--zone", f"example.com={zone}", "--query-log", pipe], port, stderr=subprocess.PIPE)
    is_ready, worker = wait_for(port), children(host.pid)
    host.stderr.close()
    os.close(reader)
    for _ in range(3):
        udp(query("www.example.com"), port=port)
    time.sleep(0.3)
    want("a log that nobody reads any more leaves the worker as it is", is_ready and udp(query("www.example.com"), port=port) is not None and children(host.pid) == worker)
    reader = os.open(pipe, os.O_RDONLY | os.O_NONBLOCK)
    udp(query("again.example.com"), port=port)
    time.sleep(0.3)
    want("and its next reader has lines again", b" again.example.com. IN A NXDOMAIN " in os.read(reader, 65536))
    os.close(reader)
    with open(zone) as it:
        text = it.read()
    with open(zone, "w") as it:
        it.write("nonsense")
    host.send_signal(signal.SIGHUP)
    time.sleep(0.7)
    want("a fault that nobody reads ends nothing", host.poll() is None and udp(query("www.example.com"), port=port) is not None)
    with open(zone, "w") as it:
        it.write(text)
    host.terminate()
    want("and it ends", host.wait(15) == 0)


def memory(host):
    """The memory of a server and its children, in KiB: of pages that several share, each has its part."""
    def of(pid):
        with open(f"/proc/{pid}/smaps_rollup") as it:
            return sum(int(line.split()[1]) for line in it if line.startswith(("Pss:", "SwapPss:")))

    return sum(map(of, (host.pid, *children(host.pid))))


def ends(host, within):
    """Whether a server ends within so many seconds by SIGTERM, with status 0. Else it is killed."""
    host.terminate()
    try:
        return host.wait(within) == 0
    except subprocess.TimeoutExpired:
        host.kill()
        return host.wait() == 0


def goes_on(check, within):
    """Whether this holds within so many seconds."""
    end = time.time() + within
    while time.time() < end:
        if check():
            return True
        time.sleep(0.05)
    return False


def ask_on(s, stop, found):
    """Asks over a connection again and again, until it is closed or this is to stop; notes each reply, and None once it is closed."""
    f = s.makefile("rb")
    while not stop.is_set():
        try:
            s.sendall(frame(query("www.example.com")))
            found.append(read(f))
        except OSError:
            found.append(None)
        if found[-1] is None:
            return
        time.sleep(0.1)


def try_deadline(zone, port):
    """A client that always asks, one that reads slowly, and one that never reads: none keeps an old worker for long, at a reload and at the end."""
    host = start(["--zone", f"example.com={zone}", "--tcp-idle", "600", "--allow-transfer", "127.0.0.1"], port)
    want("a server with patience is ready", wait_for(port))
    for number, what in ((signal.SIGHUP, "a reload"), (signal.SIGTERM, "the end")):
        stop, found, old = threading.Event(), [], children(host.pid)
        with tcp(port) as asking, tcp(port) as slow, socket.socket() as deaf:
            deaf.setsockopt(socket.SOL_SOCKET, socket.SO_RCVBUF, 8192)
            deaf.connect(("127.0.0.1", port))
            deaf.sendall(frame(query("example.com", 252)))
            slow.sendall(frame(query("example.com", 252)))
            client = threading.Thread(target=ask_on, args=(asking, stop, found), daemon=True)
            client.start()
            goes_on(lambda: len(found) > 3, 60)
            host.send_signal(number)
            if number == signal.SIGHUP:
                goes_on(lambda: set(children(host.pid)) - set(old), 60)
            begun, records = time.time(), 0
            with slow.makefile("rb") as f:
                while reply := read(f):
                    records += answers(reply)
                    time.sleep(0.002)
            want(f"at {what} the reply at hand is sent whole ({records} records)", records == 20004)
            want("a client that asks on and on is not answered any more", goes_on(lambda: found[-1] is None, 10))
            is_gone = goes_on(lambda: not set(old) & set(children(host.pid)) if number == signal.SIGHUP else host.poll() is not None, 30)
            want(f"and one that never reads keeps the old worker for 5 seconds at most ({time.time() - begun:.1f})", is_gone and time.time() - begun < 8)
            stop.set()
            client.join()
    want("it ended with status 0", host.wait(1) == 0)


def try_generations(folder, port):
    """However often files are read again, the zones of before are gone from every process."""
    zone = os.path.join(folder, "five")
    open(zone, "w").write(SOA_AND_NS + WWW % 1 + "".join(f'h{i} IN TXT "{"x" * 100}"\n' for i in range(5400)))
    host = start(["--zone", f"example.com={zone}", "--workers", "2"], port)
    want("a server of 5,400 records is ready", wait_for(port))
    sizes = [memory(host)]
    for number in range(2, 8):
        before = children(host.pid)
        open(zone, "a").write(WWW % number)
        host.send_signal(signal.SIGHUP)
        goes_on(lambda: not set(before) & set(children(host.pid)), 60)
        goes_on(lambda: (reply := udp(query("www.example.com"), port=port)) and answers(reply) == number, 60)
        time.sleep(0.3)
        sizes.append(memory(host))
    if "ASAN_OPTIONS" in os.environ:
        print("note: the sanitizer keeps memory that was freed, so nothing is said of memory in this run")
    else:
        want(f"the memory of all processes after six reloads is at most 1.1 times that of the start, in KiB {sizes}", max(sizes[1:]) <= 1.1 * sizes[0] + 512)
    host.send_signal(signal.SIGSTOP)
    for pid in children(host.pid):
        os.kill(pid, signal.SIGSTOP)
    host.send_signal(signal.SIGCONT)
    for _ in range(5):
        host.send_signal(signal.SIGHUP)
        time.sleep(0.3)
    want("workers that are stopped are killed, so that there are two generations at most", goes_on(lambda: len(children(host.pid)) <= 4, 2) and goes_on(lambda: len(children(host.pid)) == 2, 15))
    want("and it ends", ends(host, 15))


def used(pid):
    """The seconds of the processor that a process has used."""
    with open(f"/proc/{pid}/stat") as it:
        return sum(map(int, it.read().rpartition(")")[2].split()[11:13])) / os.sysconf("SC_CLK_TCK")


def try_descriptors(zone, port):
    """No descriptor is left: the connection that is idle longest makes room, and no processor is used up."""
    words = ["--zone", f"example.com={zone}", "--tcp-idle", "600", "--tcp-client", "1000"]
    host = start(words, port, preexec_fn=lambda: resource.setrlimit(resource.RLIMIT_NOFILE, (40, 40)))
    want("a server of 40 descriptors is ready", wait_for(port))
    worker = children(host.pid)[0]
    many = [tcp(port) for _ in range(60)]
    before = used(worker)
    time.sleep(2)
    want(f"sixty connections use no processor ({used(worker) - before:.2f} of 2 seconds)", used(worker) - before < 0.2)
    for s in many[50:] + [tcp(port)]:
        s.settimeout(10)
        s.sendall(frame(query("www.example.com")))
    want("the last ones are answered", all(read(s.makefile("rb")) for s in many[50:]))
    want("the first ones made room", all(closes(s, 1) for s in many[:10]))
    for s in many:
        s.close()
    want("and it ends", ends(host, 15))
    host = start(words, port, preexec_fn=lambda: resource.setrlimit(resource.RLIMIT_NOFILE, (64, 200)))
    want("a server takes as many descriptors as it may have", wait_for(port) and "200" == open(f"/proc/{host.pid}/limits").read().split("Max open files")[1].split()[0])
    want("and it ends", ends(host, 15))


def try_many_zones(folder, port):
    """More zones than 4,096, by a configuration of more than a mebibyte."""
    below = os.path.join(folder, "x" * 200)
    os.mkdir(below)
    zone, config = os.path.join(below, "zone"), os.path.join(folder, "many.toml")
    open(zone, "w").write(SOA_AND_NS + WWW % 1)
    with open(config, "w") as it:
        it.write(f'listen = "127.0.0.1@{port}"\n[zone]\n' + "".join(f'"z{i:04}.example.com" = "{zone}"\n' for i in range(4200)))
    host = subprocess.Popen([ZONED, "--config", config])
    want(f"4,200 zones by a configuration of {os.path.getsize(config)} bytes are served", goes_on(lambda: host.poll() is not None or udp(query("www.z4199.example.com"), 0.5, port) is not None, 300) and host.poll() is None)
    want("and it ends", ends(host, 15))


def try_mapped(zone, port):
    """IPv4 clients of a socket that is for IPv6 too have the limits of IPv4."""
    with socket.create_server(("::", port), family=socket.AF_INET6, dualstack_ipv6=True) as stream, socket.socket(socket.AF_INET6, socket.SOCK_DGRAM) as datagrams:
        datagrams.setsockopt(socket.IPPROTO_IPV6, socket.IPV6_V6ONLY, 0)
        datagrams.bind(("::", port))

        def place():
            high = os.dup(datagrams.fileno())
            os.dup2(stream.fileno(), 3)
            os.dup2(high, 4)

        words = ["sh", "-c", 'LISTEN_PID=$$ LISTEN_FDS=2 exec "$@"', "sh", ZONED, "--zone", f"example.com={zone}", "--rate-limit", "20", "--rate-slip", "0", "--deny", "127.0.0.9"]
        host = subprocess.Popen(words, preexec_fn=place, pass_fds=(3, 4))
    want("a server at sockets for both families is ready", wait_for(port))
    time.sleep(1.05 - time.time() % 1)
    first = [udp(query("www.example.com"), 0.02, port, "127.0.1.1") for _ in range(40)]
    others = [udp(query("www.example.com"), 0.5, port, "127.77.5.1") for _ in range(5)]
    want("a network of IPv4 has its replies, and leaves another one those of its own", sum(it is not None for it in first) >= 20 and None not in others)
    want("and a denied one has none", udp(query("www.example.com"), 0.3, port, "127.0.0.9") is None)
    want("and it ends", ends(host, 15))


def try_end(folder, zone, port):
    """SIGTERM is obeyed at once while files are read, or cannot be, and while SIGHUP comes on and on."""
    held, large = os.path.join(folder, "held"), os.path.join(folder, "large")
    with open(large, "w") as it:
        it.write(SOA_AND_NS + WWW % 1 + "".join(f"h{i} IN A 192.0.2.1\n" for i in range(300000)))
    host = start(["--zone", f"example.com={large}"], port)
    time.sleep(0.3)
    want("a first start that reads a large file ends at once", ends(host, 2))
    os.symlink(zone, held)
    log = open(os.path.join(folder, "ends"), "w+")
    host = start(["--zone", f"example.com={held}"], port, stderr=log)
    want("a server is ready", wait_for(port))
    os.remove(held)
    os.mkfifo(held)
    host.send_signal(signal.SIGHUP)
    time.sleep(0.3)
    os.kill(children(host.pid)[0], signal.SIGKILL)
    want("a pipe in the place of a file is told, and a worker that is killed then is begun again",
         goes_on(lambda: f"{held}: cannot be read: it is not a regular file\n" in open(log.name).read(), 5) and wait_for(port))
    os.remove(held)
    os.symlink(large, held)
    host.send_signal(signal.SIGHUP)
    time.sleep(0.2)
    want("a reload that reads a large file ends at once", ends(host, 2))
    host, stop = start(["--zone", f"example.com={zone}"], port, stderr=log), threading.Event()
    wait_for(port)

    def storm():
        while not stop.wait(0.005):
            host.send_signal(signal.SIGHUP)

    sender = threading.Thread(target=storm, daemon=True)
    sender.start()
    time.sleep(0.5)
    want("so does one to which SIGHUP comes on and on", ends(host, 2))
    stop.set()
    sender.join()


def try_frozen(folder, port):
    """A worker that is stopped keeps its journals until a reload kills it."""
    kept = Kept(folder, port)
    want("a server with a journal is ready", kept.start() and kept.update("first") == 0)
    os.kill(kept.worker(), signal.SIGSTOP)
    begun = time.time()
    kept.host.send_signal(signal.SIGHUP)
    want("a reload replaces a worker that is stopped, after 6 seconds", goes_on(lambda: udp(query("first.dyn.example.com"), 0.3, port) is not None, 30) and 5 < time.time() - begun < 10 and kept.has({"first"}) == {"first"})
    os.kill(kept.worker(), signal.SIGSTOP)
    pids = children(kept.host.pid)
    want("and while one is stopped all end", ends(kept.host, 9) and not any(os.path.exists(f"/proc/{it}") for it in pids))


def control(path, *words):
    """The status of zonedctl, and what it prints on either output."""
    ran = subprocess.run([os.path.join(os.path.dirname(ZONED), "zonedctl"), *(["--control", path] if path else []), *words], stdin=subprocess.DEVNULL, capture_output=True, text=True, timeout=30)
    return ran.returncode, ran.stdout + ran.stderr


def try_control(folder, port):
    """What zonedctl has zoned do, and that it is done when it answers."""
    path, zone, log = (os.path.join(folder, name) for name in ("control", "controlled.zone", "controlled.log"))
    open(zone, "w").write(SOA_AND_NS + WWW % 1)
    host = start(["--zone", f"example.com={zone}", "--control", path, "--query-log", log, "--workers", "2"], port, stderr=subprocess.PIPE, text=True)
    want("a server with a control socket is ready, for its user and group", wait_for(port) and os.stat(path).st_mode & 0o777 == 0o660)
    status_is, said = control(path, "status")
    want("status has a line for each process", status_is == 0 and said.startswith("zoned ") and all(f"process {it}" in said for it in (host.pid, *children(host.pid))))
    want("zones has the file of each zone", control(path, "zones") == (0, f"zone example.com={zone}\n"))
    status_is, said = control(path, "zonestatus", "EXAMPLE.com.")
    want("zonestatus says when one was loaded", status_is == 0 and re.fullmatch(rf"zone: example.com\nstate: served\nloaded: \d{{4}}-\d\d-\d\d \d\d:\d\d:\d\d UTC\nfile: {zone}\nserial: 7\nnotices-waiting: 0\n", said))
    status_is, said = control(path, "stats")
    names = ("queries", "udp", "tcp", "rcode.NOERROR", "unanswered.denied", "truncated", "sent_bytes", "journal_failures")
    want("stats has the counters", status_is == 0 and all(re.search(rf"^num\.{it}=\d+$", said, re.M) for it in names))
    seen = []
    for last in range(2, 22):
        open(zone, "w").write(SOA_AND_NS + WWW % last)
        seen.append((control(path, "reload"), udp(query("www.example.com"), port=port)[-1]))
    want("after reload each answer is from the files", seen == [((0, ""), last) for last in range(2, 22)])
    open(zone, "w").write("nonsense")
    status_is, said = control(path, "reload")
    want("a reload of a bad file says why", status_is == 1 and said.startswith(f"refused zone files: 1 of 1; the first: {zone}:1:9: ") and len(said.splitlines()) == 1)
    want("the zone is served as before", udp(query("www.example.com"), port=port)[-1] == 21)
    want("and status says so", said in control(path, "status")[1])
    open(zone, "w").write(SOA_AND_NS + WWW % 22)
    want("until the next one", control(path, "reload") == (0, "") and "nothing is wrong" in control(path, "status")[1])
    for how, grows in (("off", 0), ("on", 5), ("off", 0), ("on", 5)):
        want(f"querylog {how} is done", control(path, "querylog", how) == (0, ""))
        before = len(open(log).readlines())
        for _ in range(5):
            udp(query("www.example.com"), port=port)
        time.sleep(0.2)
        want(f"and {grows} of 5 queries have a line", len(open(log).readlines()) - before == grows)
    os.rename(log, log + ".1")
    want("querylog off and on begins a file that was moved away", control(path, "querylog", "off")[0] == control(path, "querylog", "on")[0] == 0 and udp(query("www.example.com"), port=port) and goes_on(lambda: len(open(log).readlines()) == 1, 2))
    for words in (["nonsense"], ["querylog"], ["querylog", "maybe"], ["zonestatus"], ["statuses"], ["x" * 500]):
        status_is, said = control(path, *words)
        want("what is not a command is reported", status_is == 1 and said.endswith('" is not a command of zonedctl\n'))
    want("no command is too few, and three are too many", [control(None)[0], control(path, "querylog", "on", "now")[0]] == [2, 2])
    with socket.socket(socket.AF_UNIX, socket.SOCK_STREAM) as s:
        s.connect(path)
        began = time.time()
        want("a client that says nothing keeps others waiting a second at most", control(path, "status")[0] == 0 and time.time() - began < 3)
    want("stop ends it", control(path, "stop") == (0, "") and host.poll() is not None or host.wait(2) == 0)
    want("with status 0, and without a worker that is left", host.wait(5) == 0 and udp(query("www.example.com"), 0.3, port) is None)
    want("zonedctl says that no server is there", control(path, "status")[0] == 2 and control(path + ".none", "status")[0] == 2)
    host = start(["--zone", f"example.com={zone}", "--control", path], port, stderr=subprocess.PIPE, text=True)
    want("a server has the place of one that ended", wait_for(port) and control(path, "status")[0] == 0)
    want("without a log none is begun", control(path, "querylog", "on") == (1, "--query-log is not given\n"))
    host.terminate()
    want("it ends", host.wait(5) == 0)


def last_of(name, port):
    """The last octet of the address that a name has, or the code of an answer without one."""
    reply = udp(query(name), port=port)
    return reply[-1] if answers(reply) else -code(reply)


def try_bad_zones(folder, port):
    """Zones whose files are not taken: a zone that was never taken gets SERVFAIL, another one is served as before, and all others are taken."""
    good, bad, none, path = (os.path.join(folder, it) for it in ("good.zone", "bad.zone", "none.zone", "bad.control"))
    names = ("www.example.com", "www.sub.example.com", "www.example.net")

    def write(*lasts):
        for it, last in zip((good, bad, none), lasts):
            open(it, "w").write(SOA_AND_NS + WWW % last if last else "nonsense")

    def served():
        return [last_of(it, port) for it in names]

    write(1, 0)
    words = ["--zone", f"example.com={good}", "--zone", f"sub.example.com={bad}", "--zone", f"example.net={none}"]
    status_is, said = told(["--check", *words])
    want("--check reports each bad file, and no more", status_is == 1 and len(said.splitlines()) == 2 and f"zoned: {bad}:1:9: " in said and f"zoned: {none}: cannot be read" in said)
    host = start([*words, "--control", path], port, stderr=subprocess.PIPE, text=True)
    want("a server with bad zones starts, and answers SERVFAIL for them, also below a good one", wait_for(port) and served() == [1, -2, -2])
    want("zones says which they are", control(path, "zones")[1].count("(not taken: SERVFAIL)\n") == 2)
    want("status counts them", "\nzones: 3; refused zone files: 2\n" in control(path, "status")[1])
    write(2, 0)
    status_is, said = control(path, "reload")
    want("a reload takes the good file, and says that others are refused", status_is == 1 and said.startswith(f"refused zone files: 2 of 3; the first: {bad}:1:9: ") and served() == [2, -2, -2])
    write(3, 3, 3)
    want("once they are mended it is done", control(path, "reload") == (0, "") and served() == [3, 3, 3])
    want("zones and status say so", "taken" not in control(path, "zones")[1] and "\nzones: 3; refused zone files: 0\n" in control(path, "status")[1])
    write(4, 0, 4)
    for turn in range(2):
        want(f"a bad file leaves its zone as it was, and the others are taken ({turn})", control(path, "reload")[0] == 1 and served() == [4, 3, 4])
    os.kill(children(host.pid)[0], signal.SIGKILL)
    want("also after its worker ended", goes_on(lambda: udp(query(names[0]), 0.3, port) is not None, 5) and served() == [4, 3, 4])
    os.remove(good)
    want("so does a file that is gone", control(path, "reload")[0] == 1 and served() == [4, 3, 4])
    want("zones says which they are", control(path, "zones")[1].count("(not taken: as before)\n") == 2)
    said = control(path, "zonestatus", "sub.example.com")[1]
    want("zonestatus says why", said.startswith(f"zone: sub.example.com\nstate: as before: {bad}:1:9: ") and "\nloaded: 2" in said)
    want("and that there is no such zone", control(path, "zonestatus", "example.org") == (1, '"example.org" is not a zone of this server\n'))
    write(5, 5, 5)
    want("once they are mended all are taken", control(path, "reload") == (0, "") and served() == [5, 5, 5])
    host.terminate()
    said = host.communicate(timeout=15)[1]
    want("they were logged, each with its file", f"sub.example.com={bad}: queries for the zone get SERVFAIL" in said and f"sub.example.com={bad}: the zone is served as before\n" in said and host.returncode == 0)
    want("a zone that is given twice ends the start", told(["--listen", f"127.0.0.1@{port}", *words, "--zone", f"example.com={good}"])[0] == 1)


def try_bad_zone_with_journal(folder, port):
    """A zone with a journal whose file is not taken: at a start it gets SERVFAIL, and another one is answered; at a reload it stays as its journal has it."""
    kept, path, other = Kept(folder, port), os.path.join(folder, "bad_kept_control"), os.path.join(folder, "other.zone")
    open(other, "w").write(SOA_AND_NS + WWW % 9)
    kept.words += ["--control", path, "--zone", f"example.net={other}"]
    kept.start()
    text = open(kept.zone).read()
    want("a zone with a journal takes an update", kept.update("a") == 0)
    open(kept.zone, "w").write("nonsense")
    open(other, "w").write(SOA_AND_NS + WWW % 8)
    want("a reload with its file bad takes the other file", control(path, "reload")[0] == 1 and last_of("www.example.net", port) == 8)
    want("and the zone goes on as its journal has it", kept.has({"a"}) == {"a"} and kept.update("b") == 0 and kept.has({"a", "b"}) == {"a", "b"})
    want("it ends", kept.end())
    kept.start()
    want("at a start it gets SERVFAIL, and the other zone is answered", [last_of(it, port) for it in ("www.example.com", "www.example.net")] == [-2, 8])
    want("an update of it is not taken", kept.update("c") != 0)
    want("zonestatus says why", control(path, "zonestatus", "example.com")[1].startswith(f"zone: example.com\nstate: failed: {kept.zone}:1:"))
    want("zones says so", control(path, "zones")[1] == f"zone example.com={kept.zone} (not taken: SERVFAIL)\njournal example.com={kept.journal} (not opened)\nzone example.net={other}\n")
    open(kept.zone, "w").write(text)
    want("once it is mended, it is as its journal has it", control(path, "reload") == (0, "") and kept.has({"a", "b", "c"}) == {"a", "b"} and kept.update("c") == 0)
    want("it ends", kept.end())


def try_journal_control(folder, port):
    """A reload that cannot open a journal, by zonedctl."""
    kept, path = Kept(folder, port), os.path.join(folder, "kept_control")
    kept.words += ["--control", path]
    kept.start()
    sizes = sum(os.path.getsize(kept.journal + it) for it in ("", "-wal"))
    want("zonestatus has the size of a journal", f"\njournal: {kept.journal}\njournal-bytes: {sizes}\n" in control(path, "zonestatus", "example.com")[1])
    want("zones has journals", control(path, "zones") == (0, f"zone example.com={kept.zone}\njournal example.com={kept.journal}\n"))
    os.rename(kept.journal, kept.journal + ".away")
    os.mkdir(kept.journal)
    threading.Timer(1, lambda: (os.rmdir(kept.journal), os.rename(kept.journal + ".away", kept.journal))).start()
    want("a reload that cannot open a journal says why", control(path, "reload") == (1, f"{kept.journal}: Is a directory\n"))
    want("and once it can, the zone is there", wait_for(port) and kept.update("a") == 0 and kept.has({"a"}) == {"a"})
    want("stop ends it", control(path, "stop") == (0, "") and kept.host.wait(5) == 0)


def try_one_server(zone, port):
    """A second server at an address is refused, and a new one after the first is not."""
    words = ["--zone", f"example.com={zone}", "--workers", "2", "--tcp-idle", "600"]
    host = start(words, port)
    want("the first server is ready", wait_for(port))
    for address in ("127.0.0.1", "0.0.0.0"):
        want(f"a second one at {address} is refused", told(["--listen", f"{address}@{port}", *words]) == (1, f'zoned: --listen: "{address}@{port}": Address already in use\n'))
    for number in (signal.SIGTERM, signal.SIGKILL):
        with tcp(port) as s:
            s.sendall(frame(query("www.example.com")))
            old, host = host, None
            old.send_signal(number)
            host = start(words, port)
            old.wait(15)
            want("one that starts while the first is about to end is not", wait_for(port) and host.poll() is None)
    want("and it ends", ends(host, 15))
    host = start([*words, "--listen", f"0.0.0.0@{port}"], port)
    want("one server may have an address and all of its kind", wait_for(port))
    want("and it ends", ends(host, 15))


def try_slow_reader(zone, port):
    """A client that goes on reading has its transfers whole, however long the system waits until it takes more from zoned."""
    host = start(["--zone", f"example.com={zone}", "--tcp-idle", "1", "--allow-transfer", "127.0.0.1"], port)
    want("a server that is not patient is ready", wait_for(port))
    with socket.socket() as s:
        s.setsockopt(socket.SOL_SOCKET, socket.SO_RCVBUF, 32768)
        s.settimeout(10)
        s.connect(("127.0.0.1", port))
        s.sendall(frame(query("example.com", 252)) * 3)
        records, begun, f = 0, time.time(), s.makefile("rb", 4096)
        try:
            while records < 60012 and (reply := read(f)):
                records += answers(reply)
                time.sleep(len(reply) / 600000)
        except OSError:
            pass
    want(f"who reads slowly has all of it ({records} records in {time.time() - begun:.0f} seconds)", records == 60012)
    want("and it ends", ends(host, 15))


def try_starts(folder, zone, port):
    """A start without standard streams, names that are too long, and limits."""
    here = ["--listen", f"127.0.0.1@{port}", "--zone", f"example.com={zone}"]
    host = subprocess.Popen(["sh", "-c", 'exec "$@" <&- >&- 2>&-', "sh", ZONED, *here])
    is_ready = wait_for(port)
    files = [os.readlink(f"/proc/{pid}/fd/{number}") for pid in (host.pid, *children(host.pid)) for number in range(3)]
    want("without standard streams no socket has their numbers", is_ready and files == ["/dev/null"] * 6)
    want("and it ends", ends(host, 15))
    path = os.path.join(folder, "s" * 200)
    with socket.socket(socket.AF_UNIX) as other:
        other.bind(path[:107])
        status_is, said = told([*here, "--control", path])
        want("a path that is too long for a socket is told, and removes nothing", status_is == 1 and "has more than 107 bytes" in said and os.path.exists(path[:107]))
    want("a user that does not exist is told", told([*here, "--user", "no-such-user"]) == (1, 'zoned: --user: no such user: "no-such-user"\n'))
    many = [it for last in range(1, 18) for it in ("--listen", f"127.0.0.{last}@{port}")]
    want("more than 16 addresses are refused", told([*many, "--zone", f"example.com={zone}"]) == (1, "zoned: --listen is given more than 16 times\n"))
    for place, why in ((folder, "it is not a regular file"), (os.path.join(folder, "none"), "No such file or directory")):
        want(f"it is told why a file cannot be read: {why}", told(["--check", "--zone", f"example.com={place}"]) == (1, f"zoned: {place}: cannot be read: {why}\n"))
    keys = os.path.join(folder, "both")
    open(keys, "w").write(KEYS)
    rules = ["--check", *here, "--keys", keys, "--allow-update", "example.com=one.example", "--zone", f"example.org={zone}", "--allow-update", "example.org=one.example"]
    journals = [it for name in ("Example.com.", "example.org") for it in ("--journal", f"{name}={folder}/{name}.journal")]
    want("lost updates are told only if a zone has no journal", told([*rules, *journals]) == (0, "") and "updates of zones without a journal are lost" in told([*rules, *journals[:2]])[1])
    if os.geteuid() == 0:
        run = subprocess.run([ZONED, *here, "--user", "nobody"], stderr=subprocess.PIPE, text=True, timeout=60, preexec_fn=lambda: resource.setrlimit(resource.RLIMIT_NPROC, (0, 0)))
        want("limits are told if a worker cannot begin", run.returncode == 1 and "zoned: cannot begin a worker: Resource temporarily unavailable (limits" in run.stderr)


def try_help():
    """--help and the reference page have the same options, with the same defaults."""
    said = subprocess.run([ZONED, "--help"], stdout=subprocess.PIPE, text=True).stdout
    helped = {name: usual for name, usual in re.findall(r"^  (?:--\w+, )?(--[\w-]+)(?:.*: \d+ to \d+; (\d+)$)?", said, re.M)}
    with open(os.path.join(os.path.dirname(os.path.abspath(__file__)), "../docs/reference/zoned.md")) as page:
        rows = [it.strip("| \n").split(" | ") for it in page if it.startswith("| `--")]
    named = {name: usual for row in rows for name, usual in zip(re.findall(r"`(--[\w-]+)", row[0]), (row[2] if len(row) > 2 else "").split("; ") * 2)}
    want("the reference page has the options of --help", named.keys() == helped.keys() | {"--version"})
    want("with their defaults", all(named[name] == usual for name, usual in helped.items() if usual))


def try_arguments(zone, bad):
    try_help()
    named = subprocess.run([ZONED, "--version"], stdout=subprocess.PIPE, text=True)
    want("--version tells it", named.returncode == 0 and named.stdout.startswith("zoned 0."))
    want("--check takes a good file", status(["--check", "--zone", f"example.com={zone}"]) == 0)
    want("and not a bad one", status(["--check", "--zone", f"example.com={bad}"]) == 1)
    here = ["--zone", f"example.com={zone}"]
    wrong = {
        (): "--zone is missing",
        ("--zones", "x"): '"--zones" is not an option; zoned --help lists them',
        ("zones",): '"zones" is not an option; zoned --help lists them',
        ("--zone",): "--zone has no value",
        ("--config",): "--config has no value",
        ("--zone", "example.com"): '--zone: "example.com" is not NAME=FILE',
        ("--zone", "=x"): '--zone: "=x" is not NAME=FILE',
        ("--journal", "example.com="): '--journal: "example.com=" is not NAME=FILE',
        ("--allow-update", "k.example"): "--allow-update: \"k.example\" is not 'ZONE=KEY [zone|subdomain NAME|name NAME|self] [TYPE..]'",
        ("--max-udp", "511"): '--max-udp: "511" is not a number from 512 to 65535',
        ("--workers", "abc"): '--workers: "abc" is not a number from 1 to 64',
        tuple(here): "--listen is missing",
        (*here, "--allow-update", "example.com=k", "--workers", "2", "--check"): "--allow-update needs one worker: only one of several would see an update",
    }
    for words, says in wrong.items():
        want(f"wrong arguments are told: {says}", told(words) == (2, f"zoned: {says}\n"))
    adopted = subprocess.run(["sh", "-c", 'LISTEN_PID=$$ LISTEN_FDS=1 exec "$@"', "sh", ZONED, *here, "--listen", "127.0.0.1@5390"], stderr=subprocess.PIPE, text=True, timeout=60)
    want("--listen beside sockets of systemd is told", (adopted.returncode, adopted.stderr) == (2, "zoned: --listen is given, and systemd has opened the sockets (LISTEN_FDS)\n"))
    want("a wrong network is told", told(["--check", *here, "--allow", "1.2.3"]) == (1, 'zoned: --allow: "1.2.3": not an address\n'))
    want("a wrong name of a zone is told", told(["--check", "--zone", f"a..b={zone}"]) == (1, f'zoned: --zone: "a..b={zone}": not the name of a zone\n'))
    long = told(["--check", *here, "--nsid", "x" * 65532])
    want("a long identifier is told, and only its front is quoted", long == (1, f'zoned: --nsid: "{"x" * 250}": the identifier is too long\n'))
    said = subprocess.run([ZONED, "--check", *here, "--allow", b"\xff"], stderr=subprocess.PIPE).stderr
    want("a text that is not UTF-8 is told", said == b'zoned: --allow: "\xff": not UTF-8\n')
    want("one zone twice is told", told(["--check", *here, *here]) == (1, f'zoned: --zone: "example.com={zone}": there is a zone of this name already\n'))
    for address in ("127.0.0.1:5390", "localhost@5390", "127.0.0.1@0", "127.0.0.1@65536", "127.0.0.1@99999", "127.0.0.1@", "127.0.0.1@5x"):
        want(f'the address "{address}" is refused', told(["--listen", address, *here]) == (1, f'zoned: --listen: "{address}" is not ADDRESS[@PORT] with a port from 1 to 65535\n'))


def told(words):
    """The status of a call that ends, or none where it does not, and what it says on its standard error."""
    with subprocess.Popen([ZONED, *words], stdout=subprocess.DEVNULL, stderr=subprocess.PIPE, text=True) as ran:
        try:
            said = ran.communicate(timeout=20)[1]
        except subprocess.TimeoutExpired:
            ran.terminate()
            return None, ran.communicate()[1]
        return ran.returncode, said


def try_configuration(folder, zone, port):
    """Settings from a file in TOML, its faults, and a reload that reads it anew."""
    path = os.path.join(folder, "zoned.toml")
    good = f'listen = ["127.0.0.1@{port}"]\nworkers = 2\ndeny = "127.0.0.9"\n[zone]\n"example.com" = "{zone}"\n'

    def write(text):
        with open(path, "w") as it:
            it.write(text)

    write(good)
    want("--check takes a good configuration", told(["--config", path, "--check"])[0] == 0)
    write(f'[[zone]]\nname = "example.com"\nfile = "{zone}"\n\n[[zone]]\nname = "example.org"\n')
    want("a zone may be a table, and one without a file is told", told(["--config", path, "--check"]) == (2, 'zoned: --zone: "example.org=" is not NAME=FILE\n'))
    write(good)
    faults = {
        "a name of no option, with its line": ("workers = 1\nworker = 2\n" + good[good.index("[") :], "zoned.toml:2: there is no option \"worker\""),
        "a value of no kind, with its line": ("workers = 1\n\nmax-udp = 1.5\n", "zoned.toml:3: \"max-udp\" must be "),
        "a name without quotes in a table": ("[zone]\na.example = 'x'\n", "zoned.toml:2: \"zone\" must be "),
        "a name of no option in a zone": (f'[[zone]]\nname = "example.com"\nfile = "{zone}"\nfiles = 1\n', "zoned.toml:4: \"zone\" must be "),
        "what is no TOML, with its line": ("workers = 1\nlisten = ?\n", "zoned.toml:2: invalid value"),
        "a number that is too large": ("workers = 65\n", 'zoned: --workers: "65" is not a number from 1 to 64\n'),
        "a byte that no string of C has": ('nsid = "a\\u0000b"\n', "zero byte"),
    }
    for what, (text, says) in faults.items():
        write(text)
        code, says_it = told(["--config", path, "--check"])
        want(f"a fault of a configuration is told: {what}", code == 2 and says in says_it)
    want("a configuration that is not there is told", told(["--config", path + "x", "--check"]) == (2, f"zoned: {path}x: cannot be read: No such file or directory\n"))
    write(good)
    with subprocess.Popen([ZONED, "--config", path, "--nsid", "here"], stderr=subprocess.PIPE, text=True) as host:
        want("it is ready by its configuration", wait_for(port) and len(children(host.pid)) == 2)
        want("a network of the configuration may not ask", udp(query("www.example.com"), 0.5, port, "127.0.0.9") is None)
        write(good + f'"example.org" = "{zone}"\n')
        host.send_signal(signal.SIGHUP)
        time.sleep(0.7)
        want("a reload serves a zone more of the configuration", answers(udp(query("www.example.org"), 2, port)) == 1)
        for _ in range(2):
            write("no-option = 1\n" + good)
            host.send_signal(signal.SIGHUP)
            time.sleep(0.7)
        want("a configuration with a fault is not taken, and the old one goes on", answers(udp(query("www.example.org"), 2, port)) == 1)
        host.send_signal(signal.SIGTERM)
        said = host.communicate(timeout=10)[1]
        want("what was wrong is told, and it ends", host.returncode == 0 and said.count("there is no option") == 2)
    try_two_configurations(folder, zone, port)


def try_two_configurations(folder, zone, port):
    """Of two files, of which the second is not taken any more, both say on what they said before."""
    paths = [os.path.join(folder, name) for name in ("first.toml", "second.toml")]

    def write(log, second):
        for path, text in zip(paths, (f'query-log = "{folder}/{log}"\nlisten = "127.0.0.1@{port}"\nzone = "example.com={zone}"\n', second)):
            with open(path, "w") as it:
                it.write(text)

    write("log-one", 'nsid = "here"\n')
    with subprocess.Popen([ZONED, "--config", paths[0], "--config", paths[1]], stderr=subprocess.DEVNULL) as host:
        want("it is ready by two configurations", wait_for(port))
        write("log-two", "no-option = 1\n")
        host.send_signal(signal.SIGHUP)
        time.sleep(0.7)
        os.kill(children(host.pid)[0], signal.SIGKILL)
        time.sleep(1.5)
        want("a worker that begins behind a reload that was not taken has the settings of before", wait_for(port) and not os.path.exists(f"{folder}/log-two"))
        host.terminate()
        want("and it ends", host.wait(15) == 0)


def main():
    folder = tempfile.mkdtemp()
    os.chmod(folder, 0o755)
    if parts := sys.argv[2:]:
        for it in parts:
            globals()[f"try_{it}"](folder, PORT + 4)
        return
    zone, bad, broad = (os.path.join(folder, it) for it in ("zone", "bad", "broad"))
    large = "".join(f'large IN TXT "{i:03}{"x" * 200}"\n' for i in range(24))
    records = "".join(f'h{i} IN TXT "{"x" * 200}"\n' for i in range(20000 - 24))
    for it in (zone, broad):
        open(it, "w").write(SOA_AND_NS + WWW % 1 + large + records)
    open(bad, "w").write("nonsense")
    try_arguments(zone, bad)
    notified = socket.socket(socket.AF_UNIX, socket.SOCK_DGRAM)
    notified.bind(os.path.join(folder, "notify"))
    notified.settimeout(60)
    words = ["--zone", f"example.com={zone}", "--tcp-idle", "2", "--tcp-client", "20", "--deny", "127.0.0.9", "--allow-transfer", "127.0.0.0/8", "--deny-transfer", "127.0.0.8"]
    host = start([*words, "--metrics", METRICS], PORT, env={**os.environ, "NOTIFY_SOCKET": os.path.join(folder, "notify")})
    other = start(["--zone", f"example.com={zone}", "--max-udp", "600"], PORT + 1)
    try:
        want("systemd is told that it is ready", notified.recv(100) == b"STATUS=\nREADY=1\n")
        want("the second is ready", wait_for(PORT + 1))
        try_clients()
        try_same(zone)
        try_connections(children(host.pid)[0])
        try_rules()
        try_loop()
        try_statistics()
        try_metrics()
        try_signals(host, notified, zone)
    finally:
        for it in (host, other):
            if it.poll() is None:
                it.terminate()
                try:
                    it.wait(15)
                except subprocess.TimeoutExpired:
                    it.kill()
    want("the second ends", other.returncode == 0)
    open(zone, "w").write(SOA_AND_NS + WWW % 1)
    try_joined(folder, PORT + 2)
    try_configuration(folder, zone, PORT + 2)
    try_keys(folder, zone, PORT + 2)
    try_zone_transfers(folder, PORT + 2)
    for it in (try_journal, try_journal_clients, try_one_writer, try_journal_configuration, try_journal_limit, try_journal_at_once, try_journal_full, try_full_disks, try_journal_kills, try_crashes, try_journal_reloads, try_frozen, try_journal_control):
        it(folder, PORT + 4)
    try_control(folder, PORT + 2)
    try_bad_zones(folder, PORT + 2)
    try_bad_zone_with_journal(folder, PORT + 4)
    try_activation(zone, PORT + 2)
    try_log(folder, zone, PORT + 2)
    try_pipes(folder, zone, PORT + 2)
    try_deadline(broad, PORT + 2)
    try_slow_reader(broad, PORT + 2)
    try_generations(folder, PORT + 2)
    try_descriptors(zone, PORT + 2)
    try_many_zones(folder, PORT + 2)
    try_end(folder, zone, PORT + 2)
    try_one_server(zone, PORT + 2)
    try_starts(folder, zone, PORT + 2)
    try_limits(zone, PORT + 2)
    try_workers(zone, PORT + 2, os.path.join(folder, "kept"))
    try_privileges(zone, PORT + 2)
    if has_ipv6():
        try_wildcards(zone, PORT + 3)
        try_mapped(zone, PORT + 2)
    else:
        print("note: there is no IPv6 here, so no wildcard address is tried")


if __name__ == "__main__":
    main()
    print(f"{passed} passed, {failed} failed")
    sys.exit(failed != 0)
