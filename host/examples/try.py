#!/usr/bin/env python3
"""Installs the library below a folder, compiles the examples against it, and runs them. The last line is 'N passed, M failed'. PORT is a port that it uses."""
import os
import shutil
import socket
import subprocess
import sys
import tempfile
import time

HERE = os.path.dirname(os.path.abspath(__file__))
sys.dont_write_bytecode = True
sys.path.insert(0, os.path.dirname(HERE))

from packages import install

PORT = int(os.environ.get("PORT", "16371"))
ZONE = b"$TTL 60\n@ IN SOA ns admin 7 3600 1800 604800 86400\n@ IN NS ns\nwww IN A 192.0.2.1\n"
QUERY = bytes.fromhex("12340100000100000000000003777777076578616d706c6503636f6d0000010001")
ADDRESS = bytes([192, 0, 2, 1])
WARNINGS = ["-std=gnu11", "-Wall", "-Wextra", "-Wshadow", "-Werror"]
passed = failed = 0


def want(what, holds):
    global passed, failed
    passed, failed = passed + bool(holds), failed + (not holds)
    print("ok  " if holds else "FAIL", what, flush=True)
    return holds


def runs(*words, **more):
    return subprocess.run(words, cwd=HERE, **more).returncode == 0


def flags(folder):
    """What a program is compiled and linked with, as pkg-config says it."""
    words = ["pkg-config", "--cflags", "--libs", "zone_service"]
    return subprocess.run(words, env={**os.environ, "PKG_CONFIG_PATH": f"{folder}/lib/pkgconfig"}, stdout=subprocess.PIPE, text=True).stdout.split()


def try_c(folder):
    if not want("the example in C is compiled", runs("gcc", *WARNINGS, "-o", f"{folder}/answer", "answer.c", *flags(folder))):
        return
    words = [f"{folder}/answer", "example.com", f"{folder}/zone"]
    reply = subprocess.run(words, input=QUERY, stdout=subprocess.PIPE)
    want("and answers", reply.returncode == 0 and reply.stdout[:2] == QUERY[:2] and reply.stdout[-4:] == ADDRESS)
    none = subprocess.run(words, input=QUERY[:11], stdout=subprocess.PIPE)
    want("and says where there is no reply", none.returncode == 1 and none.stdout == b"")


def try_cpp(folder):
    """The header, and the example with it, are C++ too."""
    words = ["g++", "-std=c++17", "-Wall", "-Wextra", "-Werror", "-o", f"{folder}/answer_cpp", "-x", "c++", "answer.c", "-x", "none", *flags(folder)]
    if want("the example is compiled as C++ (g++)", install("g++", "g++") and runs(*words)):
        reply = subprocess.run([f"{folder}/answer_cpp", "example.com", f"{folder}/zone"], input=QUERY, stdout=subprocess.PIPE)
        want("and answers", reply.returncode == 0 and reply.stdout[-4:] == ADDRESS)


def try_rust(folder):
    if shutil.which("rustc") is None:
        print("note: there is no rustc, so the examples in Rust are not tried")
        return
    rust = ["rustc", "--edition", "2024", "-D", "warnings", "--out-dir", folder]
    libraries = ["-L", f"native={folder}/lib", "-l", "static=zone_service", "-l", "static=libc_c"]
    if not want("the wrapper in Rust is compiled", runs(*rust, "--crate-type", "rlib", *libraries, "zone_service.rs")):
        return
    wrapper = ["--extern", f"zone_service={folder}/libzone_service.rlib"]
    want("and its calls do what they say", runs(*rust, "--test", *wrapper, "calls.rs") and runs(f"{folder}/calls", "--quiet"))
    if want("the server in Rust is compiled", runs(*rust, *wrapper, "answer_udp.rs")):
        server = subprocess.Popen([f"{folder}/answer_udp", f"127.0.0.1:{PORT}", "example.com", f"{folder}/zone"])
        want("and answers", answers())
        server.kill()
        server.wait()


def answers():
    with socket.socket(socket.AF_INET, socket.SOCK_DGRAM) as s:
        s.settimeout(0.2)
        for _ in range(50):
            s.sendto(QUERY, ("127.0.0.1", PORT))
            try:
                return s.recv(512)[-4:] == ADDRESS
            except OSError:
                time.sleep(0.1)
    return False


def main():
    with tempfile.TemporaryDirectory() as folder:
        open(f"{folder}/zone", "wb").write(ZONE)
        install("pkg-config", "pkg-config")
        if want("it is installed", runs("../install", folder, stdin=subprocess.DEVNULL)):
            try_c(folder)
            try_cpp(folder)
            try_rust(folder)
    print(f"{passed} passed, {failed} failed")
    return failed != 0


sys.exit(main())
