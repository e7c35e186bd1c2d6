#!/usr/bin/env python3
"""tries_package.py: makes the Debian package by ./package, and tries it in a fresh root of Debian 12, which debootstrap makes from the mirror that apt-get here
uses. Nothing of the toolchain is there, and the programs run in a network namespace. The zone is that of docs/start.md, the sample in C that of
docs/library/c.md. It must be run as root, and installs debootstrap, ip and lintian by apt-get if they are missing. PROGRAMS is that of ./package. The last line
is 'N passed, M failed'."""
import os
import re
import shutil
import subprocess
import sys
import tempfile
from concurrent.futures import ThreadPoolExecutor

sys.dont_write_bytecode = True

from packages import install

ROOT = os.path.dirname(os.path.dirname(os.path.abspath(__file__)))
QUERY = r"\x12\x34\1\0\0\1\0\0\0\0\0\0\3www\7example\3com\0\0\1\0\1"
# Files of Debian's own programs, which change when any package is installed, and the one list of users.
OTHERS = re.compile(
    r"/(?:dev|proc|run|sys|tmp|var/cache|var/log/(?:apt|alternatives\.log|dpkg\.log)|var/lib/(?:apt|dpkg)"
    r"|etc/(?:passwd|group|g?shadow|sub[ug]id)-?|etc/\.pwd\.lock)(?:/|$)"
)

# A machine: the root, with processes and a network of its own, which has the addresses of dist/zoned.toml.
MACHINE = """
mount -t proc none "$0/proc"
ip link set lo up
ip address add dev lo 192.0.2.1/32
ip address add dev lo 2001:db8::1/128 nodad
exec chroot "$0" bash -c "$1"
"""
# What dist/zoned.service lets zoned do.
AS_ZONED = "setpriv --reuid=zoned --regid=zoned --init-groups --no-new-privs " + " ".join(
    f"--{it}=-all,+net_bind_service" for it in ("bounding-set", "inh-caps", "ambient-caps")
)
passed = failed = 0


def want(what, holds, said=""):
    global passed, failed
    passed, failed = passed + bool(holds), failed + (not holds)
    print(f"ok   {what}" if holds else f"FAIL {what}: {said.strip()[-800:]}", flush=True)
    return holds


def run(*words):
    """Runs a command: whether its status is 0, and what it prints."""
    environment = {**os.environ, "LC_ALL": "C.UTF-8", "DEBIAN_FRONTEND": "noninteractive"}
    how = {"stdin": subprocess.DEVNULL, "stdout": subprocess.PIPE, "stderr": subprocess.STDOUT, "text": True, "errors": "replace"}
    try:
        ended = subprocess.run(words, cwd=ROOT, env=environment, timeout=900, **how)
    except subprocess.TimeoutExpired:
        return False, f"{words[0]} does not end"
    return ended.returncode == 0, ended.stdout


def read(path, mode="r"):
    with open(os.path.join(ROOT, path), mode) as file:
        return file.read()


def sample(page, kind):
    """The first sample of this kind in a page."""
    return re.search(rf"^```{kind}\n(.*?)^```$", read(page), re.MULTILINE | re.DOTALL)[1]


class Root:
    """A root of Debian 12 in a folder."""

    def __init__(self, at):
        self.at = at

    def make(self):
        targets = run("apt-get", "indextargets", "--format", "$(SITE)", "Created-By: Packages", "Codename: bookworm", "Component: main")[1].split()
        mirror = targets[0] if targets else "http://deb.debian.org/debian"
        # (what it mounts is seen by no other process)
        return want("debootstrap makes a root", *run("unshare", "--mount", "debootstrap", "--variant=minbase", "bookworm", self.at, mirror))

    def do(self, command):
        """Runs a command on the machine, which has no way out: whether its status is 0, and what it prints."""
        return run("unshare", "--net", "--mount", "--pid", "--fork", "--kill-child", "bash", "-ec", MACHINE, self.at, command)

    def add(self, *names):
        """Installs packages of Debian, by the network of this machine."""
        shutil.copy("/etc/resolv.conf", f"{self.at}/etc/resolv.conf")
        words = ["apt-get", "-q", "-y", "--no-install-recommends", "-o", "Dpkg::Options::=--force-unsafe-io", "install", *names]
        return want(f"Debian has {' '.join(names)}", *run("chroot", self.at, *words))

    def write(self, path, text):
        with open(f"{self.at}{path}", "w", encoding="utf-8") as file:
            file.write(text)

    def files(self):
        """The paths of all that is in the root, except OTHERS."""
        found = {f"{at}/{it}"[len(self.at) :] for at, folders, names in os.walk(self.at) for it in folders + names}
        return {it for it in found if not OTHERS.match(it)}


def make(folder):
    """Makes the package in a folder: its path, or None."""
    made, said = run(f"{ROOT}/package", folder)
    path = said.strip().split("\n")[-1]
    return path if want("the package is made", made and os.path.isfile(path), said) else None


def try_contents(package, folder):
    again = make(f"{folder}/again")
    want("made again, it has the same bytes", again and read(package, "rb") == read(again, "rb"))


def lint(package):
    """Whether lintian finds no error in the package, and what it says."""
    if not install("lintian", "lintian"):
        return False, "there is no lintian"
    return run("lintian", "--allow-root", "--fail-on", "error", package)


def try_bare(root):
    """With nothing but what Debian requires, the package is installed, its programs run, and it is removed."""
    before = root.files()
    want("it is installed without a network", *root.do("dpkg --install /tmp/jachwoki.deb"))
    version = root.do("dpkg-query --show --showformat '${Version}' jachwoki")[1]
    for name in root.do("dpkg --listfiles jachwoki | sed -n 's|^/usr/bin/||p'")[1].split():
        said = root.do(f"{name} --version")[1]
        want(f"{name} runs, and is of this version", said == f"{name} {version}\n", said)
    root.write("/etc/zones/example.com.zone", sample("docs/start.md", "zone"))
    want("check_zone finds nothing in the zone", *root.do("check_zone example.com /etc/zones/example.com.zone"))
    want("zoned takes its settings and the zone", *root.do("zoned --config /etc/zoned.toml --check"))
    os.remove(f"{root.at}/etc/zones/example.com.zone")
    try_purge(root, before, set())


def try_purge(root, before, kept):
    want("it is purged", *root.do("dpkg --purge jachwoki"))
    left = root.files() - before
    want(f"and leaves {' '.join(sorted(kept)) or 'nothing'}", left == kept, f"it leaves {' '.join(sorted(left))}")


def try_served(root):
    """zoned as its unit runs it, asked by dig."""
    asked = "dig +time=1 +tries=1 +short"
    command = f"""{AS_ZONED} zoned --config /etc/zoned.toml & at=$!
        for i in $(seq 100); do {asked} @192.0.2.1 www.example.com > /dev/null && break; sleep 0.1; done
        {asked} @192.0.2.1 www.example.com; {asked} +tcp @2001:db8::1 ns2.example.com; {asked} @192.0.2.1 example.com AXFR
        grep -h Cap[EP] /proc/$at/status; kill $at; wait $at; echo $?"""
    said = root.do(command)[1]
    wanted = "192.0.2.80\n198.51.100.2\n; Transfer failed.\nCapPrm:\t0000000000000400\nCapEff:\t0000000000000400\n0\n"
    want("zoned answers dig with the right to open port 53 and no other, and ends with status 0", said == wanted, said)


def try_library(root):
    page = "docs/library/c.md"
    root.write("/tmp/answer.c", sample(page, "c"))
    compiles = re.search(r"^ {4}(cc .*)$", read(page), re.MULTILINE)[1]
    want(f"the sample in C is compiled by {compiles}", *root.do(f"cd /tmp && {compiles}"))
    said = root.do(f"printf '{QUERY}' | /tmp/answer example.com /etc/zones/example.com.zone | tail -c 4 | od -An -tu1")[1]
    want("and answers", said.split() == ["192", "0", "2", "80"], said)


def try_used(root):
    """With what a user of it has beside it: dig, and a compiler."""
    if not root.add("bind9-dnsutils", "gcc", "libc6-dev", "pkg-config"):
        return
    before = root.files()
    want("it is installed again", *root.do("dpkg --install /tmp/jachwoki.deb"))
    root.write("/etc/zones/example.com.zone", sample("docs/start.md", "zone"))
    try_served(root)
    try_library(root)
    root.do("echo '# of the machine' >> /etc/zoned.toml")
    # (systemd makes these folders, for zoned.service)
    root.do("install -d -o zoned -g zoned /var/lib/zoned /var/log/zoned; touch /var/lib/zoned/journal /var/log/zoned/queries")
    want("an upgrade keeps settings that were changed", *root.do("dpkg --install /tmp/jachwoki.deb && grep -q 'of the machine' /etc/zoned.toml"))
    os.remove(f"{root.at}/etc/zones/example.com.zone")
    try_purge(root, before, {"/var/lib/zoned", "/var/lib/zoned/journal"})


def lack():
    """What keeps all from being tried, or None."""
    if os.geteuid() != 0:
        return "it must be run as root"
    needs = {"debootstrap": ["debootstrap"], "ip": ["iproute2"], "objdump": ["binutils"]}
    return next((f"there is no {it}" for it, names in needs.items() if not install(it, *names)), None)


def main():
    why = lack()
    want("there is what the package is tried with", not why, why or "")
    # (a folder for temporary files may be mounted without devices, which debootstrap makes)
    with tempfile.TemporaryDirectory(dir="/var/tmp") as folder:
        root, package = Root(f"{folder}/root"), make(folder)
        if package and not why and root.make():
            # (lintian reads the library for minutes)
            with ThreadPoolExecutor() as pool:
                linted = pool.submit(lint, package)
                shutil.copy(package, f"{root.at}/tmp/jachwoki.deb")
                try_contents(package, folder)
                try_bare(root)
                try_used(root)
                want("lintian finds no error", *linted.result())
    print(f"{passed} passed, {failed} failed")
    return failed != 0


sys.exit(main())
