"""Runs the commands of transcripts, each scenario in a folder of its own."""
import os
import shutil
import subprocess
import tempfile
import time

import transcripts

SECONDS = 60

# The program that runs the C library: it takes the arguments and lines of zone_serve.
BY_LIBRARY = f"{transcripts.FOLDER}/zone_serve_by_library"
LIBRARY_WAY = "by the C library"
LIBRARY = f"{transcripts.REPOSITORY}/crates/zone_service/out/libzone_service.a"


class Builds:
    """The programs to be run, by name, and the C library; if some are named, only those. What is made for them is in a folder, while this is entered."""

    def __init__(self, named):
        self.named = named
        self.library = named.get("zone_service") or (None if named else LIBRARY)

    def __enter__(self):
        self.folder = tempfile.mkdtemp()
        self.clock = f"{self.folder}/clock.so"
        subprocess.run(["cc", "-O2", "-shared", "-fPIC", "-o", self.clock, f"{transcripts.FOLDER}/step_clock.c"], check=True)
        return self

    def __exit__(self, *_):
        shutil.rmtree(self.folder)

    def link_library(self):
        """Makes a shared object of the C library, if it is an archive, and of what it needs of the toolchain."""
        if self.library.endswith(".a"):
            made, page = f"{self.folder}/zone_service.so", subprocess.run(["rt", "doc"], stdout=subprocess.PIPE, text=True, check=True).stdout.strip()
            words = ["-Wl,--whole-archive", self.library, "-Wl,--no-whole-archive", f"{os.path.dirname(page)}/c/liblibc_c.a"]
            subprocess.run(["cc", "-shared", "-o", made, *words], check=True)
            self.library = made

    def of(self, name):
        """The builds of a program that are there, LLVM's first."""
        if self.named:
            return [self.named[name]] if name in self.named else []
        made = f"{transcripts.REPOSITORY}/crates/{name}/out/{name}"
        return [it for it in (made, f"{made}.by-rattle") if os.access(it, os.X_OK)]

    def environment(self, command):
        """What a command has in its environment beside what its transcript says: a stopped clock, if it says CLOCK_AT."""
        return {"LD_PRELOAD": self.clock} if "CLOCK_AT" in command.environment else {}


def put_files(folder, files):
    """Makes the files of a scenario: octets, an empty folder, or nothing of that name."""
    for name, octets in files.items():
        path = os.path.join(folder, name)
        if octets is None:
            if os.path.exists(path):
                os.remove(path)
        elif isinstance(octets, dict):
            os.makedirs(path, exist_ok=True)
        else:
            os.makedirs(os.path.dirname(path), exist_ok=True)
            with open(path, "wb") as file:
                file.write(octets)


def changed_files(command, before):
    """The files that a command finds changed: those that its transcript defines after the command before."""
    return {name: octets for name, octets in command.files.items() if before is None or name not in before.files or before.files[name] is not octets}


def input_of(octets):
    """A file that holds these octets, to be read from its front."""
    file = os.memfd_create("given")
    os.write(file, octets)
    os.lseek(file, 0, os.SEEK_SET)
    return file


def open_streams(command, octets):
    """The input of a command, and its output where it is one that fails."""
    given = os.open(command.streams["<"], os.O_RDONLY) if "<" in command.streams else input_of(octets)
    taken = os.open(command.streams[">"], os.O_WRONLY) if ">" in command.streams else os.memfd_create("printed")
    return given, taken


def run(command, program, octets, folder, environment):
    """What the program prints, what it writes on the standard error, and its status; a signal that ends it is a negative number."""
    given, taken = open_streams(command, octets)
    try:
        # (each build goes by the one name, which some print)
        ended = subprocess.run(
            [os.path.join(os.path.dirname(program), command.program), *command.arguments],
            executable=program, stdin=given, stdout=taken, stderr=subprocess.PIPE,
            cwd=folder, env={**environment, **command.environment}, timeout=SECONDS,
        )
        printed = b"" if ">" in command.streams else os.pread(taken, os.fstat(taken).st_size, 0)
    finally:
        os.close(given)
        os.close(taken)
    return printed, ended.stderr, ended.returncode


class Outcome:
    """What came of a command by one build: its input line by line, when that was made, and what the program did; or why it was not run."""

    def __init__(self, lines=(), now=0, did=(b"", b"", 0), fault=None):
        self.lines = lines
        self.now = now
        self.did = did
        self.fault = fault


def run_group(group, program_of):
    """Runs the commands of a scenario, one after the other in one folder, each by the program that is chosen for it."""
    outcomes, before = [], None
    folder = tempfile.mkdtemp()
    try:
        for command in group:
            put_files(folder, changed_files(command, before))
            before = command
            outcomes.append(run_one(command, folder, *program_of(command)))
    finally:
        shutil.rmtree(folder)
    return outcomes


def run_one(command, folder, program, environment):
    """What came of a command by this program, if there is one."""
    if program is None:
        return Outcome(fault=f"is not run: there is no crates/{command.program}/out/{command.program}")
    try:
        now = int(command.environment.get("CLOCK_AT") or time.time())
        octets, lines = command.given(now)
        return Outcome(lines, now, run(command, program, octets, folder, environment))
    except subprocess.TimeoutExpired:
        return Outcome(fault=f"took longer than {SECONDS} seconds")
    except (transcripts.Unread, ValueError) as fault:
        return Outcome(fault=f"has a message that is none: {fault}")


def ways(group, builds):
    """The ways in which a scenario is run: a name, and which program and environment each command of it has."""
    count = max([len(builds.of(it.program)) for it in group], default=0)
    found = []
    for at in range(max(count, 1)):
        def program_of(command, at=at):
            there = builds.of(command.program)
            return (there[min(at, len(there) - 1)] if there else None), builds.environment(command)
        found.append((["by LLVM", "by Rattle's compiler"][at] if count > 1 else "", program_of))
    if len(group) == 1 and group[0].is_served_alike and builds.library:
        found.append((LIBRARY_WAY, lambda _: (BY_LIBRARY, {"ZONE_SERVICE": builds.library, "PATH": os.environ.get("PATH", "")})))
    return found
