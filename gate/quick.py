"""A look at the check in a few minutes, which is not the check: one small crate is proved, its wrong edits are refused, and programs that are built without
any proof run on the rows of `cases`."""
import os
import re
import subprocess
import sys
import tempfile
import time
from concurrent.futures import ThreadPoolExecutor

ROOT = os.path.dirname(os.path.dirname(os.path.abspath(__file__)))
sys.path[:0] = [f"{ROOT}/planted", f"{ROOT}/cases"]

import crates
import machine
import shown
import transcripts

# What `rt try` prints of a case: on one stream a line with its name before its output, on the other a line with how it ended after its messages.
OUTPUT = re.compile(rb"^== (\d+)\n", re.MULTILINE)
ENDED = re.compile(rb"^case=(\d+) run=(\S+) status=(\S+) [^\n]*\n", re.MULTILINE)
# It would run each case on an interpreter first, for so many steps.
STEPS = "1"
# The programs whose rows are run, at most so many of each, and none that reads more lines: an unproved program is slow.
PROGRAMS = ("zone_serve", "check_zone", "zone_reply")
MOST, LINES = 60, 20


def tell(text):
    print(f"verify --quick: {text}", flush=True)


def text_size(name):
    """Returns how many bytes of text a crate has."""
    return sum(os.path.getsize(it) for part in crates.PARTS for it in crates.files_in(f"{ROOT}/crates/{name}/{part}"))


def smallest_crate():
    """Returns the crate with must-fail edits that takes least to prove, with all that it rests on."""
    table = crates.rows()
    tried = [it for it in table if os.path.isdir(f"{ROOT}/crates/{it}/must-fail")]
    return min(tried, key=lambda name: sum(map(text_size, [name, *crates.below(name, table)])))


def output_of(words, folder):
    """Runs a command; returns its lines, and its status."""
    ran = subprocess.run(words, cwd=folder, stdin=subprocess.DEVNULL, stdout=subprocess.PIPE, stderr=subprocess.STDOUT, text=True, errors="replace")
    return ran.stdout.rstrip("\n").split("\n"), ran.returncode


def prove(name):
    """Proves a crate and tries its must-fail edits; returns how many of these passed and how many failed."""
    said, status = output_of(["rt", "verdict"], f"{ROOT}/crates/{name}")
    tell(f"rt verdict in crates/{name}: {said[-1]}")
    if status:
        return 0, 1
    edits = [it for it in os.listdir(f"{ROOT}/crates/{name}/must-fail") if it.endswith(".edit")]
    said, status = output_of(["rt", "must-fail", name], ROOT)
    refused = [it for it in said if re.search(rf"must-fail {name}/\S+: refused", it)]
    tell(f"rt must-fail {name}: {len(refused)} of {len(edits)} wrong edits are refused")
    return 1 + len(refused), max(len(edits) - len(refused), int(status != 0))


def can_be_tried(group):
    """Whether `rt try` can run a scenario: one command, with no environment, no streams that fail, and files that are files."""
    command = group[0]
    is_named = any("Usage: " in it.text for it in command.body if it.kind in ("out", "err"))
    is_short = sum(it.kind.startswith("in") for it in command.body) <= LINES
    is_plain = len(group) == 1 and not command.environment and not command.streams and not is_named and is_short
    return is_plain and not any("\x00" in it or not it.isascii() for it in command.arguments)


def files_of(command):
    """Returns the files that a command's arguments name, and those that these include."""
    named = {name for name in command.files if any(name in it for it in command.arguments)}
    texts = [command.files[it] for it in named if isinstance(command.files[it], bytes)]
    named |= {name for name in command.files if any(f"$INCLUDE {name}".encode() in it for it in texts)}
    return {name: octets for name, octets in command.files.items() if name in named}


def with_one_text_a_name(commands):
    """Returns commands that can be run in one folder, since each file of theirs has one content, and those files by name: the first ones."""
    files, found = {}, []
    for command in commands:
        own = files_of(command)
        is_alike = all(isinstance(octets, bytes) and files.get(name, octets) == octets for name, octets in own.items())
        if is_alike and len(found) < MOST:
            files.update(own)
            found.append(command)
    return found, files


def write(path, octets):
    os.makedirs(os.path.dirname(path), exist_ok=True)
    with open(path, "wb") as file:
        file.write(octets)


def try_all(program, commands, files, now):
    """Builds a program without any proof and runs commands; returns what `rt try` printed on both streams, and the lines of input of each command."""
    with tempfile.TemporaryDirectory(prefix="quick-") as folder:
        inputs = []
        for at, command in enumerate(commands):
            octets, lines = command.given(now)
            inputs.append(lines)
            write(f"{folder}/cases/{at}", octets)
            write(f"{folder}/cases/{at}.args", "".join(f"{it}\n" for it in command.arguments).encode())
        words = ["rt", "try", "--steps", STEPS, "--cases", f"{folder}/cases"]
        for name, octets in files.items():
            write(f"{folder}/files/{name}", octets)
            words += ["--data", f"{name}={folder}/files/{name}"]
        ran = subprocess.run(words, cwd=f"{ROOT}/crates/{program}", stdin=subprocess.DEVNULL, stdout=subprocess.PIPE, stderr=subprocess.PIPE)
    return ran.stdout, ran.stderr, inputs


def is_passed(command, lines, now, ended):
    """Whether a command printed what its transcript wants, and ended as it wants."""
    output, messages, run, status = ended
    found, rest, faults = shown.shown(command, lines, now, (output, messages, int(status)))
    return run == b"ended" and not faults and shown.wanted(command) == (found, rest)


def ends_of(said, told):
    """Returns what `rt try` said of each case, by its number: its output, its messages, whether it ended, and its status."""
    outputs, messages = OUTPUT.split(said)[1:], ENDED.split(told)
    output_of_case = dict(zip(outputs[::2], outputs[1::2]))
    cases = zip(messages[::4], messages[1::4], messages[2::4], messages[3::4])
    return {int(case): (output_of_case.get(case, b""), before, run, status) for before, case, run, status in cases}


def run_unproved(program, groups):
    """Builds a program without any proof and runs scenarios of it; returns how many passed and how many failed."""
    can = [group[0] for group in groups if can_be_tried(group)]
    (commands, files), now = with_one_text_a_name(can), int(time.time())
    said, told, inputs = try_all(program, commands, files, now)
    ends, failed = ends_of(said, told), 0
    for at, command in enumerate(commands):
        if at not in ends or not is_passed(command, inputs[at], now, ends[at]):
            failed += 1
            tell(f"FAILED {command.place}, by {program}, built without any proof")
    if not ends:
        tell(f"rt try in crates/{program} said:\n" + "\n".join(f"  {it}" for it in told.decode(errors="replace").rstrip().split("\n")[-8:]))
    left = len(groups) - len(commands)
    tell(f"{program}, built without any proof: {len(commands) - failed} of {len(commands)} rows pass{f'; {left} scenarios more need the proved program' if left else ''}")
    return len(commands) - failed, failed


def main():
    """Does all of it side by side, and returns the status."""
    started, name = time.monotonic(), smallest_crate()
    tell("THIS IS NOT THE CHECK: it proves one crate and no other, and runs programs of which nothing is proved. ./verify is the check")
    tell("it takes less than five minutes on four cores")
    by_program, shared = {it: [] for it in PROGRAMS}, transcripts.shared_files()
    for path in transcripts.all_paths():
        for group in transcripts.scenarios(transcripts.read(path, shared)):
            by_program.get(group[0].program, []).append(group)
    with ThreadPoolExecutor(min(machine.processors(), 1 + len(PROGRAMS))) as pool:
        tasks = [pool.submit(run_unproved, it, groups) for it, groups in by_program.items()]
        tasks.insert(1, pool.submit(prove, name))
        sums = [it.result() for it in tasks]
    passed, failed = (sum(it) for it in zip(*sums))
    tell(f"in {(time.monotonic() - started) / 60:.1f} minutes. This was not the check: ./verify is")
    print(f"{passed} passed, {failed} failed")
    return 1 if failed else 0
