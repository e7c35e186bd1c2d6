"""What the driver and callgrind say, as figures by case, size and side."""
import glob
import os
import re
import subprocess

SIDES = ("ours", "peer", "ldns")


def rows(text):
    for line in text.splitlines():
        fields = line.split("\t")
        if len(fields) == 5:
            name, size, side, answer, figure = fields
            yield (name, int(size), side), int(answer), float(figure)


def driver(command):
    done = subprocess.run(command, check=True, stdout=subprocess.PIPE, text=True)
    return done.stdout


def function_costs(path):
    """The label of a file of callgrind, and the instructions in each function itself."""
    label, names, costs, current, is_call = None, {}, {}, None, False
    with open(path, encoding="utf-8", errors="replace") as lines:
        for line in lines:
            line = line.rstrip("\n")
            if line.startswith("desc: Trigger: Client Request: "):
                label = line.removeprefix("desc: Trigger: Client Request: ")
            elif line.startswith(("fn=", "cfn=")):
                number, _, name = line.split("=", 1)[1].partition(" ")
                if name:
                    names[number] = name
                if line.startswith("fn="):
                    current = number
            elif line.startswith("calls="):
                is_call = True
            elif re.match(r"[0-9+*-]", line):
                # The line behind a call has what the called function cost.
                if not is_call:
                    costs[current] = costs.get(current, 0) + int(line.split()[1])
                is_call = False
    return label, {names[number]: cost for number, cost in costs.items()}


def instructions(bench, folder, word=""):
    """For each measurement: what a round came to, its instructions, and those of each function."""
    for old in glob.glob(f"{folder}/callgrind*"):
        os.remove(old)
    callgrind = ["valgrind", "--quiet", "--tool=callgrind", "--toggle-collect=*measured_*"]
    said = driver([*callgrind, f"--callgrind-out-file={folder}/callgrind", bench, "instructions", word])
    files = dict(function_costs(path) for path in glob.glob(f"{folder}/callgrind*"))
    found = {}
    for key, answer, rounds in rows(said):
        costs = files["{}|{}|{}".format(*key)]
        functions = {name: cost / rounds for name, cost in costs.items()}
        found[key] = answer, sum(functions.values()), functions
    return found


def figures(bench, mode, word=""):
    """The one figure of each measurement."""
    return {key: figure for key, _, figure in rows(driver([bench, mode, word]))}
