"""Writes what programs do into transcripts, instead of what these say."""
import running
import shown
import transcripts


def lines_of(command, outcome):
    """What a command did, by the numbers of the lines of its transcript that it is below."""
    lines, rest, faults = shown.shown(command, outcome.lines, outcome.now, outcome.did)
    for it in faults:
        print(f"FAILED {command.place}: {it}")
    inputs = [it.number for it in command.body if it.kind.startswith("in")]
    last = inputs[-1] if inputs else command.end
    found = {}
    for at, line in lines:
        found.setdefault(last if at < 0 else command.body[at].number, []).append(line)
    found.setdefault(last, []).extend(rest)
    return found


def rewrite(path, commands, below):
    """Writes a transcript with these lines below those of these numbers, and without those that these commands had."""
    gone = {it.number for command in commands for it in command.body if it.kind in transcripts.OUTPUTS}
    with open(path, encoding="utf-8", newline="\n") as file:
        lines = file.read().split("\n")
    found = []
    for number, line in enumerate(lines, 1):
        found += [] if number in gone else [line]
        found += below.get(number, [])
    with open(path, "w", encoding="utf-8", newline="\n") as file:
        file.write("\n".join(found))


def accept(groups, builds):
    """Runs each scenario once, and writes what it did; the status is 1 where a command could not be run."""
    below, commands, failed = {}, {}, 0
    for group in groups:
        _, program_of = running.ways(group, builds)[0]
        for command, outcome in zip(group, running.run_group(group, program_of)):
            if outcome.fault:
                print(f"FAILED {command.place}: it {outcome.fault}")
                failed = 1
                continue
            commands.setdefault(command.path, []).append(command)
            below.setdefault(command.path, {}).update(lines_of(command, outcome))
    for path, them in commands.items():
        rewrite(path, them, below[path])
    print(f"{sum(len(it) for it in commands.values())} commands written")
    return failed
