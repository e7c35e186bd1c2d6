"""What the processes below this one use of the processors, by crate and by what they do for it."""
import os
import re
import threading

# The processes are looked at each so many seconds.
PAUSE = 1.0
TICK = os.sysconf("SC_CLK_TCK")

OTHERS = "(all others)"


def crate_of(words, folder, program, root):
    """Returns the crate that a process works for, by its command, else by the folder that it runs in, else by the program that it is."""
    if "--crate-name" in words[:-1]:
        return words[words.index("--crate-name") + 1]
    for path in (folder, program):
        found = re.match(re.escape(root) + r"/crates/(\w+)/", f"{path}/")
        if found:
            return found[1]
    return OTHERS


def work_of(words, folder, part):
    """Returns what a process does: the part of the check that it belongs to, and of that of `rt ci` what it is for."""
    if part != "proofs":
        return part
    if "/rt-edit-" in folder:
        return "gravest edits"
    if "--test" in words or any(it.endswith("_tests") for it in words[:1]):
        return "tests"
    return "proofs" if "check" in words[1:2] else "builds"


def text_of(path):
    try:
        with open(path, encoding="utf-8", errors="replace") as file:
            return file.read()
    except OSError:
        return ""


def link_of(path):
    try:
        return os.readlink(path)
    except OSError:
        return ""


def stat_of(process):
    """Returns a process's parent, when it began, and how many ticks it has used itself; None where it is gone."""
    fields = text_of(f"/proc/{process}/stat").rpartition(") ")[2].split()
    return (int(fields[1]), int(fields[19]), int(fields[11]) + int(fields[12])) if len(fields) > 19 else None


class Usage:
    """Looks at the processes below this one while parts of the check run."""

    def __init__(self, root):
        self.root, self.part = root, ""
        # By number and begin of a process: for which crate it works at what, and the ticks that it had used.
        self.seen = {}
        # How often a process with this label was seen.
        self.sights = {}
        self.minutes = {}
        self.ended, self.looking = threading.Event(), None

    def label_of(self, process, before):
        words = text_of(f"/proc/{process}/cmdline").split("\0")[:-1]
        if not words:
            return before
        folder = link_of(f"/proc/{process}/cwd")
        return crate_of(words, folder, link_of(f"/proc/{process}/exe"), self.root), work_of(words, folder, self.part)

    def look(self):
        """Takes in what each process below this one has used so far."""
        stats = {int(it): stat_of(it) for it in os.listdir("/proc") if it.isdigit()}
        stats = {it: stat for it, stat in stats.items() if stat}
        below, added = {os.getpid()}, True
        while added:
            added = {it for it, stat in stats.items() if stat[0] in below} - below
            below |= added
        for process in below - {os.getpid()}:
            _, begun, ticks = stats[process]
            label, _ = self.seen.get((process, begun), ((OTHERS, self.part), 0))
            label = self.label_of(process, label)
            self.seen[process, begun] = label, ticks
            if label[0] != OTHERS:
                self.sights[label] = self.sights.get(label, 0) + 1

    def begin(self, part):
        """Begins to look at a part of the check."""
        self.part, self.seen, self.sights = part, {}, {}
        self.ended.clear()
        self.looking = threading.Thread(target=self.look_on, daemon=True)
        self.looking.start()

    def look_on(self):
        while not self.ended.wait(PAUSE):
            self.look()

    def end(self, minutes):
        """Ends a part, which has used so many minutes of one processor. What was used unseen, by processes that are short or between two looks, is shared out by
        how often those of a crate were seen."""
        self.ended.set()
        self.looking.join()
        for (crate, work), ticks in self.seen.values():
            self.add((crate, work), ticks / TICK / 60)
        rest, sights = minutes - sum(ticks for _, ticks in self.seen.values()) / TICK / 60, sum(self.sights.values())
        for label, count in self.sights.items():
            self.add(label, rest * count / sights)
        if not sights:
            self.add((OTHERS, self.part), rest)

    def add(self, label, minutes):
        self.minutes[label] = max(0, self.minutes.get(label, 0) + minutes)

    def table(self):
        """Returns the lines of a table: a row for each crate, a column for each kind of work, in minutes of one processor."""
        works = list(dict.fromkeys(work for _, work in self.minutes))
        crates = sorted({crate for crate, _ in self.minutes}, key=lambda it: -sum(self.minutes.get((it, work), 0) for work in works))
        rows = [["", *works, "all"]]
        for crate in crates:
            used = [self.minutes.get((crate, work), 0) for work in works]
            rows.append([crate, *(f"{it:.1f}" if it else "" for it in used), f"{sum(used):.1f}"])
        sums = [sum(used for (_, of), used in self.minutes.items() if of == work) for work in works]
        rows.append(["all", *(f"{it:.1f}" for it in sums), f"{sum(sums):.1f}"])
        wide = [max(len(row[at]) for row in rows) for at in range(len(rows[0]))]
        return ["  ".join([row[0].ljust(wide[0]), *(it.rjust(size) for it, size in zip(row[1:], wide[1:]))]).rstrip() for row in rows]
