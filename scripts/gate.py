#!/usr/bin/env python3
"""Tells what a run of the gate takes, in minutes of a processor by crate and kind.

    gate.py [PID]    watches the run with this process number, or the only `rt ci` that is running,
                     until it ends or Ctrl-C, and prints a table

It reads /proc once a second. Each command that the gate starts is a proof of a crate, a proof and a
run of its tests, the proof that its edits begin with, a try of an edit, or a program's build or run.
What such a command took is what it and all that it started took when they were last seen, so up to a
second of each is lost. A command that was running before is counted from its own beginning, one that
had ended is not in the table: the last line tells how much of the gate's time is.

*Twice* is what is proved once more: a crate that has tests of its own is proved with these again, and
edits begin with one more proof. *Alone* is for how long, by the clock, one command ran with no other.
"""

import collections
import os
import re
import sys
import time

TICKS = os.sysconf("SC_CLK_TCK")
KINDS = ("proof", "tests", "seed", "edits", "programs", "other")
RARE = 0.5  # minutes below which a crate's line is left out


class Process:
    """What /proc tells of a process; the times are seconds, with those of children that ended."""

    def __init__(self, number):
        with open(f"/proc/{number}/stat", encoding="utf-8", errors="replace") as text:
            fields = text.read().rpartition(")")[2].split()
        self.number = number
        self.parent = int(fields[1])
        self.begun = int(fields[19])
        self.seconds = sum(map(int, fields[11:15])) / TICKS
        self.children = sum(map(int, fields[13:15])) / TICKS

    def words(self):
        with open(f"/proc/{self.number}/cmdline", "rb") as text:
            return text.read().decode(errors="replace").split("\0")[:-1]

    def folder(self):
        return os.readlink(f"/proc/{self.number}/cwd")


def processes():
    """All processes, by number."""
    found = {}
    for name in os.listdir("/proc"):
        if name.isdigit():
            try:
                found[int(name)] = Process(int(name))
            except (OSError, IndexError):
                continue
    return found


def behind(words, name):
    """The word behind an option, if it is there."""
    return words[words.index(name) + 1] if name in words[:-1] else None


def kind_of(words, folder):
    """The crate that a command is for, and its kind; None of a command that is no work."""
    tool = os.path.basename(words[0]) if words else ""
    if tool in ("sh", "") or tool.startswith("python"):
        return None
    crate = behind(words, "--crate-name") or os.path.basename(folder)
    if tool == "rattle" and words[1:2] and words[1] in ("check", "build"):
        if os.path.basename(folder).startswith("rt-edit-"):
            seed = os.path.basename(behind(words, "--incremental") or "") == "seed"
            return crate, "seed" if seed else "edits"
        if "--test" in words:
            return crate, "tests"
        return crate, "programs" if "--crate-checked" in words else "proof"
    if tool == "rattle-test":
        return os.path.basename(words[-1]).removesuffix("_tests"), "tests"
    run = re.search(r"/rt-run-[^/]*/bin/(\w+)", words[0])
    if run:
        return run[1], "programs"
    return crate, "programs" if tool in ("rattle-link", "clang") else "other"


class Watch:
    """What was seen of the commands of one run of the gate."""

    def __init__(self, gate):
        self.gate = gate
        self.seconds = {}  # by number and beginning of a command
        self.kinds = {}
        self.alone = collections.Counter()
        self.all = 0.0

    def look(self, passed):
        """Takes one sample, so many seconds behind the last one; False once the gate has ended."""
        seen = processes()
        if self.gate not in seen:
            return False
        below = collections.defaultdict(list)
        for it in seen.values():
            below[it.parent].append(it)
        running = []
        for it in below[self.gate]:
            key = it.number, it.begun
            try:
                kind = kind_of(it.words(), it.folder())
            except OSError:
                continue
            if kind:
                self.kinds[key] = kind
                took = seconds_of(it, below)
                self.seconds[key] = max(took, self.seconds.get(key, 0))
                running.append(kind)
        if len(running) == 1:
            self.alone[running[0]] += passed
        self.all = max(self.all, seconds_of(seen[self.gate], below))
        return True

    def table(self):
        """Minutes by crate and by kind, and what goes before and behind them."""
        minutes = collections.defaultdict(collections.Counter)
        for key, (crate, kind) in self.kinds.items():
            minutes[crate][kind] += self.seconds[key] / 60
        return table(minutes, self.alone, self.all / 60)


def seconds_of(process, below):
    """What a process took with all that it started."""
    return process.seconds + sum(seconds_of(it, below) for it in below[process.number])


def twice(kinds):
    """Of a crate's minutes those in which it is proved once more."""
    return min(kinds["proof"], kinds["tests"]) + kinds["seed"]


def table(minutes, alone, whole):
    lines = ["| Crate | " + " | ".join(map(str.capitalize, KINDS)) + " | All | Twice |"]
    lines.append("|---|" + "--:|" * (len(KINDS) + 2))

    def row(name, kinds, again):
        cells = [kinds[it] for it in KINDS] + [sum(kinds.values()), again]
        return f"| {name} | " + " | ".join(f"{it:.1f}" if it else "" for it in cells) + " |"

    for crate in sorted(minutes, key=lambda it: -sum(minutes[it].values())):
        if sum(minutes[crate].values()) >= RARE:
            lines.append(row(crate, minutes[crate], twice(minutes[crate])))
    total = sum(minutes.values(), collections.Counter())
    lines.append(row("all", total, sum(map(twice, minutes.values()))))
    lines.append("")
    for (crate, kind), seconds in alone.most_common(5):
        lines.append(f"alone: {crate}, {kind}: {seconds / 60:.1f} minutes by the clock")
    lines.append(f"seen: {sum(total.values()):.1f} of {whole:.1f} minutes of a processor")
    return "\n".join(lines)


def gates(seen):
    """The numbers of the runs of the gate."""
    found = []
    for it in seen.values():
        try:
            words = [os.path.basename(word) for word in it.words()[:3]]
        except OSError:
            continue
        if words[1:] == ["rt", "ci"]:
            found.append(it.number)
    return found


def main(words):
    found = [int(it) for it in words] or gates(processes())
    if len(found) != 1:
        print(f"gate.py: there are {len(found)} runs of the gate: name one", file=sys.stderr)
        return 1
    watch, before = Watch(found[0]), time.monotonic()
    try:
        while watch.look(time.monotonic() - before):
            before = time.monotonic()
            time.sleep(1)
    except KeyboardInterrupt:
        pass
    print(watch.table())
    return 0


if __name__ == "__main__":
    sys.exit(main(sys.argv[1:]))
