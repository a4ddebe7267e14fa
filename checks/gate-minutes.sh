#!/bin/sh
# Runs `rt ci` at the top of the repository with the time since its start before each of its lines. At the end it prints two tables:
# minutes and processor minutes by part, and processor minutes by crate, the dearest first. It ends with rt ci's own status, and writes no
# file.
#
# Parts run side by side, so their minutes add up to more than the whole: a part's are those in which some process of it was there.
# A process counts for a part by the words and the folder with which rt started it. The base of a crate's edits is two checks. The
# first one proves the whole crate again, so that the others can rest on it. The last one is without an edit.
set -eu
cd "$(dirname "$0")/.."
exec python3 - <<'PYTHON'
import os
import re
import resource
import signal
import subprocess
import sys
import threading
import time

TICKS = os.sysconf("SC_CLK_TCK")
# The seconds between two looks at the processes.
PAUSE = 0.25
LIBRARIES, BASES, EDITS, TESTS, PROGRAMS = PARTS = ("libraries", "bases for edits", "edits", "tests", "programs")


def word_after(words, flag):
    at = words.index(flag) + 1 if flag in words else len(words)
    return words[at] if at < len(words) else ""


def part_of_crate(name):
    if name.endswith("_tests"):
        return TESTS
    return PROGRAMS if os.path.isfile(f"crates/{name}/src/main.rt") else LIBRARIES


def task_of(words, folder):
    """Returns the part and the crate for which rt started a process, or None where it is for no crate."""
    ran = next((found for found in (re.search(r"/rt-run-[^/]*/bin/(\w+)$", it) for it in words) if found), None)
    tools = [os.path.basename(it) for it in words]
    if ran:
        return (TESTS, ran[1].removesuffix("_tests")) if "rattle-test" in tools else (part_of_crate(ran[1]), ran[1])
    if "rattle-link" in tools:
        made = os.path.basename(word_after(words, "-o"))
        return (TESTS if made.endswith("_tests") else PROGRAMS), os.path.basename(folder)
    name = word_after(words, "--crate-name")
    if "rattle" not in tools or not name:
        return None
    if "--test" in words:
        return TESTS, name
    if os.path.basename(folder).startswith("rt-edit-"):
        return EDITS, name
    return part_of_crate(name), name


class Task:
    """A process that rt started for a crate, with all that this one started: its ticks, and when it was there."""

    def __init__(self, number, what, now):
        self.number, (self.part, self.crate) = number, what
        self.ticks, self.began, self.ended = 0, now, now


def text_of(file):
    with open(file, "rb") as it:
        return it.read().decode(errors="replace")


def processes():
    """Returns each process's parent, its start, its own ticks, and those of its children that have ended, by its number."""
    found = {}
    for pid in filter(str.isdigit, os.listdir("/proc")):
        try:
            fields = text_of(f"/proc/{pid}/stat").rpartition(")")[2].split()
        except OSError:
            continue
        own, ended = int(fields[11]) + int(fields[12]), int(fields[13]) + int(fields[14])
        found[int(pid)] = int(fields[1]), fields[19], own, ended
    return found


class Watch:
    """Looks at the processes below one again and again, and keeps the tasks."""

    def __init__(self, top):
        self.top, self.tasks, self.live, self.reaped = top, {}, set(), 0
        self.over = threading.Event()
        self.thread = threading.Thread(target=self.run, daemon=True)

    def run(self):
        while not self.over.wait(PAUSE):
            self.look(processes(), time.monotonic())

    def look(self, found, now):
        if self.top not in found:
            return
        below = {}
        for pid, (parent, *_) in found.items():
            below.setdefault(parent, []).append(pid)

        def ticks(pid):
            return found[pid][2] + found[pid][3] + sum(map(ticks, below.get(pid, ())))

        live, left = set(), list(below.get(self.top, ()))
        while left:
            pid = left.pop()
            key = pid, found[pid][1]
            task = self.tasks.get(key) or self.begin(key, now)
            if task:
                task.ticks, task.ended = max(task.ticks, ticks(pid)), now
                live.add(key)
            else:
                left += below.get(pid, ())
        self.settle(self.live - live, found[self.top][3])
        self.live = live

    def begin(self, key, now):
        try:
            words = text_of(f"/proc/{key[0]}/cmdline").split("\0")
            what = task_of(words, os.readlink(f"/proc/{key[0]}/cwd"))
        except OSError:
            return None
        if what:
            self.tasks[key] = Task(len(self.tasks), what, now)
        return self.tasks.get(key)

    def settle(self, ended, reaped):
        """Gives tasks that have ended what they took since they were last looked at, as far as their parent was told of it."""
        more = reaped - self.reaped - sum(self.tasks[it].ticks for it in ended)
        for it in ended:
            self.tasks[it].ticks += max(more, 0) / len(ended)
        self.reaped = reaped

    def all_tasks(self):
        """Returns the tasks. The first and the last check of a crate among those of its edits are the base."""
        rows = {}
        for it in sorted(self.tasks.values(), key=lambda it: it.number):
            if it.part == EDITS:
                rows.setdefault(it.crate, []).append(it)
        for row in rows.values():
            row[0].part = row[-1].part = BASES
        return list(self.tasks.values())


def processor_minutes(tasks):
    return sum(it.ticks for it in tasks) / TICKS / 60


def wall_minutes(tasks):
    """Returns for how long at least one of them was there."""
    whole, until = 0.0, 0.0
    for it in sorted(tasks, key=lambda it: it.began):
        whole += max(it.ended - max(it.began, until), 0.0)
        until = max(until, it.ended)
    return whole / 60


def table(heads, rows):
    print(f"\n| {' | '.join(heads)} |\n|{'---|' * len(heads)}")
    for row in rows:
        print(f"| {' | '.join(f'{it:.1f}' if isinstance(it, float) else str(it) for it in row)} |")


def tell(tasks, edits, wall, processors):
    by_part = {part: [it for it in tasks if it.part == part] for part in PARTS}
    rows = [(part, len({it.crate for it in by_part[part]}), wall_minutes(by_part[part]), processor_minutes(by_part[part])) for part in PARTS]
    rows.append(("rt itself, layout and the rest", "", "", max(processors - processor_minutes(tasks), 0.0)))
    rows.append((f"all, {edits} edits", len({it.crate for it in tasks}), wall, processors))
    table(("Part", "Crates", "Minutes", "Processor minutes"), rows)
    by_crate = {}
    for it in tasks:
        by_crate.setdefault(it.crate, []).append(it)
    dearest = sorted(by_crate.items(), key=lambda it: -processor_minutes(it[1]))
    each = lambda its: [processor_minutes([it for it in its if it.part == part]) for part in PARTS]
    table(("Crate, processor minutes", "all", *PARTS), [(name, processor_minutes(its), *each(its)) for name, its in dearest])


def main():
    begun, edits = time.monotonic(), 0
    sys.stdout.reconfigure(errors="replace")
    how = {"stdin": subprocess.DEVNULL, "stdout": subprocess.PIPE, "stderr": subprocess.STDOUT, "text": True, "errors": "replace"}
    # A key that stops the run stops rt too, and its last lines are still told.
    signal.signal(signal.SIGINT, lambda *_: None)
    with subprocess.Popen(["rt", "ci"], **how) as gate:
        signal.signal(signal.SIGTERM, lambda *_: gate.terminate())
        watch = Watch(gate.pid)
        watch.thread.start()
        for line in gate.stdout:
            since = int(time.monotonic() - begun)
            print(f"{since // 60:3d}:{since % 60:02d} {line}", end="", flush=True)
            said = re.match(r"rt: \w+: trying its must-fail edits \((\d+)\)", line)
            edits += int(said[1]) if said else 0
    watch.over.set()
    watch.thread.join()
    used = resource.getrusage(resource.RUSAGE_CHILDREN)
    tell(watch.all_tasks(), edits, (time.monotonic() - begun) / 60, (used.ru_utime + used.ru_stime) / 60)
    return gate.returncode if gate.returncode >= 0 else 128 - gate.returncode


sys.exit(main())
PYTHON
