#!/usr/bin/env python3
"""Builds the program, for the launcher: each library that it stands on by the kit's `rt lib`, lowest first and several side by side, and then
the program itself by `rt run`. What an earlier build left is used where its sources are the same.

usage: build.py [PROGRAM]   (the name of a program in crates.txt; without it venue_cli)
A line tells how far it is as each crate starts and ends, with a guess of the time that is left: by the lines of what is to be proved, at the
pace of what was proved so far, until then at that of a machine on which it was measured. What a crate's build prints goes to
out/logs/NAME.log. At the first crate that isn't proved the others are stopped, the lines of its error are printed, and the status is 1.

The build is never shorter than its longest chain of crates, each of which waits for the one before. So the crate for which most lines wait
gets as many jobs as there are processors and memory for, and what runs beside it runs at a lower priority: it takes what the chain leaves.

`rt lib` locks every crate below the one that it builds, so two of them can't work in one tree. So each crate is built in a tree of its own,
out/build/NAME: the sources of the crate and of those below it, and their libraries, under second names of the same files. `rt lib` finds
everything below built, so it reads none of it again, and what it makes is moved back to the crate's own out/.
"""
import fcntl
import os
import re
import resource
import shutil
import signal
import subprocess
import sys
import time

TOP = os.path.dirname(os.path.abspath(__file__))
TREES, LOGS = os.path.join(TOP, "out", "build"), os.path.join(TOP, "out", "logs")
SOURCES, MADE = ("src", "specs", "proofs"), ("rlib", "incremental")
# What a check of a large crate takes of memory at one job, and how much of that each further job takes, in GiB.
ONE_JOB, MORE_JOBS = 3, 1.8
# What the guess begins with: seconds of one processor for a crate whatever it has, for each of its lines, and for the program, as bench/README.md
# has them. A crate that took fewer seconds than KEPT was kept by an earlier build.
CRATE, LINE, PROGRAM, KEPT = 28, 0.021, 240, 5
# By how much what the longest chain doesn't wait for is lower in priority.
BESIDE = 10


def listed():
    """The crates of crates.txt, each with its line and with what that names."""
    with open(os.path.join(TOP, "crates.txt"), encoding="utf-8") as file:
        rows = [line.partition("#")[0].strip() for line in file]
    found = {row.partition(":")[0].split()[0]: row for row in rows if row}
    return found, {name: row.partition(":")[2].split() for name, row in found.items()}


def below(name, crates, found=None):
    """The repository's crates below this one, each behind those that it stands on."""
    found = [] if found is None else found
    for other in crates[name]:
        if other in crates and other not in found:
            below(other, crates, found)
            found.append(other)
    return found


def lines_of(name):
    """How long a crate's sources, definitions and proofs are."""
    count = 0
    for part in SOURCES:
        for at, _, files in os.walk(os.path.join(TOP, "crates", name, part)):
            for file in files:
                with open(os.path.join(at, file), "rb") as it:
                    count += it.read().count(b"\n")
    return count


def processors():
    return len(os.sched_getaffinity(0))


def free_memory():
    """What is free of memory, in GiB."""
    with open("/proc/meminfo", encoding="ascii") as file:
        return int(re.search(r"MemAvailable:\s+(\d+)", file.read())[1]) / (1 << 20)


def linked(one, other):
    """Gives the files of a folder second names in another one; where the file system has none, it copies them."""
    def link(source, target):
        try:
            os.link(source, target)
        except OSError:
            shutil.copy2(source, target)

    if os.path.isdir(one):
        shutil.copytree(one, other, copy_function=link)


def moved(name, tree, is_back):
    """Moves what was made of a crate into its own tree, or back from there."""
    here, there = (os.path.join(at, "crates", name, "out") for at in (TOP, tree))
    one, other = (there, here) if is_back else (here, there)
    for part in MADE:
        if os.path.isdir(os.path.join(one, part)):
            os.makedirs(other, exist_ok=True)
            shutil.rmtree(os.path.join(other, part), ignore_errors=True)
            os.rename(os.path.join(one, part), os.path.join(other, part))


def put_back():
    """Ends all trees, also those that a build left which was killed."""
    for name in os.listdir(TREES) if os.path.isdir(TREES) else []:
        if os.path.isdir(os.path.join(TOP, "crates", name)):
            moved(name, os.path.join(TREES, name), True)
    shutil.rmtree(TREES, ignore_errors=True)


def plant(name, crates, rows):
    """Makes the crate's tree."""
    tree, under = os.path.join(TREES, name), below(name, crates)
    for it in under + [name]:
        for part in SOURCES:
            linked(os.path.join(TOP, "crates", it, part), os.path.join(tree, "crates", it, part))
    for it in under:
        linked(os.path.join(TOP, "crates", it, "out", "rlib"), os.path.join(tree, "crates", it, "out", "rlib"))
    moved(name, tree, False)
    with open(os.path.join(tree, "crates.txt"), "w", encoding="utf-8") as file:
        file.writelines(f"{rows[it]}\n" for it in under + [name])
    return os.path.join(tree, "crates", name)


class Build:
    def __init__(self, program, crates, rows):
        self.program, self.crates, self.rows, self.left = program, crates, rows, below(program, crates)
        self.total, self.started = len(self.left) + 1, time.monotonic()
        # The longest way from a crate up to the program, in lines: of those that may start, the one with most behind it is first.
        self.behind = {it: lines_of(it) for it in self.left}
        self.costs = {it: CRATE + LINE * lines for it, lines in self.behind.items()} | {program: PROGRAM}
        for name in reversed(self.left):
            above = [it for it in self.behind if name in crates[it]]
            self.behind[name] += max((self.behind[it] for it in above), default=0)
        self.done, self.running, self.begun, self.took, self.memory = set(), {}, {}, {}, 0.85 * free_memory()

    def tell(self):
        past = int(time.monotonic() - self.started)
        names = f" ({', '.join(self.running)})" if self.running else ""
        print(f"venue: {len(self.done)} of {self.total} done, {len(self.running)} running{names}, {past // 60}:{past % 60:02}{self.left_over()}", file=sys.stderr, flush=True)

    def left_over(self):
        """A guess of the time that is left: of all that isn't done shared out over the processors, or of the longest chain of it, the greater."""
        now, shared, chained = time.monotonic(), 1, 1
        if self.took:
            known = sum(self.costs[it] for it in self.took)
            used = resource.getrusage(resource.RUSAGE_CHILDREN)
            shared, chained = (used.ru_utime + used.ru_stime) / known, sum(self.took.values()) / known
        open_costs = {it: cost for it, cost in self.costs.items() if it not in self.done}
        for it, begun in self.begun.items():
            open_costs[it] = max(0, open_costs[it] - (now - begun) / max(chained, 0.05))
        chains = {}
        for it in reversed(list(open_costs)):
            chains[it] = open_costs[it] + max((chains[other] for other in chains if it in self.crates[other]), default=0)
        if not open_costs:
            return ""
        seconds = max(shared * sum(open_costs.values()) / processors(), chained * max(chains.values(), default=0))
        return f", some {max(1, round(seconds / 60))} min left, by a guess" + ("" if self.took else " from another machine")

    def begin(self, name, folder, words, jobs, places, beside=False):
        with open(os.path.join(LOGS, f"{name}.log"), "wb") as log:
            words = ["rt", *words, "--jobs", str(jobs)]
            how = {"preexec_fn": lambda: os.nice(BESIDE)} if beside else {}
            process = subprocess.Popen(words, cwd=folder, stdin=subprocess.DEVNULL, stdout=log, stderr=subprocess.STDOUT, **how)
        self.running[name], self.begun[name] = (process, jobs, places), time.monotonic()

    def begin_ready(self):
        """Starts what may start: as many crates side by side as there are processors and memory for, that for which most waits first."""
        ready = [it for it in self.left if all(other in self.done for other in self.crates[it] if other in self.crates)]
        ready.sort(key=lambda it: -self.behind[it])
        while ready:
            idle = processors() - sum(places for _, _, places in self.running.values())
            room = self.memory - sum(ONE_JOB + MORE_JOBS * (jobs - 1) for _, jobs, _ in self.running.values())
            if idle < 1 or self.running and room < ONE_JOB:
                return
            name = ready.pop(0)
            is_longest = all(self.behind[name] >= self.behind[it] for it in self.running)
            # The longest way gets all jobs for which there is memory beside the others that may start, two where there is memory at all, and
            # holds up none of them; what is beside it gets its share of what is idle.
            others = ONE_JOB * min(len(ready), idle - 1) if is_longest else 0
            most = [1 + int((room - kept - ONE_JOB) / MORE_JOBS) for kept in (others, 0)]
            jobs = max(1, min(processors(), max(most[0], min(2, most[1])))) if is_longest else max(1, min(-(-idle // (len(ready) + 1)), most[1]))
            self.left.remove(name)
            self.begin(name, plant(name, self.crates, self.rows), ["lib"], jobs, 1 if is_longest else jobs, not is_longest)

    def wait(self):
        """Waits until something has ended, and returns the name of what failed, if it did."""
        while not any(process.poll() is not None for process, _, _ in self.running.values()):
            time.sleep(0.1)
        for name in [it for it, (process, _, _) in self.running.items() if process.poll() is not None]:
            status, took = self.running.pop(name)[0].returncode, time.monotonic() - self.begun.pop(name)
            if os.path.isdir(os.path.join(TREES, name)):
                moved(name, os.path.join(TREES, name), True)
                shutil.rmtree(os.path.join(TREES, name))
            # Without words the program ends with a status of its own: what counts is whether it is there.
            made = os.path.join(TOP, "crates", name, "out", name if name == self.program else "rlib/stamp")
            if not os.path.isfile(made) or name != self.program and status:
                return name
            self.done.add(name)
            # What was kept of an earlier build tells nothing of the pace.
            if took > KEPT:
                self.took[name] = took
        return None

    def stop(self):
        for process, _, _ in self.running.values():
            process.terminate()
        for process, _, _ in self.running.values():
            process.wait()

    def run(self):
        while self.left or self.running:
            self.begin_ready()
            self.tell()
            failed = self.wait()
            if failed:
                return failed
        self.begin(self.program, os.path.join(TOP, "crates", self.program), ["run"], processors(), processors())
        self.tell()
        failed = self.wait()
        self.tell()
        return failed


def tell_failure(name):
    path = os.path.join(LOGS, f"{name}.log")
    with open(path, encoding="utf-8", errors="replace") as file:
        lines = file.read().splitlines()
    found = [line for line in lines if re.search("error|no proof|not proved", line)][:10]
    print("\n".join(found + [line for line in lines[-3:] if line not in found]), file=sys.stderr)
    print(f"venue: {name} isn't built; the whole log is {path}", file=sys.stderr)


def main(words):
    program = words[0] if words else "venue_cli"
    rows, crates = listed()
    os.makedirs(os.path.dirname(TREES), exist_ok=True)
    # Held until this build ends.
    alone = open(os.path.join(TOP, "out", "build.lock"), "w", encoding="ascii")
    try:
        fcntl.flock(alone, fcntl.LOCK_EX | fcntl.LOCK_NB)
    except BlockingIOError:
        print("venue: waiting for another build to end", file=sys.stderr, flush=True)
        fcntl.flock(alone, fcntl.LOCK_EX)
    put_back()
    shutil.rmtree(LOGS, ignore_errors=True)
    os.makedirs(LOGS)
    build = Build(program, crates, rows)
    # A build that is ended leaves what it made where the next one finds it.
    for it in (signal.SIGTERM, signal.SIGHUP):
        signal.signal(it, lambda number, _: sys.exit(128 + number))
    try:
        failed = build.run()
    finally:
        build.stop()
        put_back()
    if failed:
        tell_failure(failed)
        return 1
    shutil.rmtree(LOGS)
    return 0


if __name__ == "__main__":
    try:
        sys.exit(main(sys.argv[1:]))
    except KeyboardInterrupt:
        sys.exit(130)
