"""Runs each command some times, in turns, and prints its least time, its peak memory and its least processor time.

usage: measure.py ROUNDS [--row FIGURE WANTED] NAME COMMAND [NAME COMMAND ..]   (a COMMAND is one word for the shell)
The last line is the ratio of the first command's time to the second's, then that of their processor times; with --row the former is a row of
the table of bench/run too.
"""
import os
import subprocess
import sys
import time

from table import row


def run(command):
    """The status of a command, its seconds, its peak memory in MiB and its processor time."""
    begin = time.monotonic()
    child = subprocess.Popen(["sh", "-c", "exec " + command], stdout=subprocess.DEVNULL)
    _, status, usage = os.wait4(child.pid, 0)
    return os.waitstatus_to_exitcode(status), time.monotonic() - begin, usage.ru_maxrss / 1024, usage.ru_utime + usage.ru_stime


def main(rounds, *words):
    told = words[1:3] if words[0] == "--row" else None
    words = words[3:] if told else words
    commands = list(zip(words[::2], words[1::2]))
    times = {name: [] for name, _ in commands}
    busy = {name: [] for name, _ in commands}
    peaks = {name: 0.0 for name, _ in commands}
    for _ in range(int(rounds)):
        for name, command in commands:
            status, seconds, peak, processor = run(command)
            if status not in (0, 1):
                sys.exit(f"{command}: status {status}")
            times[name].append(seconds)
            busy[name].append(processor)
            peaks[name] = max(peaks[name], peak)
    for name, _ in commands:
        print(f"{name}: {min(times[name]):.3f} s, peak {peaks[name]:.0f} MiB, processor {min(busy[name]):.3f} s")
    if len(commands) > 1:
        first, second = commands[0][0], commands[1][0]
        ratio, of_busy = (min(kept[first]) / min(kept[second]) for kept in (times, busy))
        print(f"ratio {first} / {second}: {ratio:.2f}, processor {of_busy:.2f}")
        if told:
            row(told[0], f"{min(times[first]):.3f} s", f"{second} {min(times[second]):.3f} s", ratio, told[1])


if __name__ == "__main__":
    main(*sys.argv[1:])
