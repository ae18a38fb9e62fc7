"""Times a call that two programs make so many times, by their processor times, so that other work on the machine counts little.

usage: time_calls.py CALLS OURS THEIRS   (each one word for the shell; the number of calls is added as its last word)
Each program runs with one call and with CALLS more, in turns, three times; the difference of the least processor times, divided by
CALLS, is the time of a call. The words that a program prints behind the first, as many as both have, have to be the same. Prints the
milliseconds of a call of ours and of theirs, the ratio, and the milliseconds of ours before and behind the calls.
"""
import os
import subprocess
import sys


def run(command, calls):
    """The processor time and the words that it prints."""
    child = subprocess.Popen(["sh", "-c", f"exec {command} {calls}"], stdout=subprocess.PIPE, text=True)
    words = child.stdout.read().split()
    _, status, usage = os.wait4(child.pid, 0)
    if status != 0 or len(words) < 2:
        sys.exit(f"{command} {calls}: status {status}")
    return usage.ru_utime + usage.ru_stime, words


def main():
    calls, commands = int(sys.argv[1]), sys.argv[2:]
    ones, manies = ([[] for _ in commands] for _ in range(2))
    for _ in range(3):
        told = []
        for command, one, many in zip(commands, ones, manies):
            one.append(run(command, 1)[0])
            seconds, words = run(command, calls + 1)
            many.append(seconds)
            told.append(words[1:])
        if any(ours != theirs for ours, theirs in zip(*told)):
            sys.exit(f"the answers differ: {told}")
    ours, theirs = (1000 * (min(many) - min(one)) / calls for one, many in zip(ones, manies))
    print(f"ours {ours:.2f} ms, theirs {theirs:.2f} ms, ratio {ours / theirs:.2f}; beside the calls {1000 * min(ones[0]) - ours:.0f} ms")


main()
