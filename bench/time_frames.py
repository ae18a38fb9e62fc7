"""Makes streams of heads, or times the readers over them in turns.

usage: time_frames.py make FOLDER | time FOLDER OURS THEIRS
Each stream is about 300 KB, so that it stays in the caches, and is read as often as gives a million heads. What is printed is
the least of five processor times.
"""
import os
import subprocess
import sys

from table import row

LINE = b"GET /v1/version HTTP/1.1\r\n"
HOST = b"host: a\r\n"


def padded(line, fields, size):
    """A head of just this size with so many fields, names and values of real lengths."""
    names = [b"user-agent", b"accept", b"accept-language", b"accept-encoding", b"referer", b"cookie", b"cache-control"]
    lines = [line, HOST]
    left = size - sum(map(len, lines)) - 2
    for place in range(fields - 1):
        share = left // (fields - 1 - place)
        name = names[place % len(names)] if share > 20 else b"x-%d" % place
        value = (b"Mozilla/5.0 (X11; Linux x86_64) text/html;q=0.9, " * 9)[: share - len(name) - 4]
        lines.append(name + b": " + value.strip().ljust(len(value), b"x") + b"\r\n")
        left -= share
    head = b"".join(lines) + b"\r\n"
    assert len(head) == size, (len(head), size)
    return head


SIZES = {37: LINE + HOST + b"\r\n", 300: padded(LINE, 8, 300), 4000: padded(LINE, 64, 4000)}


def run(command):
    """Runs it and gives the processor time of a head, in nanoseconds; loading the stream is nothing beside a million heads."""
    with subprocess.Popen(command, stdout=subprocess.PIPE, text=True) as child:
        read = int(child.stdout.read())
        _, status, usage = os.wait4(child.pid, 0)
    assert status == 0 and read >= 1_000_000, (command, status, read)
    return (usage.ru_utime + usage.ru_stime) * 1e9 / read


def main():
    folder = sys.argv[2]
    for size, head in SIZES.items():
        heads = 300_000 // size
        if sys.argv[1] == "make":
            with open(f"{folder}/{size}", "wb") as stream:
                stream.write(head * heads)
            continue
        words = [f"{folder}/{size}", str(heads), str(1_000_000 // heads + 1)]
        commands = {
            "frame": [sys.argv[3], *words],
            "httparse alone": [sys.argv[4], "alone", *words],
            "httparse behind a search": [sys.argv[4], "search", *words],
        }
        least = {}
        for _ in range(5):
            for name, command in commands.items():
                least[name] = min(least.get(name, 1e9), run(command))
        for name, each in least.items():
            print(f"{size} bytes, {name}: {each:.0f} ns a head, ratio {least['frame'] / each:.2f}")
            if name != "frame":
                row(f"a head of {size} bytes", f"{least['frame']:.0f} ns", f"{name} {each:.0f} ns", least["frame"] / each)


main()
