"""Makes streams of requests, or times the readers over them in turns.

usage: time_requests.py make FOLDER | time FOLDER OURS THEIRS
Each stream is about 300 KB, so that it stays in the caches, and is read as often as gives a million requests. Its identifiers
differ. What is printed is the least of five processor times; the sums of what is asked for are compared.
"""
import os
import random
import subprocess
import sys

from table import row


def version(_):
    return b"GET /v1/version HTTP/1.1\r\nhost: a\r\n\r\n"


def route(chance):
    line = b"GET /v1/route?from=%s&to=%s&profile=wheelchair&certificate=yes HTTP/1.1\r\n" % (identifier(chance), identifier(chance))
    return line + b"host: a\r\naccept: application/json\r\nuser-agent: venue-app/1.4.12 (Linux 6.1)\r\n\r\n"


def closure(chance):
    body = b'{"feature":"%s","closed":true}' % identifier(chance)
    head = b"POST /v1/closures HTTP/1.1\r\nhost: a\r\nx-staff-key: desk-key-1\r\ncontent-length: %d\r\n\r\n" % len(body)
    return head + body


def identifier(chance):
    digits = b"%032x" % chance.getrandbits(128)
    return b"-".join([digits[:8], digits[8:12], b"4" + digits[13:16], b"8" + digits[17:20], digits[20:]])


STREAMS = {"version": (version, 37), "route": (route, 220), "closure": (closure, 148)}


def run(command):
    """Runs it and gives the processor time of a request, in nanoseconds, and the sum of what is asked for."""
    with subprocess.Popen(command, stdout=subprocess.PIPE, text=True) as child:
        read, found = map(int, child.stdout.read().split())
        _, status, usage = os.wait4(child.pid, 0)
    assert status == 0 and read >= 1_000_000, (command, status, read)
    return (usage.ru_utime + usage.ru_stime) * 1e9 / read, found


def main():
    folder = sys.argv[2]
    for name, (make, size) in STREAMS.items():
        requests = 300_000 // size
        if sys.argv[1] == "make":
            chance = random.Random(20260101)
            texts = [make(chance) for _ in range(requests)]
            assert {len(text) for text in texts} == {size}, {len(text) for text in texts}
            with open(f"{folder}/{name}", "wb") as stream:
                stream.write(b"".join(texts))
            continue
        words = [f"{folder}/{name}", str(requests), str(1_000_000 // requests + 1)]
        least = [1e9, 1e9]
        for _ in range(5):
            for side in range(2):
                time, found = run([sys.argv[3 + side], *words])
                least[side] = min(least[side], time)
                if side == 0:
                    wanted = found
                assert found == wanted, (name, found, wanted)
        print(f"{name}, {size} bytes: take {least[0]:.0f} ns, Rust {least[1]:.0f} ns, ratio {least[0] / least[1]:.2f}")
        row(f"a request, {name}", f"{least[0]:.0f} ns", f"Rust {least[1]:.0f} ns", least[0] / least[1], "at most 1.5")


main()
