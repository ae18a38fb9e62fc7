"""Times tours of eight stops beside searches that reach every node, by a `session` over the venue of `levels.py`.

usage: tour_requests.py PROGRAM BASE LEVELS
A tour asks for nine searches: one from its beginning and one from each stop. Beside them stand nine routes from the same places to a room that is closed,
each of which ends only where nothing is left. What the session takes without either is taken off. The least of five processor times, in turns.
"""
import os
import subprocess
import sys

from table import row

ROUNDS, TOURS, STOPS = 5, 20, 8
HEAD = "HTTP/1.1\r\nhost: a\r\n"


def get(path):
    return f"GET {path} {HEAD}\r\n".encode()


def close(place):
    body = f'{{"feature":"{place}","closed":true}}'
    return f"POST /v1/closures {HEAD}x-staff-key: desk-key-1\r\ncontent-length: {len(body)}\r\n\r\n{body}".encode()


def spent(command, stream):
    """The processor time of a session in seconds, and what it answered."""
    with subprocess.Popen(command, stdin=subprocess.PIPE, stdout=subprocess.PIPE) as child:
        answers, _ = child.communicate(stream)
        assert child.returncode == 0, child.returncode
    return answers


def timed(command, stream, word, count):
    before = os.times()
    answers = spent(command, stream)
    after = os.times()
    assert answers.count(word) == count, (word, answers.count(word), answers[-500:])
    return after.children_user + after.children_system - before.children_user - before.children_system


def main():
    program, base, levels = sys.argv[1], sys.argv[2], int(sys.argv[3])
    unit = levels + 1 + levels * 102 + 2 * (levels - 1)

    def room(level, number):
        return f"00000000-0000-4000-8000-{unit + level * 103 + number + 1:012d}"

    shut = close(room(levels - 1, 99))
    tours, routes = b"", b""
    for k in range(TOURS):
        places = [room((37 * k + 23 * j) % (levels - 1), (11 * k + 7 * j) % 100) for j in range(STOPS + 2)]
        tours += get(f"/v1/tour?from={places[0]}&to={places[-1]}&stops={','.join(places[1:-1])}&profile=walk")
        for place in places[:-1]:
            routes += get(f"/v1/route?from={place}&to={room(levels - 1, 99)}&profile=walk")
    command = [program, "session", base, "levels"]
    least = {}
    for _ in range(ROUNDS):
        for name, stream, word, count in (
            ("alone", shut, b'"version":2', 1),
            ("tours", shut + tours, b'"result":"tour"', TOURS),
            ("searches", shut + routes, b'"result":"none"', TOURS * (STOPS + 1)),
        ):
            least[name] = min(least.get(name, 1e9), timed(command, stream, word, count))
    ours, theirs = (1e3 * (least[name] - least["alone"]) / TOURS for name in ("tours", "searches"))
    print(f"a tour of {STOPS} stops over {levels} levels {ours:.1f} ms, nine searches that reach all {theirs:.1f} ms, ratio {ours / theirs:.3g}")
    row(f"a tour of {STOPS} stops, {levels} levels", f"{ours:.1f} ms", f"nine searches {theirs:.1f} ms", f"{ours / theirs:.3g}", "at most 1.1")


main()
