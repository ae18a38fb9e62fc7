#!/usr/bin/env python3
"""Compares `venue verify` with examples/check_route.py over the examples, over what `venue route` prints between places of the station, and
over some hundred made answers, right and wrong. The costs of the routes are compared with a plain search over the printed table.

usage: compare_checkers.py [PROGRAM]   (without PROGRAM what is built in crates/venue_cli/out, else the launcher ./venue, which builds it)
It prints one line, and ends with status 1 at a difference.
"""
import concurrent.futures
import heapq
import os
import random
import subprocess
import sys
import tempfile

TOP = os.path.dirname(os.path.dirname(os.path.abspath(__file__)))
EXAMPLES = os.path.join(TOP, "examples")
BUILT = os.path.join(TOP, "crates", "venue_cli", "out", "venue_cli")
CHECKER = [sys.executable, os.path.join(EXAMPLES, "check_route.py")]
NODE = "00000000-0000-4000-8000-{:012x}"
TABLES, ANSWERS = 25, 14
# Places of the station by the last digits of their identifiers, and how many pairs of them are asked for each profile.
PLACES, PAIRS = [0x31, 0x41, 0x42, 0x51, 0x52, 0x101, 0x103, 0x107, 0x112, 0x203, 0x204, 0x300, 0x301, 0x302, 0x305, 0x404], 12


def made_table(chance):
    """Some nodes, and links between them as (from, to, cost)."""
    nodes = chance.choice([1, 2, 3, 4, 6, 9])
    links = [(chance.randrange(nodes), chance.randrange(nodes), chance.choice([0, 1, 5, 633, 6_700_000])) for _ in range(chance.randrange(nodes, 3 * nodes + 1))]
    text = ["imdf-links 1"] + ["node " + NODE.format(n) for n in range(nodes)]
    text += [f"link {a} {b} {cost} " + NODE.format(k) for k, (a, b, cost) in enumerate(links)] + ["end"]
    return nodes, links, text


def least_walks(nodes, links, start):
    """Dijkstra's least costs from the start, and the last link of a least walk to each node."""
    cost, last, queue = {start: 0}, {}, [(0, start)]
    while queue:
        here, node = heapq.heappop(queue)
        if here > cost[node]:
            continue
        for k, (a, b, c) in enumerate(links):
            if a == node and here + c < cost.get(b, here + c + 1):
                cost[b], last[b] = here + c, k
                heapq.heappush(queue, (here + c, b))
    return cost, last


def true_answer(nodes, links, start, end):
    cost, last = least_walks(nodes, links, start)
    text = ["imdf-answer 1", f"from {start}", f"to {end}"]
    if end not in cost:
        return text + ["none"] + [f"reach {n}" for n in sorted(cost)] + ["end"]
    steps, at = [], end
    while at != start:
        steps.append(last[at])
        at = links[last[at]][0]
    text += [f"route {cost[end]}"] + [f"step {k}" for k in reversed(steps)]
    return text + [f"at {n} {cost[n]}" for n in sorted(cost) if cost[n] < cost[end]] + ["end"]


def spoiled_line(chance, text):
    """The text with one line that is left out, repeated, exchanged or misspelled."""
    text = list(text)
    place = chance.randrange(len(text))
    kind = chance.randrange(4)
    if kind == 0:
        del text[place]
    elif kind == 1:
        text.insert(place, text[place])
    elif kind == 2 and place:
        text[place - 1], text[place] = text[place], text[place - 1]
    else:
        line = text[place]
        text[place] = chance.choice([line + " ", "0" + line, line.upper(), line.replace(" ", " 0", 1), "none", "end"])
    return text


def spoiled_number(chance, text):
    """The text with one number that is another."""
    text = list(text)
    place = chance.choice([place for place, line in enumerate(text) if line.split(" ")[-1].isdigit() and place])
    words = text[place].split(" ")
    word = chance.randrange(1, len(words))
    words[word] = str(max(0, int(words[word]) + chance.choice([-1, -1, -1, 1, 1, 1, 2, 4_398_046_511_103, 4_294_967_296])))
    text[place] = " ".join(words)
    return text


def cheaper(chance, links_text):
    """The table's text with one link that costs less."""
    text = list(links_text)
    places = [place for place, line in enumerate(text) if line.startswith("link ")]
    if places:
        words = text[place := chance.choice(places)].split(" ")
        words[3] = str(chance.randrange(int(words[3]) + 1))
        text[place] = " ".join(words)
    return text


def printed(program, words):
    return subprocess.run(program + words, capture_output=True).stdout.decode()


def links_in(text):
    """The number of nodes of a table's text, and its links as (from, to, cost)."""
    lines = text.splitlines()
    links = [tuple(int(word) for word in line.split(" ")[1:4]) for line in lines if line.startswith("link ")]
    return sum(line.startswith("node ") for line in lines), links


def cost_in(text):
    """From where to where an answer's text leads, and its cost, None where there is no walk."""
    lines = [line.split(" ") for line in text.splitlines()]
    return int(lines[1][1]), int(lines[2][1]), int(lines[3][1]) if lines[3][0] == "route" else None


def station_bases(program, folder, chance):
    """Bases with what `links` and `route` print of the station, and those of them whose cost isn't least."""
    bases, wrong = [], []
    for profile in ("walk", "wheelchair"):
        table = printed(program, ["links", EXAMPLES, "station", profile])
        nodes, links = links_in(table)
        for number in range(PAIRS):
            places = [NODE.format(place) for place in chance.sample(PLACES, 2)]
            answer = printed(program, ["route", EXAMPLES, "station", profile] + places)
            base = os.path.join(folder, f"{profile}-{number}")
            os.mkdir(base)
            for name, text in (("links.txt", table), ("answer.txt", answer)):
                with open(os.path.join(base, name), "w") as file:
                    file.write(text)
            bases.append(base)
            start, end, cost = cost_in(answer)
            if cost != least_walks(nodes, links, start)[0].get(end):
                wrong.append(f"{base}: route from {start} to {end} printed the cost {cost}")
    return bases, wrong


def answers_of(command, base):
    ran = subprocess.run(command + [base], capture_output=True)
    return ran.stdout, ran.returncode


def made_bases(folder):
    """Bases with made tables and answers, right and wrong, and of some that a file or its end is missing."""
    chance, bases = random.Random(7), [os.path.join(folder, "missing")]
    for table in range(TABLES):
        nodes, links, table_text = made_table(chance)
        for number in range(ANSWERS):
            base = os.path.join(folder, f"{table}-{number}")
            os.mkdir(base)
            answer = true_answer(nodes, links, chance.randrange(nodes), chance.randrange(nodes))
            written = spoiled_line(chance, table_text) if number == 0 else table_text
            spoil = chance.choice(["", "number", "number", "number", "cheaper", "cheaper", "line"])
            if spoil == "number":
                answer = spoiled_number(chance, answer)
            elif spoil == "line":
                answer = spoiled_line(chance, answer)
            elif spoil == "cheaper":
                written = cheaper(chance, written)
            for name, text in (("links.txt", written), ("answer.txt", answer)):
                with open(os.path.join(base, name), "w") as file:
                    file.write("\n".join(text) + chance.choice(["\n"] * 30 + ["", "\n\n"]))
            bases.append(base)
    return bases


def main():
    program = [sys.argv[1] if len(sys.argv) > 1 else BUILT if os.path.isfile(BUILT) else os.path.join(TOP, "venue")]
    seen, differ = {}, 0
    with tempfile.TemporaryDirectory() as folder:
        routes, wrong = station_bases(program, folder, random.Random(11))
        bases = sorted(entry.path for entry in os.scandir(EXAMPLES) if entry.is_dir()) + routes + made_bases(folder)
        with concurrent.futures.ThreadPoolExecutor(os.cpu_count()) as pool:
            told = list(pool.map(lambda base: (answers_of(program + ["verify"], base), answers_of(CHECKER, base)), bases))
        for base, (found, wanted) in zip(bases, told):
            kind = b" ".join(wanted[0].split()[:2]).decode() if wanted[0] else ""
            seen[kind] = seen.get(kind, 0) + 1
            if found != wanted:
                differ += 1
                print(f"{base}: the program {found}, check_route.py {wanted}", file=sys.stderr)
            if base in routes and found[0] != b"proved\n":
                wrong.append(f"{base}: of a printed route verify says {found}")
    kinds = ", ".join(f"{count} {kind}" for kind, count in sorted(seen.items()))
    for line in wrong:
        print(line, file=sys.stderr)
    print(f"compare_checkers: {len(bases)} answers, {differ} differences ({kinds})")
    return 1 if differ or wrong else 0


if __name__ == "__main__":
    sys.exit(main())
