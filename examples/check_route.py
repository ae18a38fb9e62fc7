#!/usr/bin/env python3
"""Checks the answer BASE/answer.txt over the table of links BASE/links.txt, from docs/FORMATS.md alone.

usage: check_route.py BASE
It prints the line that `venue verify BASE` prints and ends with the same status, and shares no code with it.
"""
import os, re, sys

LINKS_LIMIT, ANSWER_LIMIT = 268_435_456, 33_554_432
MOST_NODES, MOST_LINK, MOST_COST, MOST_STEP = 400_000, 6_700_000, 4_398_046_511_103, 4_294_967_295
NUMBER = rb"(0|[1-9][0-9]{0,18})"
IDENTIFIER = rb"[0-9a-f]{8}(?:-[0-9a-f]{4}){3}-[0-9a-f]{12}"
NODE = re.compile(rb"node " + IDENTIFIER)
LINK = re.compile(rb"link " + NUMBER + b" " + NUMBER + b" " + NUMBER + b" " + IDENTIFIER)


class Stop(Exception):
    """A line to print, and a status."""

class Lines:
    """The lines of a file that are not read yet."""
    def __init__(self, base, name, limit):
        try:
            with open(os.path.join(base, name), "rb") as file:
                text = file.read(limit + 1)
        except OSError as error:
            raise Stop(*((f"missing {name}", 2) if isinstance(error, FileNotFoundError) else ("fault folder", 3)))
        if len(text) > limit:
            raise Stop(f"large {name}", 2)
        self.name = name
        *self.lines, self.behind = text.split(b"\n")
        self.at = 0

    def fault(self):
        raise Stop(f"form {self.name} {self.at + 1}", 2)

    def take(self, pattern, fits=lambda *numbers: True):
        """The numbers of the next line where it is of the pattern and they fit, else None."""
        found = re.fullmatch(pattern, self.lines[self.at]) if self.at < len(self.lines) else None
        numbers = found and [int(digits) for digits in found.groups()]
        if found is None or not fits(*numbers):
            return None
        self.at += 1
        return numbers

    def need(self, pattern, fits=lambda *numbers: True):
        return self.fault() if (numbers := self.take(pattern, fits)) is None else numbers

    def all(self, pattern, fits=lambda *numbers: True):
        while (numbers := self.take(pattern, fits)) is not None:
            yield numbers

    def end(self):
        self.need(b"end")
        if self.at < len(self.lines) or self.behind:
            self.fault()


def read_table(base):
    lines, nodes = Lines(base, "links.txt", LINKS_LIMIT), 0
    lines.need(b"imdf-links 1")
    while nodes < MOST_NODES and lines.take(NODE) is not None:
        nodes += 1
    links = list(lines.all(LINK, lambda a, b, cost: a < nodes and b < nodes and cost <= MOST_LINK))
    lines.end()
    return nodes, links


def judge(base):
    nodes, links = read_table(base)
    lines = Lines(base, "answer.txt", ANSWER_LIMIT)
    nodes or lines.fault()
    lines.need(b"imdf-answer 1")
    (start,) = lines.need(b"from " + NUMBER, lambda n: n < nodes)
    (end,) = lines.need(b"to " + NUMBER, lambda n: n < nodes)
    route = lines.take(b"route " + NUMBER, lambda cost: cost <= MOST_COST)
    if route is None:
        lines.need(b"none")
    steps = [step for (step,) in lines.all(b"step " + NUMBER, lambda k: k <= MOST_STEP)] if route else []
    (listed, last), pattern = ({}, -1), b"at " + NUMBER + b" " + NUMBER if route else b"reach " + NUMBER
    for node, *value in lines.all(pattern, lambda n, p=0: last < n < nodes and p <= MOST_COST):
        listed[node], last = value, node
    lines.end()
    return judge_route(links, start, end, route[0], steps, listed) if route else judge_none(links, start, end, listed)


def judge_route(links, start, end, cost, steps, listed):
    at, total = start, 0
    for place, step in enumerate(steps, 1):
        if step >= len(links) or links[step][0] != at:
            return f"fails step {place}"
        at, total = links[step][1], total + links[step][2]
    potential = {node: value for node, (value,) in listed.items()}
    clauses = [(at == end, "end"), (total == cost, "sum")]
    clauses += [(potential.get(start, cost) == 0, "start"), (potential.get(end, cost) == cost, "finish")]
    clauses += ((potential.get(b, cost) <= potential.get(a, cost) + c, f"link {j}") for j, (a, b, c) in enumerate(links))
    return next((f"fails {place}" for holds, place in clauses if not holds), "proved")


def judge_none(links, start, end, reached):
    clauses = [(start in reached, "start"), (end not in reached, "finish")]
    clauses += ((a not in reached or b in reached, f"link {j}") for j, (a, b, _) in enumerate(links))
    return next((f"fails {place}" for holds, place in clauses if not holds), "proved")


def main(words):
    if len(words) != 1 or not 1 <= len(os.fsencode(words[0])) <= 1024:
        return "words", 2
    try:
        line = judge(words[0])
    except Stop as stop:
        return stop.args
    return line, 0 if line == "proved" else 1


printed, status = main(sys.argv[1:])
print(printed)
sys.exit(status)
