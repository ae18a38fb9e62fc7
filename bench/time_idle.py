"""Visitors beside crowds that hold connections open, for `time_serve.py`; and the clients themselves, each in a process of its own.

usage: time_idle.py crowd KIND PORT COUNT SECONDS   (KIND is a key of CROWDS; it prints `up` when all are connected, and at its end what it found)
       time_idle.py visit PORT RATE SECONDS         (prints how many weren't answered, and the times in milliseconds: middle, ninety-ninth, longest)
"""
import asyncio
import contextlib
import os
import random
import resource
import subprocess
import sys
import time

from table import row

RATE, SECONDS = 50, 10
VERSION = b"GET /v1/version HTTP/1.1\r\nhost: a\r\n\r\n"
CLOSING = b"GET /v1/version HTTP/1.1\r\nhost: a\r\nconnection: close\r\n\r\n"
PLACES = b"GET /v1/places HTTP/1.1\r\nhost: a\r\n\r\n"
# The longest that a client waits for a reply, in seconds, and how often one of the crowd asks.
LONGEST, EVERY = 20, 5


async def ask(link, text):
    """Whether a whole reply of status 200 came, and how many milliseconds it took."""
    reader, writer = link
    begin = time.monotonic()
    writer.write(text)
    try:
        head = await asyncio.wait_for(reader.readuntil(b"\r\n\r\n"), LONGEST)
        length = next(line for line in head.lower().split(b"\r\n") if line.startswith(b"content-length:"))
        await asyncio.wait_for(reader.readexactly(int(length.partition(b":")[2])), LONGEST)
    except (OSError, EOFError, asyncio.TimeoutError):
        return False, (time.monotonic() - begin) * 1e3
    return head.startswith(b"HTTP/1.1 200"), (time.monotonic() - begin) * 1e3


def connect(port):
    return asyncio.open_connection("127.0.0.1", port)


class Times:
    """How long replies took, and how many never came."""

    def __init__(self):
        self.all, self.lost = [], 0

    def add(self, answered, took):
        self.all.append(took)
        self.lost += not answered

    def __str__(self):
        self.all.sort()
        at = [self.all[min(len(self.all) - 1, len(self.all) * part // 100)] for part in (50, 99, 100)] if self.all else [0] * 3
        return " ".join(f"{it:.2f}" for it in (self.lost, *at))


async def visit(port, rate, seconds):
    times, begin = Times(), time.monotonic()

    async def one():
        start = time.monotonic()
        try:
            link = await asyncio.wait_for(connect(port), LONGEST)
        except (OSError, asyncio.TimeoutError):
            return times.add(False, (time.monotonic() - start) * 1e3)
        answered, _ = await ask(link, CLOSING)
        times.add(answered, (time.monotonic() - start) * 1e3)
        link[1].close()

    tasks = []
    for k in range(rate * seconds):
        await asyncio.sleep(max(0.0, begin + k / rate - time.monotonic()))
        tasks.append(asyncio.create_task(one()))
    await asyncio.gather(*tasks)
    print(times)


async def silent(link, _port, end, _times):
    await asyncio.sleep(end - time.monotonic())


async def trickle(link, port, end, _times):
    """A byte of a head a second; who is closed connects anew."""
    await asyncio.sleep(random.random())
    link[1].write(b"G")
    while time.monotonic() < end:
        await asyncio.sleep(1)
        if link[0].at_eof() or link[1].is_closing():
            with contextlib.suppress(OSError):
                link = await connect(port)
        link[1].write(b"x")


async def stay(link, port, end, times):
    """A question every five seconds; who finds the connection closed connects anew, and asks again."""
    await asyncio.sleep(random.random() * EVERY)
    while time.monotonic() < end:
        begin = time.monotonic()
        for _ in range(3):
            answered = not link[0].at_eof() and (await ask(link, VERSION))[0]
            if answered:
                break
            link[1].close()
            with contextlib.suppress(OSError):
                link = await connect(port)
        times.add(answered, (time.monotonic() - begin) * 1e3)
        await asyncio.sleep(EVERY * (0.5 + random.random()))


async def hungry(link, _port, end, _times):
    """Many large replies are asked for, and none is read."""
    link[1].transport.pause_reading()
    link[1].write(20 * PLACES)
    await asyncio.sleep(end - time.monotonic())


async def kept(link, _port, end, times):
    times.add(*await ask(link, VERSION))
    await asyncio.sleep(end - time.monotonic())


CROWDS = {it.__name__: it for it in (silent, trickle, stay, hungry, kept)}


async def crowd(kind, port, count, seconds):
    links = [await connect(port) for _ in range(count)]
    print("up", flush=True)
    end, times = time.monotonic() + seconds, Times()
    await asyncio.gather(*(CROWDS[kind](link, port, end, times) for link in links), return_exceptions=True)
    print(times)


def client(*words):
    return subprocess.Popen([sys.executable, os.path.abspath(__file__), *map(str, words)], stdout=subprocess.PIPE, text=True)


def beside(server, kind, count, visitors):
    """What visitors and crowd found, and what the server took meanwhile: the part of a processor, and the MiB more."""
    empty = server.memory("VmRSS")
    people = client("crowd", kind, server.port, count, SECONDS + 3)
    if people.stdout.readline() != "up\n":
        sys.exit(f"the crowd {kind} can't connect to {server.name}")
    time.sleep(1)
    before, begin = server.processor(), time.monotonic()
    guests = client("visit", server.port, RATE, SECONDS) if visitors else None
    found = guests.communicate()[0] if visitors else time.sleep(SECONDS)
    busy = sum(now - then for then, now in zip(before, server.processor())) / (time.monotonic() - begin)
    held = server.memory("VmRSS") - empty
    return [float(it) for it in (found or "").split()], [float(it) for it in people.communicate()[0].split()], busy, held


def tell(name, server, found, mark):
    seen, own, busy, held = found
    times = f", visitors {seen[1]:.1f}, {seen[2]:.1f}, {seen[3]:.1f} ms, {seen[0]:.0f} unanswered" if seen else ""
    asked = f", the crowd {own[1]:.1f}, {own[2]:.1f}, {own[3]:.1f} ms, {own[0]:.0f} unanswered" if own and own[3] else ""
    print(f"  {server.name}, beside {name}{times}{asked}; {busy:.1%} of a processor, {held:.1f} MiB more ({mark})", flush=True)


def idle(bench, workers, say):
    """Crowds beside `serve`, and the first two beside nginx too."""
    rows = [
        ("silent", 10_000, True, "station", "ninety-ninth at most 10 ms, 1% of a processor, 4 MiB"),
        ("trickle", 10_000, True, "station", "ninety-ninth at most 10 ms, 10% of a processor"),
        ("stay", 1_000, True, "station", "ninety-ninth at most 150 ms, nobody unanswered"),
        ("hungry", 16, True, "levels200", "longest at most 5,000 ms"),
        ("kept", 4, False, "station", "1% of a processor"),
    ]
    for kind, count, visitors, folder, mark in rows:
        say(f"{count:,} {kind}, {RATE if visitors else 0} visitors a second, {workers} workers")
        with bench.serve(folder, workers) as server:
            ours = beside(server, kind, count, visitors)
            tell(f"{count:,} {kind}", server, ours, mark)
        theirs = None
        if kind in ("silent", "trickle") and bench.nginx_program is not None:
            with bench.nginx(workers, b"{}", 20_000) as server:
                theirs = beside(server, kind, count, visitors)
                tell(f"{count:,} {kind}", server, theirs, "")
        figures = [f"{it[0][2]:.1f} ms, {it[2]:.1%}, {it[3]:.1f} MiB" if it and it[0] else f"{it[2]:.1%}" if it else "" for it in (ours, theirs)]
        row(f"visitors beside {count:,} {kind}", figures[0], figures[1], wanted=mark)


def main(part, *words):
    _, files = resource.getrlimit(resource.RLIMIT_NOFILE)
    resource.setrlimit(resource.RLIMIT_NOFILE, (files, files))
    if part == "visit":
        asyncio.run(visit(*map(int, words)))
    else:
        asyncio.run(crowd(words[0], *map(int, words[1:])))


if __name__ == "__main__":
    main(*sys.argv[1:])
