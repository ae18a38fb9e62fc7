"""Prints what a change takes while a folder that was made to be judged slowly is published again and again, beside the same while nobody publishes.

usage: time_changes.py PROGRAM BASE NAME TITLE   (BASE is made by hostile_folders.py with NAME, and TITLE says what it is)
BASE gets a staff key and the folder `small`, which is served. One client closes feature 3 and opens it again, a change each 25 ms: for ten seconds
alone, then while another client publishes `folder`, for 30 seconds or until the first publication is answered, at most 90. A change is timed from the
first byte that is sent to the last of its answer. Feature 3 is a unit of `small` and of most folders; once one is published that has none, the answer is
that there is no such feature. It is counted with the changes, and how many there were is printed. The service has 6 GiB of addresses.
"""
import collections
import contextlib
import http.client
import json
import os
import re
import shutil
import sys
import tempfile
import threading
import time

from hostile_folders import ROOM, Folder, box, identifier, polygon, wide_level
from table import row
from time_serve import KEY, Server, free_port

EVERY, ALONE, LEAST, MOST = 0.025, 10, 30, 90
WORKERS, CONNECTIONS, ADDRESSES = 4, 1_000_000, 6 << 30
WANTED = 50
FEATURE = identifier(3)
MISSING = 404, b'{"error":"no_such_feature"}'
PUBLISHED, REJECTED, NO_MEMORY = 200, 422, 503
NO_ANSWER = "no answer"


def prepare(base):
    """Adds the staff key, and the folder `small`: a venue, a level and a unit, which are the features 1, 2 and 3."""
    with open(os.path.join(base, "venue.toml"), "a", encoding="utf-8") as settings:
        settings.write(f'staff_keys = ["{KEY}"]\n')
    folder = Folder()
    folder.unit(wide_level(folder), polygon(box(0, 0, ROOM, ROOM)))
    with tempfile.TemporaryDirectory(dir=base) as made:
        os.mkdir(os.path.join(made, "folder"))
        folder.write(made)
        shutil.copy(os.path.join(base, "folder", "manifest.json"), os.path.join(made, "folder"))
        os.rename(os.path.join(made, "folder"), os.path.join(base, "small"))


def serve(program, base):
    address = f"127.0.0.1:{free_port()}"
    words = [program, "serve", base, "small", address, str(WORKERS), str(CONNECTIONS)]
    return Server("serve", int(address.rpartition(":")[2]), ["prlimit", f"--as={ADDRESSES}", *words], f"listening {address}\n".encode())


def connect(port, timeout=None):
    link = http.client.HTTPConnection("127.0.0.1", port, timeout=timeout)
    link.connect()
    return contextlib.closing(link)


def post(link, path, body):
    """An answer's status and body, and its seconds from the first byte that is sent to the last that comes."""
    text = json.dumps(body)
    begin = time.monotonic()
    link.request("POST", path, text, {"x-staff-key": KEY})
    reply = link.getresponse()
    said = reply.read()
    return reply.status, said, time.monotonic() - begin


class Changes:
    """Closes the feature and opens it again, a change each 25 ms, until it is over by the seconds since. Behind one that took longer the next comes at
    once, and those that fell due meanwhile are left out."""

    def __init__(self, port, is_over):
        self.times, self.missing = [], 0  # in ms
        begin = due = time.monotonic()
        with connect(port, MOST) as link:
            while not is_over(time.monotonic() - begin):
                self.change(link)
                due = max(due + EVERY, time.monotonic())
                time.sleep(max(0.0, due - time.monotonic()))
        self.times.sort()

    def change(self, link):
        status, said, seconds = post(link, "/v1/closures", {"feature": FEATURE, "closed": len(self.times) % 2 == 0})
        if (status, said) == MISSING:
            self.missing += 1
        elif status != 200:
            raise ValueError(f"{status} {said[:200].decode(errors='replace')}")
        self.times.append(seconds * 1e3)

    def at(self, part):
        return self.times[min(len(self.times) - 1, len(self.times) * part // 100)]

    def with_due(self):
        """The ninety-ninth where those count too that fell due while one waited, each with the time that was left then."""
        every = EVERY * 1e3
        waits = sorted(took - k * every for took in self.times for k in range(1 + int(took / every)))
        return waits[min(len(waits) - 1, len(waits) * 99 // 100)]

    def __str__(self):
        return f"middle {self.at(50):.2f} ms, ninety-ninth {self.at(99):.2f}, most {self.at(100):.2f}"


class Publications:
    """Publications of `folder`, one after the other, each over a connection of its own, from now until it is over."""

    def __init__(self, port):
        self.port, self.over = port, threading.Event()
        self.answers, self.begun = [], None  # each answer with its seconds; and since when one waits for its answer
        threading.Thread(target=self.work, daemon=True).start()

    def work(self):
        while not self.over.is_set():
            self.begun = time.monotonic()
            answer = self.publish()
            self.answers.append((answer, time.monotonic() - self.begun))
            self.begun = None

    def publish(self):
        try:
            with connect(self.port) as link:
                status, said, _ = post(link, "/v1/publish", {"folder": "folder"})
        except (OSError, http.client.HTTPException):
            return NO_ANSWER
        if status == PUBLISHED:
            return "200"
        found = re.search(rb'"findings":\[(\{.*?\})', said)
        if status == REJECTED and found:
            first = json.loads(found[1])
            return "422 {file} {index} {member} {rule}".format(**first)
        return f"{status} {said[:200].decode(errors='replace')}"

    def end(self):
        """What was answered until now, and for how long one has been waiting; it is left alone."""
        self.over.set()
        answers, begun = list(self.answers), self.begun
        return answers, None if begun is None else time.monotonic() - begun

    def has_answer(self):
        return any(answer != NO_ANSWER for answer, _ in self.answers)


def is_known(answer):
    return answer == NO_ANSWER or int(answer.split()[0]) in (PUBLISHED, REJECTED, NO_MEMORY)


def tell(answers, waiting):
    counts = collections.Counter(answer for answer, _ in answers)
    told = [f"{len(answers)} publications ended"]
    told += [f"{count} with {answer}" for answer, count in counts.most_common()]
    if answers:
        told.append(f"longest {max(took for _, took in answers):.2f} s")
    if waiting is not None:
        told.append(f"one left alone after {waiting:.2f} s")
    return ", ".join(told)


def measure(port):
    """The changes alone, those beside publications, and what became of these."""
    alone = Changes(port, lambda seconds: seconds >= ALONE)
    publications = Publications(port)
    beside = Changes(port, lambda seconds: seconds >= MOST or (seconds >= LEAST and publications.has_answer()))
    return alone, beside, *publications.end()


def main(program, base, name, title):
    prepare(base)
    with serve(program, base) as server:
        try:
            alone, beside, answers, waiting = measure(server.port)
        except (OSError, ValueError, http.client.HTTPException) as error:
            sys.exit(f"{title}: a change wasn't answered as it should be: {error}")
    if not all(is_known(answer) for answer, _ in answers):
        sys.exit(f"{title}: {tell(answers, waiting)}")
    print(f"{title}: {len(beside.times)} changes, {beside.missing} of no feature, {beside}", end="; ")
    print(f"ninety-ninth {beside.with_due():.2f} with those that fell due while one waited; nobody publishes: {alone}", end="; ")
    print(tell(answers, waiting), flush=True)
    ours, theirs = beside.with_due(), alone.with_due()
    row(f"a change beside {name}, ninety-ninth with those that fell due", f"{ours:.1f} ms", f"nobody publishes {theirs:.1f} ms", ours / theirs, f"at most {WANTED} ms")


main(*sys.argv[1:])
