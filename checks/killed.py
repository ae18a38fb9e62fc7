#!/usr/bin/env python3
"""Kills a server with a journal (SIGKILL) while four clients close, open and publish as fast as they are answered, at any moment, also while it
starts; starts it again with the same words, and asks what is closed, kill after kill.

What was answered is known, and when. A change of which no reply came may have been made or not, at most one of each client; and since a reply is
written once its change is made, such a change may stand in front of some that were answered. How many of them the server had accepted nobody
outside can tell. So behind each kill these are compared, by docs/HTTP.md and docs/FORMATS.md:
- the server listens, and the version that stands is none below the last that was answered;
- each version up to it, from the last that was read back, is that of the one change that was answered with it, or of one that was sent and not
  answered, each of these at one version at most. Of the second kind are no more than there are workers, each of which writes a reply before it goes
  on; and of one worker only the last version may be so;
- no change has a version that was told, to whichever client, before it was sent;
- made one after the other, each of these changes adds a version, each reply tells what its change does there, and what is closed behind the last
  change is what the server tells;
- a reply that nothing was changed tells a version of which it is true, and none below one that was told before; a reply that there is no such feature
  is true of such a version.
A server that was killed before it served anybody has changed nothing.

A kill can't show that a sync is missing, since the system keeps what was written: cut.py tries that.

usage: killed.py [--times N] [--seed S] [--wrong NAME]   (N kills in place of 100; with NAME over a disk that is wrong so, which disk_calls.c
lists. The program is the one that VENUE names, or else the one that the launcher ./venue runs, which builds it if need be)
It prints the seed of its moments and changes, a line for each difference and one at the end, goes on behind at most nine differences, or with NAME
behind none, and ends with status 1 at one.
"""
import argparse
import bisect
import collections
import os
import random
import socket
import subprocess
import sys
import tempfile
import threading
import time

sys.dont_write_bytecode = True  # so that a clone stays as it is

import station_changes
from station_changes import after, post, reply_to, rows

CLIENTS = 4
# The longest that a start and a reply take on a busy machine, in seconds.
WAIT = 60
# How many kills a journal has at most, and after a start of how many seconds another one begins.
KILLS, SLOW = 12, 1.0
# One change in so many is a publication.
PUBLICATIONS = 12
# A kill comes behind so many replies at most, and so many seconds; or behind so many seconds of the start, as so many of all kills do. Of the others
# so many come when nobody asks any more.
REPLIES, SERVED, STARTED, STARTING, QUIET = 40, 0.01, 0.02, 0.15, 0.15
# After how many differences it goes on no further over an honest disk.
MOST = 10
LATE = "late"
CLOSES = "connection: close\r\n"
TOLD = 300

# A change that was asked for, from when to when, and its reply: the status and the body, None where the connection ended without one, or LATE.
Asked = collections.namedtuple("Asked", "change sent ended reply")
# What a server told that was started again.
Told = collections.namedtuple("Told", "version rows")
# What a server told when it listened, after how many seconds, and what was asked of it until it was killed.
Served = collections.namedtuple("Served", "told took asked")


class Fault(Exception):
    """What came is no outcome of a kill."""


def ask(link, request):
    """The reply over a connection that is then closed."""
    text = b""
    try:
        with link:
            link.sendall(request)
            while more := link.recv(65_536):
                text += more
    except socket.timeout:
        return LATE
    except OSError:
        pass
    found = station_changes.replies_of(text)
    return found[0][:2] if found else None


def talk(address, draw, asked, most):
    """A client that asks until it isn't answered, or so many changes were asked for."""
    is_answered = True
    while is_answered and len(asked) < most:
        change = station_changes.any_change(draw, PUBLICATIONS)
        try:
            link = socket.create_connection(address, WAIT)
        except OSError:
            return
        sent = time.monotonic()
        reply = ask(link, post(change, CLOSES))
        asked.append(Asked(change, sent, time.monotonic(), reply))
        is_answered = isinstance(reply, tuple)


class Server:
    """A process that serves a journal."""

    def __init__(self, journal):
        self.address = journal.address
        host, port = journal.address
        words = ["serve", journal.base, journal.folder, f"{host}:{port}", str(journal.workers), "1000000", journal.name]
        pipes = dict(stdin=subprocess.DEVNULL, stdout=subprocess.PIPE, stderr=subprocess.STDOUT, bufsize=0)
        self.process = subprocess.Popen([journal.program, *words], env=journal.environment, **pipes)

    def listen(self):
        """Waits until it listens."""
        watch = threading.Timer(WAIT, self.process.kill)
        watch.start()
        first = self.process.stdout.readline().decode()
        watch.cancel()
        if not first.startswith("listening "):
            raise Fault(f"it doesn't listen, and prints {first[:TOLD]!r}")

    def told(self):
        """What is closed."""
        reply = ask(socket.create_connection(self.address, WAIT), station_changes.get("closures", CLOSES))
        if not reply or reply == LATE or reply[0] != 200:
            raise Fault(f"what is closed is answered {reply}")
        return Told(reply[1]["version"], reply[1]["closures"])

    def kill(self):
        self.process.kill()
        self.process.wait()
        self.process.stdout.close()


class Journal:
    """A journal, its server's words, and what is known of its history: the states, of which one stands at this version."""

    def __init__(self, trial, number):
        self.program, self.base, self.draw = trial.program, trial.base, trial.draw
        self.name, self.folder = f"log{number}", self.draw.choice(station_changes.FOLDERS)
        self.workers = self.draw.choice((1, 2, CLIENTS))
        # An address of its own, on which nobody else listens.
        self.address = ("127." + ".".join(str(self.draw.randint(1, 254)) for _ in range(3)), trial.port)
        self.path = os.path.join(self.base, self.name + ".journal")
        with open(self.path, "wb"):
            pass
        self.environment = dict(os.environ, DISK_JOURNAL=self.path, **trial.wrong)
        self.version, self.states = 1, [station_changes.State(self.folder, {})]

    def start_and_kill(self):
        """Kills a server that may be starting still."""
        server = Server(self)
        try:
            time.sleep(self.draw.uniform(0, STARTED))
        finally:
            server.kill()

    def ask_for_changes(self, asked):
        """Starts clients that ask for changes, and waits for some of the replies, or for all."""
        replies = self.draw.choice((0, 1, 1, 1)) * self.draw.randint(0, REPLIES)
        is_quiet = self.draw.random() < QUIET
        most = replies if is_quiet else sys.maxsize
        draws = [random.Random(self.draw.random()) for _ in range(CLIENTS)]
        threads = [threading.Thread(target=talk, args=(self.address, draw, asked, most)) for draw in draws]
        for thread in threads:
            thread.start()
        while (is_quiet or len(asked) < replies) and any(thread.is_alive() for thread in threads):
            time.sleep(0.001)
        time.sleep(self.draw.uniform(0, SERVED))
        return threads

    def serve_and_kill(self):
        """Has clients change what they can, and kills the server at some moment."""
        asked, begun, server = [], time.monotonic(), Server(self)
        try:
            server.listen()
            took = time.monotonic() - begun
            told = server.told()
            threads = self.ask_for_changes(asked)
        finally:
            server.kill()
        for thread in threads:
            thread.join()
        return Served(told, took, asked)

    def told_at_last(self):
        """What a server tells that nobody asks for changes."""
        server = Server(self)
        try:
            server.listen()
            return server.told()
        finally:
            server.kill()


def floors(asked, version):
    """For each that was asked the greatest version that was told before it was sent, this one at least."""
    told = sorted((one.ended, one.reply[1]["version"]) for one in asked if has_version(one))
    ends, greatest = [end for end, _ in told], [version]
    for _, later in told:
        greatest.append(max(greatest[-1], later))
    return [greatest[bisect.bisect_left(ends, one.sent)] for one in asked]


def has_version(one):
    return isinstance(one.reply, tuple) and one.reply[0] == 200


def has_changed(one):
    """Whether the reply says that a version was added."""
    return has_version(one) and one.reply[1].get("changed", True)


class Judge:
    """Judges what a server told behind a kill, against what was asked before it."""

    def __init__(self, journal, asked):
        self.workers, self.first, self.states = journal.workers, journal.version, journal.states
        self.asked = list(zip(asked, floors(asked, journal.version)))
        self.open = [(one, floor) for one, floor in self.asked if one.reply is None]
        self.made = {}
        for one, floor in self.asked:
            if has_changed(one):
                self.add(one, floor)

    def add(self, one, floor):
        version = one.reply[1]["version"]
        if version in self.made:
            raise Fault(f"version {version} was told of two changes, {self.made[version].change} and {one.change}")
        if version <= floor:
            raise Fault(f"version {version} was told of a change that was sent when {floor} stood: {one.change}")
        self.made[version] = one

    def judge_untold(self, last):
        """Whether there may be so many versions up to the last one of which nobody was told."""
        greatest = max((one.reply[1]["version"] for one, _ in self.asked if has_version(one)), default=last)
        if greatest > last:
            raise Fault(f"version {greatest} was answered, and {last} stands")
        untold = [version for version in range(self.first + 1, last + 1) if version not in self.made]
        if len(untold) > min(self.workers, len(self.open)):
            raise Fault(f"nobody was told of the versions {untold}, and {len(self.open)} changes weren't answered")
        if self.workers == 1 and untold and untold != [last]:
            raise Fault(f"the one worker went on from version {untold[0]} without a reply, up to {last}")

    def steps(self, version, state, used):
        """What may stand at this version behind a state, and which unanswered changes are used then."""
        one = self.made.get(version)
        if one:
            if one.reply == reply_to(state, one.change, version - 1):
                yield after(state, one.change), used
            return
        for number, (other, floor) in enumerate(self.open):
            behind = after(state, other.change) if number not in used and floor < version else None
            if behind:
                yield behind, used | {number}

    def histories(self, last):
        """For each version what may stand there, and which unanswered changes are used then."""
        standing = [(state, frozenset()) for state in self.states]
        found = {self.first: standing}
        for version in range(self.first + 1, last + 1):
            standing = found[version] = [step for state, used in standing for step in self.steps(version, state, used)]
            if not standing:
                raise Fault(f"version {version} can't have been made as {self.made.get(version) or 'one of ' + repr(self.open)}")
        return found

    def judge_unchanged(self, one, floor, found):
        """A reply that says that nothing was changed."""
        last = max(found)
        versions = range(floor, last + 1)
        if has_version(one):
            versions = [version for version in versions if version == one.reply[1]["version"]]
        for version in versions:
            if any(reply_to(state, one.change, version) == one.reply for state, _ in found.get(version, [])):
                return
        raise Fault(f"{one.change} is answered {one.reply}, which fits none of the versions from {floor} to {last}")

    def states_behind(self, told):
        """What may stand now."""
        self.judge_untold(told.version)
        found = self.histories(told.version)
        for one, floor in self.asked:
            if one.reply == LATE:
                raise Fault(f"{one.change} was not answered within {WAIT} seconds")
            if one.reply is not None and not has_changed(one):
                self.judge_unchanged(one, floor, found)
        states = []
        for state, _ in found[told.version]:
            if rows(state) == told.rows and state not in states:
                states.append(state)
        if not states:
            due = [rows(state) for state, _ in found[told.version]]
            raise Fault(f"closed is {told.rows} at version {told.version}, and due is one of {due}")
        return states


class Trial:
    """The kills, and what was counted."""

    def __init__(self, program, folder, options):
        self.program, self.draw = program, random.Random(options.seed)
        self.base = os.path.join(folder, "base")
        station_changes.make_base(self.base)
        self.wrong, self.most = {}, 1 if options.wrong else MOST
        if options.wrong:
            self.wrong = {"DISK_WRONG": options.wrong, "LD_PRELOAD": station_changes.compile_library(folder)}
        self.kills = self.answered = self.unanswered = self.starting = self.differ = 0
        with socket.create_server(("", 0)) as door:
            self.port = door.getsockname()[1]

    def judge(self, journal, asked, told):
        """Judges what was asked before the last kill, and counts it."""
        journal.states = Judge(journal, asked).states_behind(told)
        changed = sum(has_changed(one) for one in asked)
        self.answered += changed
        self.unanswered += told.version - journal.version - changed
        journal.version = told.version

    def kill_along(self, journal, times):
        """Kills a journal's server so many times, or until its starts are slow, and judges what stands at last."""
        served = Served(None, 0, [])
        for _ in range(times):
            self.kills += 1
            if self.draw.random() < STARTING:
                self.starting += 1
                journal.start_and_kill()
                continue
            before, served = served, journal.serve_and_kill()
            self.judge(journal, before.asked, served.told)
            if served.took > SLOW:
                break
        self.judge(journal, served.asked, journal.told_at_last())

    def run(self, times):
        number = 0
        while self.kills < times and self.differ < self.most:
            number += 1
            journal = Journal(self, number)
            try:
                self.kill_along(journal, min(KILLS, times - self.kills))
            except (Fault, OSError) as fault:
                self.differ += 1
                size = os.path.getsize(journal.path)
                print(f"killed: kill {self.kills}, workers {journal.workers}, a journal of {size} bytes: {fault}", flush=True)
            os.remove(journal.path)


def main():
    parser = argparse.ArgumentParser(add_help=False)
    parser.add_argument("--times", type=int, default=100)
    parser.add_argument("--seed", type=int, default=random.SystemRandom().randrange(1_000_000))
    parser.add_argument("--wrong")
    options = parser.parse_args()
    print(f"killed: seed {options.seed}", flush=True)
    with tempfile.TemporaryDirectory() as folder:
        trial = Trial(station_changes.program_of(), folder, options)
        trial.run(options.times)
    made = f"{trial.answered:,} changes answered, {trial.unanswered:,} made and not answered"
    print(f"killed: {trial.kills:,} kills, {trial.starting} of them at the start, {made}, {trial.differ} differences")
    return 1 if trial.differ else 0


sys.exit(main())
