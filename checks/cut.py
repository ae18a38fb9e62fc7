#!/usr/bin/env python3
"""Cuts the power: serves sessions with a journal over a disk that writes down each call (disk_calls.c), draws from that record what a stop may leave
of the file at each moment, before, in and behind each call, has the program read each of these images back, and compares what is closed with what
was answered.

A stop may leave, by docs/FORMATS.md ("What a stop can leave") and the definition `Leaves` of venue_ports: what stood when a sync last answered Ok;
but any bytes in the ranges that were written since, and past the old end; and any length from the old end to the farthest end of such a range. A
stop in a write leaves what one behind it may leave, and a stop in a sync what one in front of it may.

Compared are, by docs/HTTP.md and docs/FORMATS.md:
- each reply of a session, and that the calls which were written down make the file that is there afterwards;
- of each image: a session over it begins, and tells as closed what all changes make that were answered 200 before the cut; or these and one more,
  whose record was begun before the cut and behind the last 200. Sessions begin with images of others, so that they write over what a cut has left.
  In some of them a call fails, or writes are made in two parts;
- with each call of a short session failing in turn, for want of room and by an error of the device: of the start `fault disk`, status 3, and of a
  change 502 `journal_fault`, where nothing is changed and the next change goes through. The file behind it is judged as an image is.

usage: cut.py [--times N] [--seed S] [--wrong NAME]   (N images in place of 400; with NAME the disk is wrong so, which disk_calls.c lists. The program
is the one that VENUE names, or else the one that the launcher ./venue runs, which builds it if need be)
It prints the seed of its changes and images, a line for each difference and one at the end, goes on behind at most nine differences, or with NAME
behind no session that has one, and ends with status 1 at one. Where there is no C compiler it says so, and ends with status 0.
"""
import argparse
import collections
import concurrent.futures
import errno
import os
import random
import struct
import subprocess
import sys
import tempfile

sys.dont_write_bytecode = True  # so that a clone stays as it is

import station_changes
from station_changes import Change, State, after, reply_to, rows

# The longest that a session takes on a busy machine, in seconds, and how many images are read back side by side.
WAIT, BESIDE = 60, 2
# How many changes a session asks for, one of how many is a publication, and how long a journal is from which no session goes on, in bytes.
CHANGES, PUBLICATIONS, LONGEST = 8, 10, 150_000
MEMORY = "/dev/shm"
# After how many differences it goes on no further over an honest disk, and how much is told of what was printed.
MOST, TOLD = 10, 200
# The kinds of calls in a record, as disk_calls.c numbers them, and its struct call.
WRITE, SYNC, FOLDER_SYNC, CUT, PRINT = 1, 2, 3, 4, 5
HEAD = struct.Struct("=QQQq")
ERRORS = (errno.ENOSPC, errno.EIO)
JOURNAL_FAULT = 502, {"error": "journal_fault"}
# A record that nobody asked for, with an open gate: worker 1 closes the first feature for both profiles.
LIE = bytes([1, 2, 1]) + bytes.fromhex(station_changes.FEATURES["nolift"][0].replace("-", "")) + bytes([0, 3])

# A call of the disk, or a write to the console.
Call = collections.namedtuple("Call", "kind place bytes result")
# What was told of a history: the version that stands, and its state.
Standing = collections.namedtuple("Standing", "version state")
# What a session begins with: the folder of its words, the bytes of its journal, and what stands by these.
Begun = collections.namedtuple("Begun", "folder image standing")
# A moment: what stood at the last sync, the places and the bytes of what was written since, what stands by the replies, and the states of which one
# may stand a version later.
Moment = collections.namedtuple("Moment", "synced loose standing others")
# What came of a session: its status, what it printed, its calls, and the file that it left.
Ran = collections.namedtuple("Ran", "status printed calls left")
# What the disk makes of calls: which one fails, from 1, with which error, and which writes are made by half. A number of 0 is none.
Ways = collections.namedtuple("Ways", "refused error shortening")
PLAIN = Ways(0, 0, 0)


class Fault(Exception):
    """What came is none of what may come."""


def calls_in(path):
    """The calls of a record."""
    with open(path, "rb") as file:
        text = file.read()
    place, calls = 0, []
    while place < len(text):
        kind, where, count, result = HEAD.unpack_from(text, place)
        place += HEAD.size
        piece = text[place : place + count] if kind in (WRITE, PRINT) else b""
        place += len(piece)
        calls.append(Call(kind, where, piece, result))
    return calls


class Disk:
    """What a read of the file gives, what stood at the last sync, and what was written since."""

    def __init__(self, image):
        self.reads, self.synced, self.loose = bytearray(image), image, ()

    def go(self, call):
        if call.kind == CUT:
            raise Fault(f"the file is cut to {call.place} bytes, which no journal is")
        if call.kind == WRITE:
            # A write that fails was made by half.
            done = call.bytes[: call.result if call.result >= 0 else len(call.bytes) // 2]
            if done:
                self.reads += bytes(max(0, call.place - len(self.reads)))
                self.reads[call.place : call.place + len(done)] = done
            self.loose += ((call.place, call.bytes),)
        elif call.kind == SYNC and call.result == 0:
            self.synced, self.loose = bytes(self.reads), ()


def told_of(standing):
    """The reply to who asks what is closed."""
    return 200, {"closures": rows(standing.state), "version": standing.version}


class Walk:
    """Goes along a session's calls, and judges its replies on the way. A request is a change, or None, which asks what is closed."""

    def __init__(self, begun, requests):
        self.disk, self.standing, self.requests = Disk(begun.image), begun.standing, requests
        self.others, self.printed, self.answered, self.is_failed = (), b"", 0, False

    def moment(self):
        return Moment(self.disk.synced, self.disk.loose, self.standing, self.others)

    def request(self):
        return self.requests[self.answered] if self.answered < len(self.requests) else None

    def due(self):
        """The reply to the request whose turn it is."""
        version, state = self.standing
        request = self.request()
        if request is None:
            return told_of(self.standing)
        is_kept = after(state, request) is None or not self.is_failed
        return reply_to(state, request, version) if is_kept else JOURNAL_FAULT

    def answer(self, reply):
        due, request = self.due(), self.request()
        if reply != due:
            raise Fault(f"request {self.answered}, {request}, is answered {reply}, and due is {due}")
        state = after(self.standing.state, request) if request else None
        if state and due != JOURNAL_FAULT:
            self.standing, self.others = Standing(self.standing.version + 1, state), ()
        self.answered, self.is_failed = self.answered + 1, False

    def begin_record(self):
        """Something of the change whose turn it is may be on the disk from now on."""
        state = after(self.standing.state, self.request()) if self.request() else None
        if state and state not in self.others:
            self.others += (state,)

    def go(self, call):
        if call.kind == PRINT:
            self.printed += call.bytes
            for status, body, _ in station_changes.replies_of(self.printed)[self.answered :]:
                self.answer((status, body))
            return
        self.is_failed |= call.result < 0
        if call.kind == WRITE:
            self.begin_record()
        self.disk.go(call)

    def moments(self, calls):
        """The moments from the first to behind the last call."""
        yield self.moment()
        for call in calls:
            self.go(call)
            yield self.moment()


def filling(draw, count):
    """Bytes where any may stand: the same all along, any, or records that nobody asked for and a closed gate."""
    kind = draw.randrange(4)
    if kind < 2:
        return bytes([kind]) * count
    if kind == 2:
        return draw.randbytes(count)
    place = draw.randrange(3)
    return (LIE * (count // len(LIE) + 2))[place : place + count - 1] + bytes(min(count, 1))


def mixed(draw, old, new):
    """Each byte is an old one or a new one."""
    return bytes(draw.choice(pair) for pair in zip(old, new))


def cut_short(draw, old, new):
    place = draw.randint(0, len(new))
    return new[:place] + old[place:]


def late(draw, old, new):
    """The last bytes alone are new."""
    place = draw.randint(0, len(new))
    return old[:place] + new[place:]


# What may become of a range that was written.
TORN = (
    lambda draw, old, new: old,
    lambda draw, old, new: new,
    cut_short,
    late,
    mixed,
    lambda draw, old, new: filling(draw, len(new)),
)


def any_image(draw, moment):
    """Bytes that a stop at this moment may leave."""
    least = len(moment.synced)
    most = max([least] + [place + len(piece) for place, piece in moment.loose])
    image = bytearray(moment.synced + filling(draw, most - least))
    way = draw.choice(TORN)
    is_same = draw.random() < 0.5
    for place, piece in moment.loose:
        way = way if is_same else draw.choice(TORN)
        image[place : place + len(piece)] = way(draw, bytes(image[place : place + len(piece)]), piece)
    return bytes(image[: draw.choice((least, most, most, draw.randint(least, most)))])


def text_of(requests):
    return b"".join(station_changes.post(request) if request else station_changes.get("closures") for request in requests)


class Machine:
    """The program over a base of its own, by sessions with journals."""

    def __init__(self, program, folder, wrong):
        self.program, self.base, self.record = program, os.path.join(folder, "base"), os.path.join(folder, "record")
        self.library = station_changes.compile_library(folder)
        self.wrong = {"DISK_WRONG": wrong} if wrong else {}
        station_changes.make_base(self.base)

    def session(self, name, folder, requests, environment):
        """The status of a session, and what it prints."""
        words = [self.program, "session", self.base, folder, name]
        ran = subprocess.run(words, input=text_of(requests), capture_output=True, timeout=WAIT, env=dict(os.environ, **environment))
        return ran.returncode, ran.stdout

    def path(self, name):
        return os.path.join(self.base, name + ".journal")

    def write(self, name, image):
        with open(self.path(name), "wb") as file:
            file.write(image)

    def take(self, name):
        """The bytes of a journal, which is then gone."""
        with open(self.path(name), "rb") as file:
            left = file.read()
        os.remove(self.path(name))
        return left

    def recorded(self, begun, requests, ways=PLAIN):
        """What came of a session over the disk that writes down."""
        self.write("log", begun.image)
        with open(self.record, "wb"):
            pass
        told = {"LD_PRELOAD": self.library, "DISK_JOURNAL": self.path("log"), "DISK_RECORD": self.record}
        told.update(DISK_REFUSE=str(ways.refused), DISK_ERROR=str(ways.error), DISK_SHORTEN=str(ways.shortening))
        status, printed = self.session("log", begun.folder, requests, {**told, **self.wrong})
        return Ran(status, printed, calls_in(self.record), self.take("log"))

    def read_back(self, name, folder, image):
        """The status of a session over an image that asks what is closed, and what it prints."""
        self.write(name, image)
        came = self.session(name, folder, [None], {})
        self.take(name)
        return came


def judge_image(moment, came):
    """What stands by an image of this moment over which a session came to this."""
    status, printed = came
    due = [moment.standing] + [Standing(moment.standing.version + 1, other) for other in moment.others]
    found = station_changes.replies_of(printed)
    if status or len(found) != 1:
        raise Fault(f"it prints {printed[:TOLD]!r}, status {status}")
    for standing in due:
        if found[0][:2] == told_of(standing):
            return standing
    raise Fault(f"it is answered {found[0][1]}, and due is one of {[told_of(standing)[1] for standing in due]}")


def walk_whole(walk, ran):
    """The moments of a session, whose record has to make what it printed and what it left."""
    moments = list(walk.moments(ran.calls))
    if walk.printed != ran.printed or bytes(walk.disk.reads) != ran.left:
        raise Fault("the record doesn't make what was printed, or the file that was left")
    return moments


def begin_anew(folder):
    return Begun(folder, b"", Standing(1, State(folder, {})))


def is_start_refused(ran):
    """Whether a session came to what a start comes to of which a call fails."""
    asked = [call for call in ran.calls if call.kind != PRINT]
    return bool(asked) and asked[-1].result < 0 and (ran.status, ran.printed) == (3, b"fault disk\n")


class Trial:
    """Sessions and their images, and what was counted."""

    def __init__(self, machine, seed):
        self.machine, self.draw, self.most = machine, random.Random(seed), 1 if machine.wrong else MOST
        self.images = self.sessions = self.refusals = self.changes = self.differ = 0

    def tell(self, where, fault):
        self.differ += 1
        if self.differ <= MOST:
            print(f"cut: {where}: {fault}", flush=True)

    def any_ways(self):
        """How the disk of a session is: plain, or a call fails, or writes are made in two parts."""
        kind = self.draw.randrange(6)
        if kind < 2:
            return Ways(self.draw.randint(1, 4 * CHANGES), self.draw.choice(ERRORS), 0)
        return PLAIN._replace(shortening=self.draw.choice((1, 2, 3))) if kind == 2 else PLAIN

    def serve(self, begun):
        """The moments of a session of any changes."""
        self.sessions += 1
        requests = [None] + [station_changes.any_change(self.draw, PUBLICATIONS) for _ in range(CHANGES)]
        ways = self.any_ways()
        ran = self.machine.recorded(begun, requests, ways)
        walk = Walk(begun, requests)
        if is_start_refused(ran):
            ran = ran._replace(printed=b"", calls=[call for call in ran.calls if call.kind != PRINT])
        elif ran.status:
            raise Fault(f"it prints {ran.printed[:TOLD]!r}, status {ran.status}")
        moments = walk_whole(walk, ran)
        if not ran.status and walk.answered != len(requests):
            raise Fault(f"{walk.answered} of {len(requests)} requests are answered")
        self.changes += walk.standing.version - begun.standing.version
        return moments

    def cut(self, moments, folder, most):
        """Reads back an image of each moment, or of so many of them, and gives what another session may begin with."""
        numbers = sorted(self.draw.sample(range(len(moments)), min(most, len(moments))))
        images = [any_image(self.draw, moments[number]) for number in numbers]
        with concurrent.futures.ThreadPoolExecutor(BESIDE) as pool:
            told = list(pool.map(lambda place: self.machine.read_back(f"image{place}", folder, images[place]), range(len(images))))
        self.images += len(images)
        found = []
        for number, image, tells in zip(numbers, images, told):
            try:
                found.append(Begun(folder, image, judge_image(moments[number], tells)))
            except Fault as fault:
                sizes = f"an image of {len(image)} bytes, {len(moments[number].synced)} of them synced"
                self.tell(f"session {self.sessions}, cut behind call {number} of {len(moments) - 1}, {sizes}", fault)
        return found

    def run_along(self, times):
        """Sessions, each from an image of the one before, until the journal is long or there were so many images."""
        begun = begin_anew(self.draw.choice(station_changes.FOLDERS))
        while self.images < times and self.differ < self.most and len(begun.image) < LONGEST:
            found = self.cut(self.serve(begun), begun.folder, times - self.images)
            if not found:
                return
            begun = self.draw.choice(found)

    def run_images(self, times):
        while self.images < times and self.differ < self.most:
            try:
                self.run_along(times)
            except (Fault, OSError, subprocess.TimeoutExpired) as fault:
                self.tell(f"session {self.sessions}", fault)

    def refuse(self, requests, ways, is_start):
        """A session over an empty file of which a call fails, and a start behind it."""
        self.refusals += 1
        begun = begin_anew("station")
        ran = self.machine.recorded(begun, requests, ways)
        moment = Walk(begun, []).moment()
        if not is_start:
            walk = Walk(begun, requests)
            moment = walk_whole(walk, ran)[-1]
            if (ran.status, walk.answered) != (0, len(requests)):
                raise Fault(f"{walk.answered} of {len(requests)} requests are answered, status {ran.status}")
        elif not is_start_refused(ran):
            raise Fault(f"the start prints {ran.printed[:TOLD]!r}, status {ran.status}")
        judge_image(moment, self.machine.read_back("log", begun.folder, ran.left))

    def run_refusals(self):
        """Each call of a short session fails in turn."""
        closing, opening = (Change(None, station_changes.CHOSEN[-1], closes, ()) for closes in (True, False))
        requests = [None, closing, None, Change("nolift", None, None, None), None, opening, None, closing, None]
        kinds = [call.kind for call in self.machine.recorded(begin_anew("station"), requests).calls]
        starting = kinds.index(PRINT)
        for number in range(1, len(kinds) - kinds.count(PRINT) + 1):
            for error in ERRORS:
                try:
                    self.refuse(requests, Ways(number, error, 0), number <= starting)
                except (Fault, subprocess.TimeoutExpired) as fault:
                    self.tell(f"call {number} fails with {errno.errorcode[error]}", fault)


def main():
    parser = argparse.ArgumentParser(add_help=False)
    parser.add_argument("--times", type=int, default=400)
    parser.add_argument("--seed", type=int, default=random.SystemRandom().randrange(1_000_000))
    parser.add_argument("--wrong")
    options = parser.parse_args()
    # What a stop leaves is drawn, so the files may lie in memory.
    with tempfile.TemporaryDirectory(dir=MEMORY if os.access(MEMORY, os.W_OK) else None) as folder:
        machine = Machine(station_changes.program_of(), folder, options.wrong)
        if not machine.library:
            print("cut: skipped, since there is no cc")
            return 0
        print(f"cut: seed {options.seed}", flush=True)
        trial = Trial(machine, options.seed)
        trial.run_images(options.times)
        if not trial.differ and not options.wrong:
            trial.run_refusals()
    counts = f"{trial.images:,} images of {trial.sessions:,} sessions, {trial.changes:,} changes, {trial.refusals:,} calls that fail"
    print(f"cut: {counts}, {trial.differ} differences")
    return 1 if trial.differ else 0


sys.exit(main())
