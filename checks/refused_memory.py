#!/usr/bin/env python3
"""Refuses the program its allocations, one number a run: each one alone, and each one with all later ones (checks/refuse.c). A command that finds
no memory ends with status 4 behind a front of what it prints. A session may say 503 in place of a reply, and then nothing was changed: the replies
behind it are those of a session without that request. It may end with 4 before its first reply, and at an accepted change whose reply it can't make: a
message whose query or body it can't read is answered 503 like others.

A journal has the same bytes before each run. Where nothing was served it stays as it was, byte for byte, or has the opening and no more where a
history begins. The next start over it, to which nothing is refused, goes on with all changes that were accepted and with none that was answered 503.

usage: refused_memory.py [--all]   (the program is the one that VENUE names, or else the one that the launcher ./venue runs, which builds it if need be)
For each command it prints how many allocations it made and how its runs came out, and one line at the end. It ends with status 1 at a fault. Where a
command makes more than 20,000 allocations it takes every seventh number, and after five minutes it leaves out the rest; with --all it takes all. Of a
service with a journal it leaves out the numbers that a session takes to begin over the same one, which are that session's.
Where there is no C compiler it says so, and ends with status 0.
"""
import collections
import concurrent.futures
import json
import os
import random
import re
import shutil
import socket
import struct
import subprocess
import sys
import tempfile
import threading
import time

HERE = os.path.dirname(os.path.abspath(__file__))
TOP = os.path.join(HERE, "..")
BUILT = os.path.join(TOP, "crates", "venue_cli", "out", "venue_cli")
# The longest that all runs take, one run, and a client of `serve` waits, in seconds.
ALL_RUNS, ONE_RUN, CLIENT = 300, 20, 5
MANY, STEP = 20_000, 7
# How many faults of a command are told.
TOLD = 10
WANT = b'HTTP/1.1 503 Service Unavailable\r\ncontent-type: application/json\r\ncontent-length: 26\r\n\r\n{"error":"want_of_memory"}'
ID = "00000000-0000-4000-8000-000000000{}"
BAKERY, TICKETS, LIFT, RAMP, NO_WAY, ROOM, OTHER_ROOM = (ID.format(end) for end in ("051", "052", "301", "024", "107", "305", "306"))

# What a run came to: `turns` are those of a service, `journal` the bytes that it left, None where it had no journal.
Ran = collections.namedtuple("Ran", "status out err turns journal")
# A request that a client sent: its bytes, and the reply, None where the connection ended without one, or LATE where none came in time.
Turn = collections.namedtuple("Turn", "client request reply")
LATE = "late"


# What comes of the one run of a service in which the second thread can't be made: a connection that pauses is let go while the other client asks. On a
# machine with other work a second worker may wake too late for that in a few runs more; in more than one of FEW it is a fault.
GAVE_WAY = "a connection that gave way to the other client's"
FEW = 50
# Where there are few runs, so many may be so anyhow.
ANYHOW = 4


class Fault(Exception):
    """What a run may not do."""


def get(target):
    return f"GET {target} HTTP/1.1\r\nhost: a\r\n\r\n".encode()


def route(profile, keys=""):
    return get(f"/v1/route?from={BAKERY}&to={TICKETS}&profile={profile}{keys}")


def post(path, body):
    return f"POST {path} HTTP/1.1\r\nhost: a\r\nx-staff-key: desk-key-1\r\ncontent-length: {len(body)}\r\n\r\n{body}".encode()


def closure(feature, closed=True, profiles=""):
    """A closure for all, or for profiles that are named, in quotation marks."""
    named = f',"profiles":[{profiles}]' if profiles else ""
    return post("/v1/closures", f'{{"feature":"{feature}","closed":{str(closed).lower()}{named}}}')


def publish(folder):
    return post("/v1/publish", f'{{"folder":"{folder}"}}')


WORKED = [
    route("wheelchair"),
    route("walk"),
    closure(LIFT),
    closure(LIFT),
    route("wheelchair"),
    closure(RAMP, profiles='"wheelchair","wheelchair"'),
    route("wheelchair", "&certificate=yes"),
    route("walk"),
    publish("tall"),
    publish("nolift"),
    get("/v1/closures"),
]
# The requests whose changes a journal has before a run, those of a session over it, and what the next start is asked.
KEPT = [closure(LIFT), closure(ROOM, profiles='"wheelchair"'), publish("rooms")]
OVER_KEPT = [get("/v1/version"), closure(ROOM), closure(OTHER_ROOM), publish("rooms"), closure(ROOM, False), get("/v1/closures")]
REACHED = [get("/v1/version"), get("/v1/closures")]


def replies_of(text):
    """The whole replies in front of some bytes, and the bytes behind them."""
    replies = []
    while True:
        head, end, rest = text.partition(b"\r\n\r\n")
        length = re.search(rb"\r\ncontent-length: (\d+)", head)
        size = len(head + end) + int(length[1]) if length else 0
        if not end or not length or len(text) < size:
            return replies, text
        replies.append(text[:size])
        text = text[size:]


def is_accepted(request, reply):
    """Whether a reply tells an accepted change."""
    return request.startswith(b"POST") and reply.startswith(b"HTTP/1.1 200 ") and b'"changed":false' not in reply


class Command:
    """A command that prints one text."""

    # The number of the first allocation that is refused.
    first = 1

    def __init__(self, name, *words):
        self.name, self.words = name, list(words)

    def run(self, trial, refusal):
        return trial.run(self.words, b"", refusal)

    def prepare(self, trial, ran):
        """Keeps what a run without refusals gave."""
        self.wanted = ran

    def judge(self, trial, ran):
        """What came of a run, or a fault."""
        if ran.status == 4 and self.wanted.out.startswith(ran.out):
            return "status 4 behind a part of the text" if ran.out else "status 4"
        if (ran.status, ran.out) != (self.wanted.status, self.wanted.out):
            raise Fault(f"status {ran.status}, printed {ran.out!r}, {ran.err!r}")
        return "the whole text"


class Session(Command):
    """Requests over standard input. With a journal `before` are the requests whose changes it has before each run."""

    def __init__(self, name, requests, before=None):
        super().__init__(name)
        self.requests, self.before = requests, before

    def run(self, trial, refusal):
        return trial.over(self.before, lambda journal: trial.session(self.requests, journal, refusal))

    def prepare(self, trial, ran):
        super().prepare(trial, ran)
        if self.judge(trial, ran) != "all replies":
            raise Fault(f"without a refusal: {ran}")

    def judge(self, trial, ran):
        replies, rest = replies_of(ran.out)
        if rest or len(replies) > len(self.requests):
            raise Fault(f"status {ran.status}, behind {len(replies)} replies there is {rest!r}, {ran.err!r}")
        outcome = self.outcome(trial, ran, replies)
        if self.before is not None:
            self.judge_journal(trial, ran, replies)
        return outcome

    def judge_journal(self, trial, ran, replies):
        """Judges the journal that is left behind these replies."""
        if not replies:
            trial.judge_unserved(self.before, ran.journal)
        made = [request for request, reply in zip(self.requests, replies) if reply != WANT]
        # Behind replies that is the end at an accepted change.
        if replies and ran.status == 4:
            made.append(self.requests[len(replies)])
        difference = trial.difference(ran.journal, self.before, made)
        if difference:
            raise Fault(f"behind {len(replies)} replies and status {ran.status} {difference}")

    def outcome(self, trial, ran, replies):
        """What came of a run with these replies, or a fault."""
        count = len(replies)
        kept = [k for k in range(len(self.requests)) if k >= count or replies[k] != WANT]
        due = dict(zip(kept, trial.replies_to((self.requests[k] for k in kept), self.before)))
        for k, reply in enumerate(replies):
            if reply not in (WANT, due.get(k)):
                raise Fault(f"reply {k + 1} is {reply!r}, and due is {due[k]!r}")
        if count == len(self.requests) and ran.status == self.wanted.status:
            return "all replies" if len(kept) == count else "503 among the replies"
        if count == len(self.requests) or ran.status != 4:
            raise Fault(f"status {ran.status} behind {count} replies, {ran.err!r}")
        if not count:
            return "status 4 before a reply"
        if not is_accepted(self.requests[count], due[count]):
            raise Fault(f"status 4 behind {count} replies, in place of {due[count]!r} or 503")
        return "status 4 at an accepted change"


class Client:
    """A client's connection."""

    def __init__(self, address):
        try:
            self.link = socket.create_connection(address, CLIENT)
        except OSError:
            self.link = None

    def ask(self, request):
        """The reply, None where the connection has ended without one, or LATE."""
        text = b""
        try:
            self.link.sendall(request)
            while not replies_of(text)[0]:
                more = self.link.recv(65_536)
                if not more:
                    break
                text += more
        except socket.timeout:
            self.close()
            return text or LATE
        except OSError:
            pass
        if not text:
            self.close()
        return text or None

    def close(self):
        if self.link:
            self.link.close()
        self.link = None


class Serve(Command):
    """Two clients of `serve` that ask in turns. A turn is a client's number and its request, or a function from the last version told to it.
    `before` is as of a session."""

    def __init__(self, name, workers, turns, before=None):
        super().__init__(name)
        self.workers, self.turns, self.before = workers, turns, before

    def run(self, trial, refusal):
        return trial.over(self.before, lambda journal: self.serve(trial, refusal, journal))

    def serve(self, trial, refusal, journal):
        # An address of its own for each run, since runs are side by side.
        host, port = "127." + ".".join(str(random.randint(1, 254)) for _ in range(3)), trial.port
        words = ["serve", "examples", "station", f"{host}:{port}", str(self.workers), "2", *journal]
        pipes = dict(stdin=subprocess.DEVNULL, stdout=subprocess.PIPE, stderr=subprocess.PIPE, bufsize=0)
        is_hung = threading.Event()
        with subprocess.Popen([trial.program, *words], cwd=trial.work, env=trial.env(refusal), **pipes) as process:
            watch = threading.Timer(ONE_RUN, lambda: (is_hung.set(), process.kill()))
            watch.start()
            try:
                first = process.stdout.readline()
                turns = self.talk((host, port)) if first == f"listening {host}:{port}\n".encode() else []
                out, err = process.communicate()
            finally:
                watch.cancel()
                process.kill()
        if is_hung.is_set():
            raise Fault(f"hung for {ONE_RUN} seconds, behind {turns}")
        return Ran(process.returncode, (first + out).replace(f"{host}:{port}".encode(), b"ADDRESS"), err, turns, None)

    def talk(self, address):
        clients, turns, version = [Client(address), Client(address)], [], 1
        for at, (number, request) in enumerate(self.turns):
            client = clients[number]
            if client.link:
                request = request(version) if callable(request) else request
                reply = client.ask(request)
                turns.append(Turn(number, request, reply))
                told = re.search(rb'"version":(\d+)', reply) if isinstance(reply, bytes) else None
                version = int(told[1]) if told else version
                if reply == LATE and not clients[1 - number].link:
                    raise Fault(f"no reply in {CLIENT} seconds to the only client: {turns}")
            if number not in [later for later, _ in self.turns[at + 1 :]]:
                client.close()
        return turns

    def prepare(self, trial, ran):
        super().prepare(trial, ran)
        if ran.status or len(ran.turns) != len(self.turns) or self.judge(trial, ran) != "all replies":
            raise Fault(f"without a refusal: {ran}")
        if self.before is not None:
            _, self.first = trial.counted(lambda refusal: trial.over(self.before, lambda journal: trial.session([], journal, refusal)))

    def judge(self, trial, ran):
        lines = re.fullmatch(rb"(listening ADDRESS\n(workers (\d+) sessions 2 versions (\d+) changes (\d+)\n)?)?", ran.out)
        closed = lines and lines[2]
        if not lines or (ran.status, bool(closed)) not in ((0, True), (4, False)) or closed and not 1 <= int(lines[3]) <= self.workers:
            raise Fault(f"status {ran.status}, printed {ran.out!r}, {ran.err!r}")
        for turn in ran.turns:
            if isinstance(turn.reply, bytes) and replies_of(turn.reply) != ([turn.reply], b""):
                raise Fault(f"no whole reply: {turn}")
        changes = int(lines[5]) if closed else None
        if closed and int(lines[4]) != changes + trial.version_of(self.before):
            raise Fault(f"printed {ran.out!r}")
        if self.before is not None and not ran.out:
            trial.judge_unserved(self.before, ran.journal)
        # A change that wasn't answered may have been made, or not.
        unmade, made = [self.history(trial, ran, are_made, changes) for are_made in (False, True)]
        if unmade and made:
            raise Fault(f"{unmade}, or {made}: {ran.turns}, printed {ran.out!r}")
        return self.outcome(ran.turns, closed, is_change_untold=unmade is not None)

    def history(self, trial, ran, are_made, changes):
        """Why the turns, and the journal, aren't those of one history in which the unanswered changes are made or aren't, or None where they are."""
        kept = [turn for turn in ran.turns if turn.reply != WANT and (are_made or isinstance(turn.reply, bytes))]
        due = trial.replies_to((turn.request for turn in kept), self.before)
        for turn, reply in zip(kept, due):
            if isinstance(turn.reply, bytes) and turn.reply != reply:
                return f"{turn} is wrong, due is {reply!r}"
        made = sum(is_accepted(turn.request, reply) for turn, reply in zip(kept, due))
        if changes not in (None, made):
            return f"{made} changes were made"
        return None if self.before is None else trial.difference(ran.journal, self.before, [turn.request for turn in kept])

    def outcome(self, turns, closed, is_change_untold):
        told = {turn.client for turn in turns if isinstance(turn.reply, bytes)}
        ended = [turn for turn in turns if turn.reply is None]
        if not closed:
            return "status 4 behind a reply" if told else "status 4 before a reply"
        if any(turn.reply == LATE for turn in turns):
            return "a client that waited while the other one held the only worker"
        if is_change_untold:
            return "a connection that ended at an accepted change"
        if any(turn.client in told for turn in ended):
            if self.workers == 1 or len(ended) > 1:
                raise Fault(f"a connection ended in place of a reply or 503: {turns}")
            return GAVE_WAY
        if ended:
            return "a connection that ended before a reply"
        return "503 among the replies" if any(turn.reply == WANT for turn in turns) else "all replies"


COMMANDS = [
    Command("price", "price", "examples/table"),
    Command("verify", "verify", "examples/table"),
    Command("check", "check", "examples", "station"),
    Command("canon", "canon", "examples", "station", "unit.geojson"),
    Command("links", "links", "examples", "station", "wheelchair"),
    Command("route", "route", "examples", "station", "wheelchair", BAKERY, TICKETS),
    Command("route without a way", "route", "examples", "nolift", "wheelchair", BAKERY, NO_WAY),
    Command("gen 1", "gen", "1"),
    Session("session", WORKED),
    Session("session over an empty journal", [get("/v1/version"), closure(LIFT), get("/v1/closures")], before=[]),
    Session("session over a journal", OVER_KEPT, before=KEPT),
    Serve("serve with 1 worker", 1, [(0, get("/v1/version")), (1, get("/v1/version"))]),
    Serve(
        "serve with 2 workers",
        2,
        [
            (0, closure(LIFT)),
            (1, lambda version: route("wheelchair", f"&since={version}")),
            (0, closure(RAMP)),
            (1, lambda version: route("wheelchair", f"&since={version}")),
            (0, closure(LIFT, False)),
            (1, lambda version: get(f"/v1/closures?since={version}")),
        ],
    ),
    Serve(
        "serve over a journal",
        2,
        [
            (0, get("/v1/version")),
            (1, closure(ROOM)),
            (0, lambda version: get(f"/v1/closures?since={version}")),
            (1, closure(ROOM, False)),
            (0, lambda version: get(f"/v1/closures?since={version}")),
        ],
        before=KEPT,
    ),
]


class Trial:
    """A program whose allocations are refused, and what its sessions answer without refusals. In the folder `work` are the examples."""

    def __init__(self, program, folder, work):
        self.program, self.folder, self.work = program, folder, work
        self.library = self.compiled("refuse.so", os.path.join(HERE, "refuse.c"), "-shared", "-fPIC")
        # In bytes, which aren't encoded again for each run.
        self.environment = {**os.environb, b"LD_PRELOAD": os.fsencode(self.library)}
        self.known, self.journals, self.reached, self.faults, self.told = {}, {}, {}, collections.Counter(), []
        self.loader = self.ends_of_loader()
        with socket.create_server(("", 0)) as door:
            self.port = door.getsockname()[1]

    def compiled(self, name, source, *flags):
        path = os.path.join(self.folder, name)
        subprocess.run(["cc", "-O2", "-D_GNU_SOURCE", *flags, "-o", path, source], check=True)
        return path

    def env(self, refusal):
        return {**self.environment, **refusal}

    def counted(self, run):
        """What comes of a run without refusals, and how many allocations it made."""
        path = os.path.join(self.folder, "count")
        ran = run({"REFUSE_COUNT": path})
        with open(path, "rb") as file:
            (count,) = struct.unpack("L", file.read())
        os.remove(path)
        return ran, count

    def ends_of_loader(self):
        """How a program that does nothing ends where a refusal ends it."""
        source = os.path.join(self.folder, "nothing.c")
        with open(source, "w", encoding="utf-8") as file:
            file.write("int main(void) { return 0; }\n")
        nothing = self.compiled("nothing", source)

        def run(refusal):
            ran = subprocess.run([nothing], capture_output=True, timeout=ONE_RUN, env=self.env(refusal))
            return ran.returncode, ran.stderr

        _, count = self.counted(run)
        ends = {(kind, number): run({kind: str(number)}) for kind in ("REFUSE", "REFUSE_FROM") for number in range(1, count + 1)}
        return {refusal: end for refusal, end in ends.items() if end[0]}

    def run(self, words, sent, refusal):
        """What comes of the program with these words and this input."""
        try:
            ran = subprocess.run([self.program, *words], input=sent, capture_output=True, timeout=ONE_RUN, cwd=self.work, env=self.env(refusal))
        except subprocess.TimeoutExpired:
            raise Fault(f"hung for {ONE_RUN} seconds") from None
        return Ran(ran.returncode, ran.stdout, ran.stderr, [], None)

    def over(self, before, run):
        """What a run comes to that is handed its last words: none, or a journal with the changes of the requests before."""
        return run([]) if before is None else self.over_bytes(self.journal_of(before) if before else b"", run)

    def over_bytes(self, journal, run):
        """The same with a journal of these bytes, which is no other run's."""
        with tempfile.NamedTemporaryFile(dir=os.path.join(self.work, "examples"), prefix="log", suffix=".journal") as file:
            file.write(journal)
            file.flush()
            ran = run([os.path.basename(file.name).removesuffix(".journal")])
            with open(file.name, "rb") as left:
                return ran._replace(journal=left.read())

    def session(self, requests, journal, refusal=None):
        """What comes of a session of these requests, whose last words are a journal or none, by default without refusals."""
        return self.run(["session", "examples", "station", *journal], b"".join(requests), refusal or {})

    def journal_of(self, requests):
        """What a session of these requests leaves of an empty journal, without refusals."""
        requests = tuple(requests)
        if requests not in self.journals:
            ran = self.over_bytes(b"", lambda journal: self.session(requests, journal))
            if ran.status or ran.out != b"".join(self.replies_to(requests)):
                raise Fault(f"over an empty journal, without a refusal, {requests} are answered {ran.out!r}, status {ran.status}")
            self.journals[requests] = ran.journal
        return self.journals[requests]

    def judge_unserved(self, before, journal):
        """Judges what is left of a journal where nothing was served."""
        if journal not in ((self.journal_of(before),) if before else (b"", self.journal_of([]))):
            raise Fault(f"before anything was served the journal was written: {len(journal)} bytes, {journal[:64]!r} in front")

    def difference(self, journal, before, requests):
        """How the next start over a journal differs from the history of the requests before and of these, or None where it goes on with that."""
        if journal not in self.reached:
            self.reached[journal] = self.over_bytes(journal, lambda name: self.session(REACHED, name))
        ran, due = self.reached[journal], b"".join(self.replies_to([*requests, *REACHED], before)[-len(REACHED) :])
        if (ran.status, ran.out) == (0, due):
            return None
        return f"the next start over the journal prints {ran.out!r} with status {ran.status}, and due is {due!r}"

    def version_of(self, before):
        """The version that stands behind these requests."""
        return 1 + sum(map(is_accepted, before or (), self.replies_to(before or ())))

    def replies_to(self, requests, before=None):
        """The replies of a session without a journal to these requests, behind those before and no others, without refusals."""
        front = tuple(before or ())
        requests = front + tuple(requests)
        if requests not in self.known:
            ran = self.session(requests, [])
            replies, rest = replies_of(ran.out)
            if ran.status or rest or len(replies) != len(requests):
                raise Fault(f"without a refusal {requests} are answered {ran.out!r}, status {ran.status}")
            self.known[requests] = replies
        return self.known[requests][len(front) :]

    def tried(self, command, kind, number):
        """What came of a run with a refusal."""
        try:
            ran = command.run(self, {kind: str(number)})
            if self.loader.get((kind, number)) == (ran.status, ran.err):
                return "ended by the loader"
            return command.judge(self, ran)
        except Fault as fault:
            self.faults[command] += 1
            if self.faults[command] <= TOLD:
                self.told.append(f"{command.name}, {kind}={number}: {fault}")
            return "FAULT"


def program_of():
    """The path of the program, built if need be."""
    if "VENUE" in os.environ:
        return os.path.abspath(os.environ["VENUE"])
    subprocess.run(["./venue", "price", "examples/table"], cwd=TOP, stdout=subprocess.DEVNULL, check=True)
    return BUILT


def lay_out(work):
    """Copies the examples, and makes the folder `rooms` with two units, which is read back from a journal in few allocations."""
    examples = os.path.join(work, "examples")
    shutil.copytree(os.path.join(TOP, "examples"), examples)
    nolift, rooms = os.path.join(examples, "nolift"), os.path.join(examples, "rooms")
    os.mkdir(rooms)
    for name in ("manifest.json", "venue.geojson", "level.geojson"):
        shutil.copy(os.path.join(nolift, name), rooms)
    with open(os.path.join(nolift, "unit.geojson"), encoding="utf-8") as file:
        units = json.load(file)
    units["features"] = [unit for unit in units["features"] if unit["id"] in (ROOM, OTHER_ROOM)]
    with open(os.path.join(rooms, "unit.geojson"), "w", encoding="utf-8") as file:
        json.dump(units, file)


def counts_of(trial):
    """The commands that the program has, each with the number of its allocations."""
    counts = {}
    for command in COMMANDS:
        if isinstance(command, Serve) and command.run(trial, {}).out == b"words\n":
            print(f"{command.name}: skipped, since this program has no such command")
            continue
        ran, counts[command] = trial.counted(lambda refusal: command.run(trial, refusal))
        if not counts[command]:
            raise Fault(f"{command.name}: no allocation was counted, so none could be refused")
        command.prepare(trial, ran)
    return counts


def main():
    if not shutil.which("cc"):
        print("refused_memory: skipped, since there is no cc")
        return 0
    takes_all = "--all" in sys.argv[1:]
    # In memory where there is such a folder, since a journal is synced at each change.
    memory = "/dev/shm" if os.access("/dev/shm", os.W_OK) else None
    with tempfile.TemporaryDirectory() as folder, tempfile.TemporaryDirectory(dir=memory) as work:
        lay_out(work)
        trial = Trial(program_of(), folder, work)
        end = float("inf") if takes_all else time.monotonic() + ALL_RUNS
        counts = counts_of(trial)
        steps = {command: STEP if count > MANY and not takes_all else 1 for command, count in counts.items()}
        numbers = {command: range(command.first, count + 1, steps[command]) for command, count in counts.items()}
        tasks = [(command, kind, number) for command in counts for number in numbers[command] for kind in ("REFUSE", "REFUSE_FROM")]
        # In any order, so that what is left out after five minutes is of no command in particular.
        random.Random(1).shuffle(tasks)
        came = {command: collections.Counter() for command in counts}
        with concurrent.futures.ThreadPoolExecutor(os.cpu_count()) as pool:
            for command, outcome in pool.map(lambda task: (task[0], trial.tried(*task) if time.monotonic() < end else "LEFT OUT"), tasks):
                came[command][outcome] += 1
    # Here alone, since two lines that are printed side by side may mix.
    for line in trial.told:
        print(line, file=sys.stderr)
    for command, count in counts.items():
        told = ", ".join(f"{outcome} {times:,}" for outcome, times in sorted(came[command].items()))
        since = f", from number {command.first:,} on" if command.first > 1 else ""
        print(f"{command.name}: {count:,} allocations{since}{', every seventh' if steps[command] > 1 else ''}: {told}")
        if came[command][GAVE_WAY] > max(ANYHOW, came[command].total() // FEW):
            print(f"{command.name}: connections gave way in more runs than one of {FEW}, where one thread is missing at one run alone", file=sys.stderr)
            came[command]["FAULT"] += 1
    faults, left_out = (sum(of[outcome] for of in came.values()) for outcome in ("FAULT", "LEFT OUT"))
    rest = f", {left_out:,} left out after {ALL_RUNS} seconds" if left_out else ""
    print(f"refused_memory: {sum(counts.values()):,} allocations, {len(tasks) - left_out:,} runs, {faults} faults{rest}")
    return 1 if faults or not tasks else 0


try:
    sys.exit(main())
except Fault as fault:
    sys.exit(f"refused_memory: {fault}")
