#!/usr/bin/env python3
"""Holds what examples/serve/history.py tells of a journal against what clients were told while it was written, and against the folders' files:
each line of stories of random changes by `session` and by `serve` with four workers, what was closed at each version, and the files of each
publication. Then journals by hand, damaged copies, of which the program says where they are damaged, runs beside a server that closes,
opens and publishes as fast as it can, and words that are of no form.

usage: journal_history.py [RUNS [COPIES]]   (so many runs beside a server, and damaged copies; 15 and 200 where they aren't named)
The program is the one that VENUE names, or else the one that the launcher ./venue runs, which builds it if need be; HISTORY names another script than
history.py. It prints a line for each difference and one at the end, and ends with status 1 at a difference.
"""
import concurrent.futures
import contextlib
import functools
import http.client
import importlib.util
import io
import itertools
import json
import os
import random
import re
import shutil
import socket
import subprocess
import sys
import tempfile
import threading
import time
import unicodedata

sys.dont_write_bytecode = True  # so that a clone stays as it is

TOP = os.path.dirname(os.path.dirname(os.path.abspath(__file__)))
BUILT = os.path.join(TOP, "crates", "venue_cli", "out", "venue_cli")
SCRIPT = os.environ.get("HISTORY") or os.path.join(TOP, "examples", "serve", "history.py")
TYPES = """address amenity anchor building detail fixture footprint geofence kiosk level occupant opening relationship section unit venue""".split()
FILES = ["manifest.json"] + [kind + ".geojson" for kind in TYPES]
CLOSABLE = ("opening", "relationship", "unit")
PROFILES = ["walk", "wheelchair", "pram", "36"]
SETTINGS = "".join(f'\n[[profile]]\nname = "{name}"\nramp = true\n' for name in PROFILES[2:])
KEY = {"x-staff-key": "desk-key-1"}
# The longest that one run takes, and that a connection is kept which asks nothing, in seconds: the server lets it go after 10.
LONGEST, IDLE = 300, 3
# Where the files are, if it is there, since each change waits for its disk.
MEMORY = "/dev/shm"
# So many versions of a story are in the journal whose copies are damaged.
FRONT = 40
# So many runs are beside one server, and the next ones beside another with a new journal.
ROUND = 25
# How many changes a story asks for, some half of which are accepted.
CHANGES = 200
TURNS = "LRE RLE LRO RLO PDF LRI RLI FSI PDI".split()
LIFT = "00000000-0000-4000-8000-000000000301"
# Names that would break a line, in the units of a folder in their order; None is no name in English.
NAMES = ["Lift \u00e4\u6771", "two\nlines", "a\rb\x1bc\x85d", "e\u2028f\u2029g\u202eh\u2066i", None, "\x00", "", " wide  name "]
# Other forms of an identifier, for the openings of that folder in their order.
IDENTIFIERS = ["{0}", "{{{0}}}", "urn:uuid:{0}", "URN:UUID:{0}", "{1}"]

counts = {"lines": 0, "versions": 0, "folders": 0, "copies": 0, "runs": 0}
differ = 0


def compare(what, found, due):
    """Prints what differs."""
    global differ
    if found != due:
        differ += 1
        print(f"journal_history: {what}: {str(found)[:400]!r}, and due is {str(due)[:400]!r}")
    return found == due


def script_of(path):
    """The script as a module, for what is asked so often that a process each would take too long."""
    spec = importlib.util.spec_from_file_location("history", path)
    module = importlib.util.module_from_spec(spec)
    spec.loader.exec_module(module)
    return module


HISTORY = script_of(SCRIPT)


def called(*words):
    """What the script's function prints, and its status, which is a text where it stops."""
    out = io.BytesIO()
    try:
        status = HISTORY.run(list(words), out)
    except (HISTORY.Refused, OSError) as stop:
        status = str(stop)
    return out.getvalue().decode(), status


def started(*words):
    """What the script prints on both streams, and its status."""
    done = subprocess.run([sys.executable, SCRIPT, *words], capture_output=True, timeout=LONGEST, stdin=subprocess.DEVNULL)
    return done.stdout.decode(), done.stderr.decode(errors="replace"), done.returncode


# The base: its folders, and what is due of their features.


def read(path):
    with open(path, "rb") as file:
        return file.read()


def write(path, data):
    with open(path, "wb") as file:
        file.write(data)


def rename(folder):
    """Gives units and openings of a folder names and categories, and openings identifiers in other forms."""
    for kind in ("unit", "opening"):
        path = os.path.join(folder, kind + ".geojson")
        collection = json.loads(read(path))
        for place, feature in enumerate(collection["features"]):
            name = NAMES[place % len(NAMES)]
            feature["properties"]["name"] = {"de": "Raum", **({} if name is None else {"en": name})}
            if kind == "opening":
                feature["properties"]["category"] = "pedestrian"
                identifier = feature["id"].upper()
                feature["id"] = IDENTIFIERS[place % len(IDENTIFIERS)].format(identifier, identifier.replace("-", ""))
        write(path, b"\xef\xbb\xbf" + json.dumps(collection).encode())
    write(os.path.join(folder, "notes.txt"), b"no file of the folder")


def make_base(base):
    """The station, one without its lift, one with names, and one that breaks a rule, and two profiles more than all settings have."""
    examples = os.path.join(TOP, "examples")
    for name, source in [("station", "station"), ("nolift", "nolift"), ("named", "station"), ("tall", "tall")]:
        shutil.copytree(os.path.join(examples, source), os.path.join(base, name))
    rename(os.path.join(base, "named"))
    write(os.path.join(base, "venue.toml"), read(os.path.join(examples, "venue.toml")) + SETTINGS.encode())


def is_fit(character):
    return unicodedata.category(character) not in ("Cc", "Cs", "Zl", "Zp") and unicodedata.bidirectional(character) not in TURNS


def identifier_of(text):
    digits = re.sub("[{}-]|urn:uuid:", "", text.lower())
    return "-".join((digits[:8], digits[8:12], digits[12:16], digits[16:20], digits[20:]))


@functools.lru_cache
def features_of(folder, kinds=tuple(TYPES)):
    """What the features of a folder are, by identifier, in the order of these types and of their files."""
    found = {}
    for kind in kinds:
        path = os.path.join(folder, kind + ".geojson")
        features = json.loads(read(path).decode("utf-8-sig"))["features"] if os.path.exists(path) else []
        for feature in features:
            properties = feature["properties"]
            words = [kind, properties.get("category"), (properties.get("name") or {}).get("en")]
            found[identifier_of(feature["id"])] = "".join(it if is_fit(it) else "\ufffd" for it in " ".join(filter(None, words)))
    return found


@functools.lru_cache
def files_of(folder):
    """The files of a folder that are published, by name."""
    return {name: read(os.path.join(folder, name)) for name in FILES if os.path.exists(os.path.join(folder, name))}


class Story:
    """What clients were told: a line for each entry without its worker, the workers where they are known, and what was closed at each version."""

    def __init__(self, base, folder):
        self.base, self.folders, self.lines, self.workers, self.closures = base, [], [], [], {}
        self.publish(folder, 0)

    def features(self):
        return features_of(os.path.join(self.base, self.folders[-1]))

    def publish(self, folder, worker):
        files = files_of(os.path.join(self.base, folder))
        self.add(folder, f"published {sum(map(len, files.values()))} bytes {len(files)} files", worker)

    def add(self, folder, line, worker):
        self.folders.append(folder)
        self.lines.append(line)
        self.workers.append(worker)

    def take(self, change, reply, worker):
        """A change with its reply."""
        if not ("dropped" in reply or reply.get("changed")):
            return
        compare("the next version", reply["version"], len(self.lines) + 1)
        if "dropped" in reply:
            self.publish(change["folder"], worker)
        else:
            line = f"{'closed' if reply['closed'] else 'opened'} {told(reply['feature'], reply.get('profiles'), self.features())}"
            self.add(self.folders[-1], line, worker)

    def see(self, reply):
        """What is closed at a version."""
        features = self.features()
        rows = [row if isinstance(row, dict) else {"feature": row} for row in reply["closures"]]
        self.closures[reply["version"]] = "".join(told(row["feature"], row.get("profiles"), features) + "\n" for row in rows)


def told(identifier, names, features):
    """A feature in a line, for whom it is closed or opened, and what it is."""
    profiles = "all" if names is None or names == PROFILES else ",".join(names)
    return " ".join(filter(None, (identifier, profiles, features.get(identifier, ""))))


def random_changes(draw, base, count):
    """Bodies of changes: of features that can be closed and of others, for all and for some, and of folders."""
    features = list(features_of(os.path.join(base, "station"), CLOSABLE))
    few = draw.sample(features, 8) + [LIFT, "00000000-0000-4000-8000-000000000041"]
    for _ in range(count):
        if draw.random() < 0.1:
            yield {"folder": draw.choice(["station", "nolift", "named", "named", "tall"])}
        else:
            body = {"feature": draw.choice(few if draw.random() < 0.8 else features), "closed": draw.random() < 0.6}
            yield {**body, "profiles": draw.sample(PROFILES, draw.randint(1, len(PROFILES)))} if draw.random() < 0.7 else body


def path_of(change):
    return "/v1/publish" if "folder" in change else "/v1/closures"


# The program.


def program_of():
    """The path of the program, built if need be."""
    if "VENUE" in os.environ:
        return os.path.abspath(os.environ["VENUE"])
    subprocess.run(["./venue", "price", "examples/table"], cwd=TOP, stdout=subprocess.DEVNULL, check=True)
    return BUILT


def session(program, base, journal, requests=b""):
    """What a session with a journal prints."""
    words = [program, "session", base, "station", journal]
    return subprocess.run(words, input=requests, stdout=subprocess.PIPE, timeout=LONGEST).stdout


def replies_of(text):
    """The bodies of the replies of a session."""
    while text:
        head, _, rest = text.partition(b"\r\n\r\n")
        length = int(re.search(rb"content-length: (\d+)", head)[1])
        yield json.loads(rest[:length])
        text = rest[length:]


def request_of(change):
    body = json.dumps(change).encode()
    return f"POST {path_of(change)} HTTP/1.1\r\nhost: a\r\nx-staff-key: desk-key-1\r\ncontent-length: {len(body)}\r\n\r\n".encode() + body


@contextlib.contextmanager
def served(program, base, journal, seconds):
    """A server with four workers, for so long at most: its host and port."""
    host = "127." + ".".join(str(random.randint(1, 254)) for _ in range(3))
    with socket.create_server((host, 0)) as door:
        port = door.getsockname()[1]
    words = [program, "serve", base, "station", f"{host}:{port}", "4", "1000000", journal]
    with subprocess.Popen(words, stdin=subprocess.DEVNULL, stdout=subprocess.PIPE) as process:
        watch = threading.Timer(seconds, process.kill)
        watch.start()
        try:
            compare("the server prints", process.stdout.readline(), f"listening {host}:{port}\n".encode())
            yield host, port
        finally:
            watch.cancel()
            process.kill()


class Client:
    """A client with one connection, and with a new one where that was idle."""

    def __init__(self, address, name):
        self.connection, self.name, self.connections, self.last = http.client.HTTPConnection(*address, timeout=LONGEST), name, 1, time.monotonic()

    def ask(self, path, change=None):
        """The body of the reply."""
        if time.monotonic() - self.last > IDLE:
            self.renew()
        body = None if change is None else json.dumps(change)
        self.connection.request("GET" if change is None else "POST", path, body, KEY)
        reply = json.loads(self.connection.getresponse().read())
        self.last = time.monotonic()
        return reply

    def renew(self):
        """Lets the connection go: the next question comes over a new one."""
        self.connection.close()
        self.connections += 1
        self.last = time.monotonic()

    def worker(self):
        """A name for the worker that serves the connection."""
        return f"of connection {self.connections} of {self.name}"


# Stories.


def story_of_session(program, base, journal, draw):
    """A story over one session after the other, each of which goes on with the journal."""
    write(os.path.join(base, journal + ".journal"), b"")
    story, changes = Story(base, "station"), list(random_changes(draw, base, CHANGES))
    look = b"GET /v1/closures HTTP/1.1\r\nhost: a\r\n\r\n"
    for part in (changes[:100], changes[100:150], changes[150:]):
        replies = replies_of(session(program, base, journal, look + b"".join(request_of(change) + look for change in part)))
        story.see(next(replies))
        for change, reply, seen in zip(part, replies, replies):
            story.take(change, reply, 1)
            story.see(seen)
    return story


def story_of_server(program, base, journal, draw):
    """A story over four connections in random turns, each of which has a worker of its own, known by its first change."""
    write(os.path.join(base, journal + ".journal"), b"")
    story = Story(base, "station")
    with served(program, base, journal, LONGEST) as address:
        clients = [Client(address, number) for number in range(4)]
        for client in clients:
            story.see(client.ask("/v1/closures"))
        for change in random_changes(draw, base, CHANGES):
            client = draw.choice(clients)
            with going_on(client):
                reply = client.ask(path_of(change), change)
                story.take(change, reply, client.worker())
            for client in (draw.choice(clients), clients[0]):
                with going_on(client):
                    story.see(client.ask(f"/v1/closures?since={len(story.lines)}"))
                    break
        for client in clients:
            client.connection.close()
    return story


@contextlib.contextmanager
def going_on(client):
    """What the server leaves without a reply, as on a machine on which it waits for long, is passed over."""
    try:
        yield
    except (ConnectionError, http.client.HTTPException):
        client.renew()


def name_workers(story, printed):
    """The workers of connections, from the lines: each has one, of 1 to 4, and those that were open at once have different ones."""
    found = {}
    for worker, line in zip(story.workers, printed):
        number = re.match(r"version \d+ worker (\d+) ", line)
        if isinstance(worker, str) and number:
            found.setdefault(worker, int(number[1]))
    first = [number for worker, number in found.items() if worker.startswith("of connection 1 ")]
    compare("workers of connections that are open at once", sorted(set(first)), sorted(first))
    compare("workers past the fourth", sorted(set(found.values()) - {1, 2, 3, 4}), [])
    return found


def compare_lines(story, journal):
    """The lines of a story, and where its journal ends."""
    text, errors, status = started(story.base, journal)
    compare(f"the history of {journal}", (errors, status), ("", 0))
    printed = text.split("\n")
    workers = name_workers(story, printed)
    rows = enumerate(zip(story.workers, story.lines), 1)
    due = [f"version {number} worker {workers.get(worker, worker)} {line}" for number, (worker, line) in rows]
    size = os.path.getsize(os.path.join(story.base, journal + ".journal"))
    due += [f"end {places_of(story)[-1]} of {size} bytes", ""]
    for found, line in itertools.zip_longest(printed, due):
        compare(f"a line of {journal}", found, line)
    counts["lines"] += len(due) - 1


def compare_closures(story, journal):
    """What was closed at each version, of which every 25th is asked for by a process."""
    compare(f"the versions of {journal} that were looked at", sorted(story.closures), list(range(1, len(story.lines) + 1)))
    for version, due in story.closures.items():
        words = (story.base, journal, "--at", str(version))
        found = started(*words)[::2] if version % 25 == 1 else called(*words)
        compare(f"what is closed in {journal} at version {version}", found, (due, 0))
        counts["versions"] += 1
    text, errors, status = started(story.base, journal, "--at", str(len(story.lines) + 1))
    compare("a version past the last", (text, errors.count("\n"), status), ("", 1, 2))


def compare_folders(story, journal):
    """The files of the folder that stood at each publication, and one version behind it; a process is started for every eighth."""
    starts = [number for number, line in enumerate(story.lines, 1) if line.startswith("published")]
    for version in sorted({*starts, *(min(it + 1, len(story.lines)) for it in starts)}):
        published = max(it for it in starts if it <= version)
        target = os.path.join(story.base, f"files-{journal}-{version}")
        words = (story.base, journal, "--files", str(version), target)
        due = files_of(os.path.join(story.base, story.folders[version - 1]))
        line = f"wrote {sum(map(len, due.values()))} bytes {len(due)} files of version {published}\n"
        compare(f"--files {version} of {journal}", started(*words)[::2] if counts["folders"] % 8 == 0 else called(*words), (line, 0))
        found = {name: read(os.path.join(target, name)) for name in os.listdir(target)} if os.path.isdir(target) else None
        compare(f"the files of version {version} of {journal}", found == due, True)
        counts["folders"] += 1


def compare_story(story, journal):
    before = read(os.path.join(story.base, journal + ".journal"))
    compare_lines(story, journal)
    compare_closures(story, journal)
    compare_folders(story, journal)
    compare(f"the bytes of {journal} are as before", read(os.path.join(story.base, journal + ".journal")) == before, True)


# Damaged copies.


def places_of(story, versions=None):
    """The places in the journal of so many versions, or of all, that are of its form, and not within a file: the last is that of the closed gate."""
    found, end = [], 0
    for folder, line in list(zip(story.folders, story.lines))[:versions]:
        if not line.startswith("published"):
            found += range(end, end + 21)
            end += 21
            continue
        files = files_of(os.path.join(story.base, folder))
        found += range(end, end + 3)
        end += 3
        for name in FILES:
            head = 9 if name in files else 1
            found += range(end, end + head)
            end += head + len(files.get(name, b""))
    return found + [end]


def damage(draw, data, places):
    """A copy of a journal that is damaged in one way."""
    place = draw.choice(places) if draw.random() < 0.7 else draw.randrange(len(data))
    way = draw.random()
    if way < 0.55:
        return data[:place] + bytes([draw.choice([draw.randrange(256), data[place] ^ 1, 0, 1, 2, 3, 4, 16, 17])]) + data[place + 1 :]
    if way < 0.8:
        return data[:place]
    more = draw.choice([b"\0", b"\1", draw.randbytes(30), data[:40]])
    return data[:place] + more + data[place:] if way < 0.9 else data[: places[-1]] + more


def compare_copy(program, base, name):
    """Whether the script finds a copy damaged exactly where the program does. The script reads first, since a session may begin a history."""
    text, status = called(base, name)
    lines = text.splitlines(keepends=True)
    said = session(program, base, name)
    if said.startswith(b"damaged "):
        compare(f"the damaged {name}", (lines[-1], status), (said.decode(), 2))
        check_around(base, name, len(lines), said.decode())
    else:
        ends = re.fullmatch(r"(end \d+|empty) of \d+ bytes\n", lines[-1])
        compare(f"{name}, of which the program says {said[:40]!r}", (bool(ends), status), (True, 0))


def check_around(base, name, version, said):
    """In front of the damage there is an answer, and behind it none."""
    compare(f"what is closed behind the damage of {name}", called(base, name, "--at", str(version)), (said, 2))
    compare(f"the files behind the damage of {name}", called(base, name, "--files", str(version), os.path.join(base, "none")), (said, 2))
    if version > 1:
        compare(f"in front of the damage of {name}", called(base, name, "--at", str(version - 1))[1], 0)


def compare_copies(program, story, journal, count, draw):
    """Copies of a journal's front, so that each is read soon."""
    places = places_of(story, FRONT)
    data = read(os.path.join(story.base, journal + ".journal"))[: places[-1]] + b"\0"
    names = [f"copy-{number}" for number in range(count)]
    for name in names:
        write(os.path.join(story.base, name + ".journal"), damage(draw, data, places))
    with concurrent.futures.ThreadPoolExecutor(4) as pool:
        for _ in pool.map(lambda name: compare_copy(program, story.base, name), names):
            counts["copies"] += 1


# Beside a server.


def hurry(address, number, is_over):
    """Closes and opens a feature in turn, and publishes now and then, until it is over."""
    client, changes = Client(address, number), 0
    feature = f"00000000-0000-4000-8000-00000000030{number}"
    while not is_over.is_set():
        change = {"feature": feature, "closed": changes % 2 == 0, "profiles": PROFILES[:number]} if changes % 200 != 199 else {"folder": "named"}
        with going_on(client):
            reply = client.ask(path_of(change), change)
            compare("a change beside the script", "dropped" in reply or "changed" in reply, True)
        changes += 1
    client.connection.close()


def compare_beside(program, base, runs):
    """Runs the script beside a server that changes as fast as it can: it is never damaged, and goes on each time from what was printed before."""
    write(os.path.join(base, "beside.journal"), b"")
    is_over, before = threading.Event(), ""
    with served(program, base, "beside", LONGEST + 5 * runs) as address, concurrent.futures.ThreadPoolExecutor(3) as pool:
        hurries = [pool.submit(hurry, address, number, is_over) for number in (1, 2, 3)]
        try:
            for _ in range(runs):
                wait_for_more(os.path.join(base, "beside.journal"))
                before = compare_next(base, before)
        finally:
            is_over.set()
        for it in hurries:
            it.result()
    compare_next(base, before)


def wait_for_more(path):
    """Waits until a journal has grown, for as long as one run takes at most."""
    size, end = os.path.getsize(path), time.monotonic() + LONGEST
    while os.path.getsize(path) == size and time.monotonic() < end:
        time.sleep(0.001)
    compare("the journal grows", os.path.getsize(path) > size, True)


def compare_next(base, before):
    """What a run prints but its last line, which begins with what another one had printed."""
    text, errors, status = started(base, "beside")
    lines, _, last = text.rstrip("\n").rpartition("\n")
    compare("a run beside the server", (bool(re.fullmatch(r"end \d+ of \d+ bytes", last)), errors, status), (True, "", 0))
    compare("a run goes on from the one before", (lines + "\n").startswith(before), True)
    counts["runs"] += 1
    return lines + "\n"


# By hand.

CLOSING = bytes.fromhex("01 02 01 00000000000040008000000000000301 0003")
OPENING = bytes.fromhex("01 03 02 00000000000040008000000000000301 0002")
EMPTY = b"\1\1\0" + bytes(17)
# Two files that are no JSON text.
BROKEN = b"\1\1\0" + b"\1" + (4).to_bytes(8, "big") + b"{}[]" + bytes(14) + b"\1" + (3).to_bytes(8, "big") + b"[[[" + b"\0"
FIRST = f"worker 1 closed {LIFT}"
# Journals of a base without settings, and what is printed of each.
FORMS = [
    (b"", "empty of 0 bytes\n"),
    (b"\1", "empty of 1 bytes\n"),
    (bytes(100), "empty of 100 bytes\n"),
    (b"\2" + CLOSING, "empty of 22 bytes\n"),
    (b"\1\t", "damaged 0\n"),
    (CLOSING, "damaged 0\n"),
    (CLOSING + b"\0", f"version 1 {FIRST} 0,1\nend 21 of 22 bytes\n"),
    (CLOSING + OPENING + b"\0", f"version 1 {FIRST} 0,1\nversion 2 worker 2 opened {LIFT} 1\nend 42 of 43 bytes\n"),
    (CLOSING + b"\7more", f"version 1 {FIRST} 0,1\nend 21 of 26 bytes\n"),
    (CLOSING + OPENING, f"version 1 {FIRST} 0,1\ndamaged 21\n"),
    (CLOSING + b"\1", f"version 1 {FIRST} 0,1\ndamaged 21\n"),
    (b"\1\2\x10" + CLOSING[3:19] + b"\0\0" + b"\0", f"version 1 worker 16 closed {LIFT} (none)\nend 21 of 22 bytes\n"),
    (b"\1\2\x11" + CLOSING[3:] + b"\0", "damaged 0\n"),
    (b"\1\4" + CLOSING[2:] + b"\0", "damaged 0\n"),
    (CLOSING + b"\1\0" + CLOSING[2:] + b"\0", f"version 1 {FIRST} 0,1\ndamaged 21\n"),
    (EMPTY + CLOSING + b"\0", f"version 1 worker 0 published 0 bytes 0 files\nversion 2 {FIRST} 0,1\nend 41 of 42 bytes\n"),
    (EMPTY, "damaged 0\n"),
    (EMPTY[:-1] + b"\2\0", "damaged 0\n"),
    (b"\1\1\0\1" + (33_554_433).to_bytes(8, "big") + bytes(33_554_450), "damaged 0\n"),
    (BROKEN + CLOSING + b"\0", f"version 1 worker 0 published 7 bytes 2 files\nversion 2 {FIRST} 0,1\nend 64 of 65 bytes\n"),
]


def compare_forms(base):
    """Journals by the page of the form, without settings, so that profiles are numbers; a process is started for every third."""
    os.mkdir(base)
    for number, (data, due) in enumerate(FORMS):
        write(os.path.join(base, "form.journal"), data)
        found = started(base, "form")[::2] if number % 3 == 0 else called(base, "form")
        compare(f"journal {number} by hand", found, (due, 2 if "damaged" in due else 0))
    counts["lines"] += len(FORMS)


def record_of(feature, profiles, kind=2):
    return bytes([1, kind, 1]) + bytes.fromhex(feature.replace("-", "")) + profiles.to_bytes(2, "big")


def folder_record(folder):
    files = files_of(folder)
    parts = [b"\1" + len(files[name]).to_bytes(8, "big") + files[name] if name in files else b"\0" for name in FILES]
    return b"\1\1\0" + b"".join(parts)


def compare_earlier(base):
    """A feature that the folder lacks is what it was in the one before, else nothing; a profile that the settings lack is its number."""
    station, nolift = (folder_record(os.path.join(base, name)) for name in ("station", "nolift"))
    nobody = "00000000-0000-4000-8000-00000000ffff"
    anchor = "00000000-0000-4000-8000-000000000041"
    records = [record_of(LIFT, 0x8013), record_of(LIFT, 15, 3), record_of(nobody, 0x800F), record_of(anchor, 1)]
    write(os.path.join(base, "earlier.journal"), station + nolift + b"".join(records) + b"\0")
    text, errors, status = started(base, "earlier")
    due = ["1 closed {} walk,wheelchair,4,15 unit elevator", "1 opened {} all unit elevator"]
    due += [f"1 closed {nobody} walk,wheelchair,pram,36,15", f"1 closed {anchor} walk anchor"]
    found = re.findall(r"(?m)^version \d+ worker (1 .*)$", text)
    compare("features that the folder lacks", (found, errors, status), ([line.format(LIFT) for line in due], "", 0))
    counts["lines"] += len(due)


def compare_named(base):
    """What each feature is that can be closed in the folder with names and with identifiers in all forms, as it is told and in its order."""
    features = features_of(os.path.join(base, "named"), CLOSABLE)
    records = [record_of(feature, 15) for feature in reversed(features)]
    write(os.path.join(base, "all.journal"), folder_record(os.path.join(base, "named")) + b"".join(records) + b"\0")
    due = [told(feature, None, features) for feature in features]
    compare("all features, as they are closed", re.findall(r"(?m)^version \d+ worker 1 closed (.*)$", called(base, "all")[0]), due[::-1])
    compare("all features in their order", started(base, "all", "--at", str(1 + len(features)))[::2], ("".join(line + "\n" for line in due), 0))
    counts["lines"] += len(due)


def compare_growing(base):
    """A record that is appended while the script waits to write its first lines is read with those in front of it."""
    path, before = os.path.join(base, "growing.journal"), 100_000
    write(path, CLOSING * before + b"\0")
    with subprocess.Popen([sys.executable, SCRIPT, base, "growing"], stdout=subprocess.PIPE, stderr=subprocess.PIPE) as process:
        process.stdout.readline()
        with open(path, "r+b", buffering=0) as file:
            # As an append writes: what is behind the gate, then the gate.
            for place, data in ((21 * before + 1, OPENING[1:] + b"\0"), (21 * before, b"\1")):
                file.seek(place)
                file.write(data)
        text, errors = process.communicate(timeout=LONGEST)
    last = f"version {before + 1} worker 2 opened {LIFT} wheelchair\nend {21 * before + 21} of {21 * before + 22} bytes\n".encode()
    compare("a journal that grows", (text[-len(last) :], errors, process.returncode), (last, b"", 0))


def compare_pipe(base):
    """Who reads a line and goes away is told nothing."""
    write(os.path.join(base, "long.journal"), CLOSING * 100_000 + b"\0")
    with subprocess.Popen([sys.executable, SCRIPT, base, "long"], stdout=subprocess.PIPE, stderr=subprocess.PIPE) as process:
        first = process.stdout.readline()
        process.stdout.close()
        compare("a pipe that is closed", (first[:10], process.stderr.read()), (b"version 1 ", b""))


def compare_words(base):
    """Words of no form, and what isn't there: a line on standard error alone."""
    os.mkdir(os.path.join(base, "folder.journal"))
    os.mkfifo(os.path.join(base, "pipe.journal"))
    there = os.path.join(base, "station")
    words = [[], [base], [base, "session", "more"], ["", "session"], ["x" * 1025, "session"]]
    words += [[base, name] for name in ("none", "folder", "pipe", "a.b", "x" * 65, "", "session\n")]
    words += [[base + "/none", "session"], [there + "/unit.geojson", "session"]]
    words += [[base, "session", "--at", number] for number in ("0", "01", "", "-1", "x", "1 ", "\u0661", "9" * 30)]
    words += [[base, "session", *more] for more in (["--at"], ["--at", "1", "2"], ["--files", "1"], ["--file", "1", base + "/new"])]
    words += [[base, "session", "--files", *more] for more in (["1", there], ["1", base + "/none/new"], ["9999", base + "/new"])]
    for number, row in enumerate(words):
        text, errors, status = started(*row) if number % 4 == 0 else (*(f"{it}\n" for it in called(*row)), 2)
        compare(f"the words {row}", (text.strip("\n"), errors.count("\n"), status), ("", 1, 2))
    compare("what those words made", os.path.lexists(base + "/new"), False)
    counts["runs"] += len(words)


def main(runs=15, copies=200):
    program, draw = program_of(), random.Random(1)
    with tempfile.TemporaryDirectory(dir=MEMORY if os.path.isdir(MEMORY) else None) as folder:
        base = os.path.join(folder, "base")
        make_base(base)
        stories = {name: tell(program, base, name, draw) for name, tell in (("session", story_of_session), ("server", story_of_server))}
        for journal, story in stories.items():
            compare_story(story, journal)
        compare_copies(program, stories["server"], "server", copies, draw)
        compare_forms(os.path.join(folder, "bare"))
        compare_earlier(base)
        compare_named(base)
        compare_growing(base)
        compare_pipe(base)
        compare_words(base)
        for number in range(0, runs, ROUND):
            compare_beside(program, base, min(ROUND, runs - number))
    print(f"journal_history: {', '.join(f'{count} {name}' for name, count in counts.items())}, {differ} differences")
    return 1 if differ else 0


sys.exit(main(*map(int, sys.argv[1:])))
