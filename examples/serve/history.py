#!/usr/bin/env python3
"""Tells what a journal keeps, from its form in docs/FORMATS.md alone: it shares no code with the program, starts no server, takes no lock, and may
be run while one writes.

usage: history.py BASE JOURNAL                 a line an entry of BASE/JOURNAL.journal, and where they end
       history.py BASE JOURNAL --at N          what is closed at version N, a line each, in the order of GET /v1/closures
       history.py BASE JOURNAL --files N DIR   writes the files of the folder that stood at version N into the new folder DIR
Profiles are named by BASE/venue.toml: `all` are all that it has, `(none)` is an empty set, and a number is one that it lacks. Where Python can't read
it, as TOML 1.0, all are numbers. Behind an identifier stand the feature's type, its category and the text of its name's tag `en`, as far as they are
there, by the folder that stood; of one that this folder lacks what it was in the folder before. In them each line end, control character, lone
half of a surrogate pair and mark that turns the direction of writing is replaced by U+FFFD. All is written in UTF-8.
It prints `damaged AT` where the journal's form breaks, and judges no rule, so it never prints `unfit`.
Status 0, or 2 where the journal is damaged in front of what was asked for, or where words or files stop it, which is told on standard error.
"""
import collections
import json
import os
import re
import shutil
import signal
import stat
import struct
import sys
import tomllib

TYPES = "address amenity anchor building detail fixture footprint geofence kiosk level occupant opening relationship section unit venue".split()
FILES = ["manifest.json"] + [kind + ".geojson" for kind in TYPES]
# The numbers of the files whose features can be closed, in the order of GET /v1/closures.
CLOSABLE = [FILES.index(kind + ".geojson") for kind in ("opening", "relationship", "unit")]
OTHERS = [number for number in range(1, len(FILES)) if number not in CLOSABLE]
OPEN_GATE, PUBLISHED, CLOSED, OPENED = 1, 1, 2, 3
MOST_WORKER, MOST_FILE, MOST_BASE = 16, 33_554_432, 1024
# The bytes of a record of a closing or an opening, and of what is read at once.
CHANGE, PIECE = 21, 1 << 20
# So many records of a run are looked at first, and twice as many each time that all were changes.
FEW = 16
# So many texts of records are kept at most.
MOST_TEXTS = 100_000
HEX = "[0-9a-f]"
HYPHENS = f"{HEX}{{8}}(?:-{HEX}{{4}}){{3}}-{HEX}{{12}}"
IDENTIFIER = re.compile(rf"{HYPHENS}|{HEX}{{32}}|\{{{HYPHENS}\}}|urn:uuid:{HYPHENS}", re.IGNORECASE | re.ASCII)
# Characters that would break a line, or the order of what is read in it.
BREAKING = re.compile("[\0-\x1f\x7f-\x9f\u2028-\u202e\u2066-\u2069\ud800-\udfff]")
WORDS = "the words are BASE JOURNAL, BASE JOURNAL --at N, or BASE JOURNAL --files N DIR"

# A file in a journal: its number, the place of its bytes, and how many these are.
File = collections.namedtuple("File", "number place length")
# A publication: its worker, the place of its gate, and the files that are there.
Publication = collections.namedtuple("Publication", "worker place files")


class Refused(Exception):
    """What stops the script, in words."""


class Damaged(Exception):
    """An open gate whose record isn't whole, by its place."""


class Pieces:
    """The bytes of a file, read from front to back in pieces."""

    def __init__(self, file):
        self.file, self.start, self.held = file, 0, b""

    def reach(self, place, count):
        """Where this place is in `held`. So many bytes are held from there on, and fewer only where a read behind them found the file's end."""
        offset = place - self.start
        if 0 <= offset <= len(self.held) - count:
            return offset
        self.held, self.start = self.held[offset:] if offset >= 0 else b"", place
        while len(self.held) < count:
            more = os.pread(self.file, PIECE, place + len(self.held))
            if not more:
                break
            self.held += more
        return 0

    def take(self, place, count):
        """So many bytes, or fewer where the file ends."""
        offset = self.reach(place, count)
        return self.held[offset : offset + count]


def file_at(pieces, place, number):
    """The file of this number, None where it is absent, and the place behind it; no place where none stands here."""
    head = pieces.take(place, 9)
    if head[:1] == b"\0":
        return None, place + 1
    length = int.from_bytes(head[1:], "big")
    if head[:1] != b"\1" or len(head) < 9 or length > MOST_FILE:
        return None, None
    return File(number, place + 9, length), place + 9 + length


def publication_at(pieces, place):
    """The publication whose gate is here, and the place behind it, where there is a byte; no place where it isn't whole."""
    head, end, files = pieces.take(place, 3), place + 3, []
    if len(head) < 3 or head[1] != PUBLISHED or head[2] > MOST_WORKER:
        return None, None
    for number in range(len(FILES)):
        file, end = file_at(pieces, end, number)
        if end is None:
            return None, None
        files += [file] if file else []
    return Publication(head[2], place, files), end if pieces.take(end, 1) else None


def count_changes(data, start, most):
    """How many records of changes stand in front of these bytes, at most so many, each with a byte behind it."""
    end = start + CHANGE * min(most, (len(data) - start - 1) // CHANGE)
    fields = zip(range(3), (bytes([OPEN_GATE]), bytes([CLOSED, OPENED]), bytes(range(MOST_WORKER + 1))))
    columns = ((data[start + place : end : CHANGE], fit) for place, fit in fields)
    return min(len(column) - len(column.lstrip(fit)) for column, fit in columns)


class Journal:
    """The entries of a journal; once they have been gone through, `end` is the place of the closed gate behind them."""

    def __init__(self, file):
        self.file, self.end = file, 0

    def size(self):
        return os.fstat(self.file).st_size

    def publication(self, place):
        return publication_at(Pieces(self.file), place)[0]

    def content(self, file):
        """The bytes of a file, in pieces."""
        for start in range(0, file.length, PIECE):
            wanted = min(PIECE, file.length - start)
            piece = os.pread(self.file, wanted, file.place + start)
            if len(piece) < wanted:
                raise Refused("the journal got shorter while it was read")
            yield piece

    def entries(self):
        """The entries in order: publications, and between them the bytes of records of changes, some at once."""
        pieces, most = Pieces(self.file), FEW
        if len(pieces.take(0, 2)) < 2:
            return
        while pieces.take(self.end, 1)[0] == OPEN_GATE:
            start = pieces.reach(self.end, CHANGE + 1)
            count = count_changes(pieces.held, start, most)
            most = most * 2 if count == most else FEW
            if count:
                self.end += CHANGE * count
                yield pieces.held[start : start + CHANGE * count]
            else:
                publication, end = publication_at(pieces, self.end)
                if end is None:
                    raise Damaged(self.end)
                self.end = end
                yield publication

    def until(self, version):
        """The entries up to that version."""
        left = version
        for entry in self.entries():
            if isinstance(entry, Publication):
                left -= 1
            else:
                entry = entry[: CHANGE * left]
                left -= len(entry) // CHANGE
            yield entry
            if not left:
                return
        raise Refused(f"the journal has no version {version}, but {version - left} in all")


def without_coordinates(item):
    """Most of a folder are positions, which nobody asks for here."""
    item.pop("coordinates", None)
    return item


def member(value, name):
    return value.get(name) if isinstance(value, dict) else None


def what_it_is(kind, feature):
    """A feature's type, category and English name, as far as they are there."""
    properties = member(feature, "properties")
    words = (kind, member(properties, "category"), member(member(properties, "name"), "en"))
    return BREAKING.sub("\ufffd", " ".join(word for word in words if isinstance(word, str) and word))


def features_of(text, kind):
    """What the features of a file are, by identifier, in file order; nothing where it isn't JSON."""
    try:
        # A number may have more digits than Python makes a whole number of. `NaN` is no JSON, and no whole number either.
        collection = json.loads(text.decode("utf-8-sig"), object_hook=without_coordinates, parse_int=float, parse_constant=int)
    except (ValueError, RecursionError):
        return {}
    features, found = member(collection, "features"), {}
    for feature in features if isinstance(features, list) else ():
        name = member(feature, "id")
        if isinstance(name, str) and IDENTIFIER.fullmatch(name):
            identifier = bytes.fromhex(name.rstrip("}")[-36:].replace("-", "")[-32:])
            found.setdefault(identifier, what_it_is(kind, feature))
    return found


class Features:
    """What features are by the folders that were published. A file is read only where it is asked for."""

    def __init__(self, journal):
        self.journal, self.places, self.merged = journal, [], 0
        self.files, self.read_so_far, self.earlier = {}, {}, {}

    def publish(self, publication):
        self.places.append(publication.place)
        self.files, self.read_so_far = publication.files, {}

    def read(self, files, number):
        """What the features of the file of this number are, of these files."""
        content = [b"".join(self.journal.content(file)) for file in files if file.number == number]
        return features_of(content[0], TYPES[number - 1]) if content else {}

    def of_file(self, number):
        """The same of the folder that stands."""
        if number not in self.read_so_far:
            self.read_so_far[number] = self.read(self.files, number)
        return self.read_so_far[number]

    def closable(self):
        """What can be closed in the folder that stands, in the order of GET /v1/closures."""
        return dict(pair for number in CLOSABLE for pair in self.of_file(number).items())

    def told(self, identifier):
        """What a feature is in the folder that stands, or was in the last one before that had it."""
        for number in CLOSABLE + OTHERS:
            if identifier in self.of_file(number):
                return self.of_file(number)[identifier]
        self.merge()
        return self.earlier.get(identifier, "")

    def merge(self):
        """Reads the folders in front of the one that stands, each once."""
        for place in self.places[self.merged : -1]:
            files = self.journal.publication(place).files
            for number in reversed(CLOSABLE + OTHERS):
                self.earlier.update(self.read(files, number))
        self.merged = max(self.merged, len(self.places) - 1)


def profile_names(base):
    """The names of the profiles in their order, or none where the settings can't be read."""
    try:
        with open(os.path.join(base, "venue.toml"), "rb") as file:
            own = [profile["name"] for profile in tomllib.loads(file.read().decode("utf-8-sig")).get("profile", [])]
    except (OSError, ValueError, KeyError, TypeError, AttributeError, RecursionError):
        return None
    return ["walk", "wheelchair", *own] if all(isinstance(name, str) and re.fullmatch("[a-z0-9_-]{1,32}", name) for name in own) else None


def profiles_told(names, profiles):
    """A set of profiles in words."""
    numbers = [number for number in range(16) if profiles >> number & 1]
    if names and numbers == list(range(len(names))):
        return "all"
    return ",".join(names[number] if names and number < len(names) else str(number) for number in numbers) or "(none)"


class Words(dict):
    """What is printed of changes behind their versions, by their records, of which many are the same."""

    def __init__(self, features, names):
        self.features, self.names = features, names

    def feature(self, identifier, profiles):
        """A feature, for whom it is closed or opened, and what it is."""
        name = identifier.hex()
        hyphened = "-".join((name[:8], name[8:12], name[12:16], name[16:20], name[20:]))
        return " ".join(filter(None, (hyphened, profiles_told(self.names, profiles), self.features.told(identifier))))

    def __missing__(self, record):
        kind, worker, identifier, profiles = struct.unpack(">xBB16sH", record)
        if len(self) == MOST_TEXTS:
            self.clear()
        text = self[record] = f"worker {worker} {'closed' if kind == CLOSED else 'opened'} {self.feature(identifier, profiles)}\n"
        return text

    def publication(self, publication):
        """The same of a publication, behind which features may be something else."""
        self.clear()
        self.features.publish(publication)
        count = sum(file.length for file in publication.files)
        return f"worker {publication.worker} published {count} bytes {len(publication.files)} files\n"


def tell_entries(journal, words, out):
    """Writes a line an entry."""
    version = 1
    for entry in journal.entries():
        if isinstance(entry, Publication):
            out.write(f"version {version} {words.publication(entry)}".encode())
            version += 1
        else:
            records = struct.iter_unpack(f"{CHANGE}s", entry)
            out.write("".join([f"version {number} {words[record]}" for number, (record,) in enumerate(records, version)]).encode())
            version += len(entry) // CHANGE


def tell_history(journal, words, out):
    """Writes a line an entry, and where they end."""
    tell_entries(journal, words, out)
    size = journal.size()
    out.write((f"end {journal.end} of {size} bytes\n" if journal.end else f"empty of {size} bytes\n").encode())


def change(closed, records):
    """Closes and opens features as these records do, in sets of profiles by identifier."""
    for kind, identifier, profiles in struct.iter_unpack(">xBx16sH", records):
        before = closed.pop(identifier, 0) if kind == OPENED else closed.get(identifier, 0)
        after = before | profiles if kind == CLOSED else before & ~profiles
        if after:
            closed[identifier] = after


def closed_at(journal, features, version):
    """What is closed at a version, for whom, by identifier, in the order in which it is told."""
    closed = {}
    for entry in journal.until(version):
        if isinstance(entry, Publication):
            features.publish(entry)
            closed = {identifier: closed[identifier] for identifier in features.closable() if identifier in closed} if closed else {}
        else:
            change(closed, entry)
    order = [identifier for identifier in features.closable() if identifier in closed] if closed else []
    return {identifier: closed[identifier] for identifier in dict.fromkeys([*order, *closed])}


def tell_closed(journal, words, version, out):
    """Writes a line for each feature that is closed at a version."""
    for identifier, profiles in closed_at(journal, words.features, version).items():
        out.write(f"{words.feature(identifier, profiles)}\n".encode())


def published_at(journal, version):
    """The publication that stood at a version, and its own version."""
    found, number = None, 0
    for entry in journal.until(version):
        number += 1 if isinstance(entry, Publication) else len(entry) // CHANGE
        found = (entry, number) if isinstance(entry, Publication) else found
    if not found:
        raise Refused(f"no folder stood at version {version}")
    return found


def write_files(journal, version, folder, out):
    """Writes the files of the folder that stood at a version into a new one, which goes again where they can't all be written."""
    publication, published = published_at(journal, version)
    os.mkdir(folder)
    try:
        for held in publication.files:
            with open(os.path.join(folder, FILES[held.number]), "xb") as file:
                file.writelines(journal.content(held))
    except BaseException:
        shutil.rmtree(folder, ignore_errors=True)
        raise
    count = sum(file.length for file in publication.files)
    out.write(f"wrote {count} bytes {len(publication.files)} files of version {published}\n".encode())


def is_form(words):
    """Whether the words are of one of the three forms."""
    rest = words[2:]
    fits = not rest or (rest[0], len(rest)) in (("--at", 2), ("--files", 3)) and re.fullmatch("[1-9][0-9]{0,18}", rest[1]) and rest[-1]
    return bool(fits and len(words) > 1 and 0 < len(os.fsencode(words[0])) <= MOST_BASE and re.fullmatch("[a-z0-9_-]{1,64}", words[1]))


def open_journal(path):
    """The journal in this file, which isn't waited for where it is a pipe."""
    file = os.open(path, os.O_RDONLY | os.O_NONBLOCK | os.O_CLOEXEC)
    if not stat.S_ISREG(os.fstat(file).st_mode):
        os.close(file)
        raise Refused(f"{path!r} is no file")
    return file


def run(words, out):
    """Does what the words ask for, and returns the status."""
    if not is_form(words):
        raise Refused(WORDS)
    base, name, form, version, folder = (words + [None] * 3)[:5]
    if folder and os.path.lexists(folder):
        raise Refused(f"{folder!r} is there already")
    file = open_journal(os.path.join(base, name + ".journal"))
    try:
        journal = Journal(file)
        told = Words(Features(journal), profile_names(base))
        if form == "--at":
            tell_closed(journal, told, int(version), out)
        elif form == "--files":
            write_files(journal, int(version), folder, out)
        else:
            tell_history(journal, told, out)
        return 0
    except Damaged as damage:
        out.write(f"damaged {damage}\n".encode())
        return 2
    finally:
        os.close(file)


def main():
    # Who stops reading ends the script without a word.
    signal.signal(signal.SIGPIPE, signal.SIG_DFL)
    try:
        with open(1, "wb", closefd=False) as out:
            return run(sys.argv[1:], out)
    except (Refused, OSError) as stop:
        print(f"history: {stop}", file=sys.stderr)
        return 2
    except KeyboardInterrupt:
        return 130


if __name__ == "__main__":
    sys.exit(main())
