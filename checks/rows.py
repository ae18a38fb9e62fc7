#!/usr/bin/env python3
"""Runs the built program over each row of checks/rows/*.json, and compares what it prints and its status, byte for byte.

usage: rows.py [NAME..]   with names of files in checks/rows only these. The program is the one that VENUE_PROGRAM names, or else that of ./venue.
It names each row that fails, prints how many passed and failed, and ends with status 1 if one failed. checks/rows/README.md says how a row is written.
"""
import concurrent.futures
import json
import os
import re
import shutil
import socket
import subprocess
import sys
import tempfile
import threading

TOP = os.path.realpath(os.path.join(os.path.dirname(os.path.abspath(__file__)), ".."))
ROWS = os.path.join(TOP, "checks", "rows")
PROGRAM = os.path.abspath(os.environ.get("VENUE_PROGRAM") or os.path.join(TOP, "crates", "venue_cli", "out", "venue_cli"))
FOLDERS = ("station", "tall", "nolift")
IDENTIFIER = "00000000-0000-4000-8000-00000000"
# What may stand in a row or a step, in an edit, in what is sent and written, and in a rule of what is printed.
ROW = set("name base files words edits height sends pieces prints writes status steps keep leaves".split())
EDIT = set("in behind this becomes piece times from gone first hex".split())
TOLD_BY = set("begins and lines starting line has first then times".split())
SENT = set("staff body bytes piece times".split())
WRITTEN = set("reply more body bytes".split())
# The longest that a run takes, in seconds.
LIMIT = 120
# How much of a text is told where it is another than it should be.
TOLD = 300


class Fault(Exception):
    """The row is not as checks/rows/README.md says, or the program is not as the row says."""


def plain(short):
    """Writes out a text of a row."""
    text = short.replace("'", '"').replace("@", IDENTIFIER)
    return re.sub(r"\((\d+),(\d+)\)", lambda place: f"[10.{place[1]:0>5},50.{place[2]:0>5}]", text)


def known(item, keys):
    """Stops at a key that says nothing, which may be one that is spelled wrong."""
    for key in item:
        if key not in keys:
            raise Fault(f"{key} says nothing")
    return item


def filled(text, item):
    """Puts the copies of a piece in the place of the sign +."""
    if "piece" not in item:
        return text
    piece, times = plain(item["piece"]), item["times"]
    if "%" in piece:
        first = item.get("from", 5000)
        copies = "".join(piece.replace("%", str(first + k)) for k in range(times))
    else:
        copies = piece * times
    return text.replace("+", copies, 1)


def named(item, names):
    """Returns what a name stands for, and else the item itself."""
    return names.get(item, item) if isinstance(item, str) else item


def lines(item, names):
    """Returns the text that is spelled as a list of its lines, or as itself."""
    item = named(item, names)
    return plain(item) if isinstance(item, str) else "".join(plain(line) + "\n" for line in item)


def request(item, names):
    """Returns the bytes of a request."""
    item = named(item, names)
    if isinstance(item, str):
        return f"{plain(item)} HTTP/1.1\r\nhost: a\r\n\r\n"
    if "bytes" in known(item, SENT):
        return filled(plain(item["bytes"]), item) * (1 if "piece" in item else item.get("times", 1))
    body = plain(item["body"])
    return f"{item['staff']} HTTP/1.1\r\nhost: a\r\nx-staff-key: desk-key-1\r\ncontent-length: {len(body)}\r\n\r\n{body}"


def reply(item, names):
    """Returns the bytes of a reply."""
    item = named(item, names)
    if "bytes" in known(item, WRITTEN):
        return plain(item["bytes"])
    body = plain(named(item["body"], names))
    more = "".join(line + "\r\n" for line in item.get("more", []))
    return f"HTTP/1.1 {item['reply']}\r\ncontent-type: application/json\r\ncontent-length: {len(body)}\r\n{more}\r\n{body}"


def words_of(item):
    return [plain(word) for word in (item.split(" ") if isinstance(item, str) else item)]


def place(name):
    """Returns where a file lies below the base."""
    return f"station/{name}" if name.endswith(".geojson") or name == "manifest.json" else name


def changed(text, edit):
    """Returns the text of a file after an edit of it."""
    becomes = filled(plain(edit["becomes"]), edit)
    if "this" not in edit:
        return becomes
    front, rest = "", text
    for at in [plain(edit["behind"])] if "behind" in edit else []:
        before, found, rest = rest.partition(at)
        if not found:
            raise Fault(f"no {at} to be found")
        front = before + at
    before, found, rest = rest.partition(plain(edit["this"]))
    if not found:
        raise Fault(f"no {edit['this']} to be found")
    return front + before + becomes + rest


def read(path):
    with open(path, encoding="utf-8", newline="") as it:
        return it.read()


def write(path, data):
    """Writes a file anew: the one that was there may be a link to the station's."""
    if os.path.lexists(path):
        os.remove(path)
    with open(path, "wb") as it:
        it.write(data.encode() if isinstance(data, str) else data)


def front(path, length):
    """Returns the first bytes of a file, of which there are so many."""
    with open(path, "rb") as it:
        found = it.read(length)
    if len(found) != length:
        raise Fault(f"{len(found)} bytes, and not {length}")
    return found


def apply(base, edits):
    for edit in edits:
        if "gone" in known(edit, EDIT):
            name = edit["gone"]
            gone = [place(name)] if name != "*" else [f"station/{it}" for it in os.listdir(f"{base}/station")]
            for it in gone:
                os.remove(f"{base}/{it}")
        elif {"first", "hex"} & set(edit):
            path = f"{base}/{place(edit['in'])}"
            write(path, (front(path, edit["first"]) if "first" in edit else b"") + bytes.fromhex(edit.get("hex", "")))
        else:
            path = f"{base}/{place(edit['in'])}"
            write(path, changed(read(path) if "this" in edit else "", edit))


class Station:
    """The station's base, laid out once: rows that change nothing share it, and others link to its files."""

    def __init__(self, folder):
        self.folder = folder
        os.makedirs(f"{folder}/base")
        for name in FOLDERS:
            shutil.copytree(f"{TOP}/examples/{name}", f"{folder}/base/{name}")
        shutil.copy(f"{ROWS}/venue.toml", f"{folder}/base/venue.toml")

    def link(self, folder):
        os.mkdir(f"{folder}/base")
        os.link(f"{self.folder}/base/venue.toml", f"{folder}/base/venue.toml")
        for name in FOLDERS:
            os.mkdir(f"{folder}/base/{name}")
            for file in os.listdir(f"{self.folder}/base/{name}"):
                os.link(f"{self.folder}/base/{name}/{file}", f"{folder}/base/{name}/{file}")


def lay_out(folder, row, names, station):
    """Lays out the files of a row, and returns the folder in which the program is run."""
    base = row.get("base", "station")
    if base == "checkout":
        return TOP
    shared = not any(key in row for key in ("edits", "height", "steps"))
    if base == "station" and shared:
        return station.folder
    os.mkdir(folder)
    if base == "station":
        station.link(folder)
        for name in os.listdir(f"{folder}/base/station") if "height" in row else []:
            path = f"{folder}/base/station/{name}"
            write(path, re.sub(r"\[(10\.\d+,50\.\d+)\]", rf"[\1,{row['height']}]", read(path)))
    else:
        os.mkdir(f"{folder}/base")
        for name, text in row["files"].items():
            write(f"{folder}/base/{name}", lines(text, names))
    apply(f"{folder}/base", row.get("edits", []))
    return folder


def send(end, data, piece):
    """Sends the input, a piece after the other. Each piece is a packet, so that a read gets one piece."""
    with end:
        try:
            for k in range(0, len(data), piece):
                end.sendall(data[k : k + piece])
        except OSError:
            # The program ended before it read all.
            pass


def run(folder, words, data, piece):
    """Runs the program, and returns its status and what it prints."""
    how = {"cwd": folder, "stdout": subprocess.PIPE, "stderr": subprocess.PIPE}
    try:
        if not piece:
            ran = subprocess.run([PROGRAM, *words], input=data, timeout=LIMIT, **how)
            return ran.returncode, ran.stdout, ran.stderr
        # A packet is read by a read of its own, and what that has no room for is lost, as no stream loses it. A session reads up to 4,096 bytes before it has room
        # for all: pieces of rows that send more divide that.
        ours, theirs = socket.socketpair(socket.AF_UNIX, socket.SOCK_SEQPACKET)
        with theirs:
            program = subprocess.Popen([PROGRAM, *words], stdin=theirs, **how)
        sender = threading.Thread(target=send, args=(ours, data, piece))
        sender.start()
        try:
            out, err = program.communicate(timeout=LIMIT)
        finally:
            program.kill()
            sender.join()
        return program.returncode, out, err
    except subprocess.TimeoutExpired:
        raise Fault(f"no end within {LIMIT} seconds") from None


def told(text):
    return repr(text if len(text) <= TOLD else text[:TOLD] + b" ..")


def judge_rule(out, rule):
    """Compares a long text with what a row says of it."""
    text = out.decode()
    got = text.splitlines()
    begins = "".join(plain(line) + "\n" for line in rule.get("begins", [])) + plain(rule.get("and", ""))
    if not text.startswith(begins):
        raise Fault(f"does not begin with {begins!r}: {told(out)}")
    if rule.get("lines", len(got)) != len(got):
        raise Fault(f"{len(got)} lines are printed, and not {rule['lines']}")
    for front, count in rule.get("starting", {}).items():
        found = sum(line.startswith(front) for line in got)
        if found != count:
            raise Fault(f"{found} lines start with {front!r}, and not {count}")
    for number, line in rule.get("line", {}).items():
        if got[int(number) - 1 : int(number)] != [plain(line)]:
            raise Fault(f"line {number} is not {plain(line)!r}")
    for line in rule.get("has", []):
        if plain(line) not in got:
            raise Fault(f"no line is {plain(line)!r}: {told(out)}")


def wanted(row, names):
    """Returns the text that must be printed, or None where a rule says what is printed."""
    if "writes" in row:
        return "".join(reply(item, names) for item in row["writes"])
    prints = named(row["prints"], names)
    if isinstance(prints, dict):
        if "then" not in known(prints, TOLD_BY):
            return None
        return lines(prints["first"], names) + "".join(prints["then"].replace("%", str(k)) + "\n" for k in range(prints["times"]))
    return lines(prints, names)


def judge(folder, row, names, piece):
    """Runs the program once."""
    if not {"prints", "writes", "keep"} & set(known(row, ROW)):
        raise Fault("nothing says what is printed")
    data = "".join(request(item, names) for item in row.get("sends", [])).encode()
    status, out, err = run(folder, words_of(row["words"]), data, piece)
    want = wanted(row, names) if "prints" in row or "writes" in row else None
    if want is not None and out != want.encode():
        raise Fault(f"printed {told(out)}, and not {told(want.encode())}, status {status} {told(err) if err else ''}")
    if isinstance(row.get("prints"), dict) and want is None:
        judge_rule(out, row["prints"])
    if status != row["status"]:
        raise Fault(f"status {status}, and not {row['status']} {told(err) if err else ''}")
    for name, length in row.get("leaves", {}).items():
        found = os.path.getsize(f"{folder}/base/{name}")
        if found != length:
            raise Fault(f"{name} has {found} bytes then, and not {length}")
    return out


def judge_row(folder, row, names, station):
    at = lay_out(folder, known(row, ROW), names, station)
    for piece in row.get("pieces", [0]):
        try:
            for step in row.get("steps", [row]):
                apply(f"{at}/base", step.get("edits", []) if step is not row else [])
                out = judge(at, step, names, piece)
                if "keep" in step:
                    write(f"{at}/base/{step['keep']}", out.decode())
        except Fault as fault:
            raise Fault(f"in pieces of {piece} bytes: {fault}" if piece else str(fault)) from None


def try_row(work, number, file, row, names, station):
    """Returns what is wrong, or None."""
    folder = f"{work}/{number}"
    try:
        judge_row(folder, row, names, station)
        return None
    except (Fault, OSError, KeyError, TypeError, ValueError) as fault:
        return f"{file}, {row.get('name', number)}: {fault if isinstance(fault, Fault) else repr(fault)}"
    finally:
        shutil.rmtree(folder, ignore_errors=True)


def size(row):
    """Returns how many bytes the row's edits put in."""
    return sum(len(edit.get("piece", "")) * edit.get("times", 1) for edit in row.get("edits", []))


def load(file):
    """Returns the rows of a file, each with what the file says for all, and the names."""
    with open(os.path.join(ROWS, file + ".json"), encoding="utf-8") as it:
        table = json.load(it)
    names = table.pop("names", {})
    rows = table.pop("rows")
    del table["about"]
    return [(file, {**table, **row}, names) for row in rows]


def main():
    if not os.access(PROGRAM, os.X_OK):
        sys.exit(f"rows: there is no program {PROGRAM}; ./venue builds it")
    files = [name.removesuffix(".json") for name in sys.argv[1:]]
    files = files or sorted(name[:-5] for name in os.listdir(ROWS) if name.endswith(".json"))
    # The longest runs are begun first.
    rows = sorted((row for file in files for row in load(file)), key=lambda row: -size(row[1]))
    failed = 0
    with tempfile.TemporaryDirectory(prefix="rows-") as work:
        station = Station(f"{work}/station")
        with concurrent.futures.ThreadPoolExecutor(os.cpu_count()) as pool:
            tries = [pool.submit(try_row, work, number, *row, station) for number, row in enumerate(rows)]
            for it in tries:
                if it.result():
                    failed += 1
                    print(it.result(), flush=True)
    print(f"{len(rows) - failed} rows passed, {failed} failed")
    sys.exit(1 if failed else 0)


if __name__ == "__main__":
    main()
