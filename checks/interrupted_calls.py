#!/usr/bin/env python3
"""Serves the example station while calls of the server fail (checks/interrupt.c), and compares what each client gets, what is printed, and the status.
A read or a write that signals cut short 1,000 times in a row is made again, and at the 1,001st time the connection ends without a reply. Connections that can't be told
to wait are served all the same, since a client that has asked is answered without a wait.

usage: interrupted_calls.py   (the program is the one that VENUE names, or else the one that the launcher ./venue runs, which builds it if need be)
It prints a line for each row that differs and one at the end, and ends with status 1 at a difference. Where there is no C compiler it says so, and ends
with status 0.
"""
import collections
import os
import random
import shutil
import signal
import socket
import subprocess
import sys
import tempfile
import threading
import time

HERE = os.path.dirname(os.path.abspath(__file__))
TOP = os.path.join(HERE, "..")
BUILT = os.path.join(TOP, "crates", "venue_cli", "out", "venue_cli")
# The longest that a row takes, and that its clients wait together, in seconds.
ONE_ROW, CLIENTS = 20, 5
# How many clients of a row are told that differ.
TOLD = 5
REQUEST = b"GET /v1/version HTTP/1.1\r\nhost: a\r\n\r\n"
REPLY = b'HTTP/1.1 200 OK\r\ncontent-type: application/json\r\ncontent-length: 36\r\n\r\n{"closed":0,"places":33,"version":1}'

# What a client gets, each of whom asks.
ANSWERED, UNANSWERED = "answered", "no reply"
# What the library holds back, what each client gets in the order in which they come, and how many of them are counted as accepted.
Row = collections.namedtuple("Row", "held clients sessions")
ROWS = [
    Row({"CUT_READS": 0}, [ANSWERED], 1),
    Row({"CUT_READS": 16}, [ANSWERED], 1),
    Row({"CUT_READS": 1000}, [ANSWERED], 1),
    Row({"CUT_READS": 1001}, [UNANSWERED], 1),
    Row({"CUT_WRITES": 0}, [ANSWERED], 1),
    Row({"CUT_WRITES": 16}, [ANSWERED], 1),
    Row({"CUT_WRITES": 1000}, [ANSWERED], 1),
    Row({"CUT_WRITES": 1001}, [UNANSWERED], 1),
    Row({"UNPREPARED": 63}, 64 * [ANSWERED], 64),
    Row({"UNPREPARED": 200}, 201 * [ANSWERED], 201),
]


def got(client, end):
    """What a client got until this time."""
    text = b""
    try:
        while text != REPLY:
            client.settimeout(max(0.01, end - time.monotonic()))
            more = client.recv(65_536)
            if not more:
                break
            text += more
    except socket.timeout:
        return f"nothing within {CLIENTS} seconds behind {text!r}"
    except ConnectionResetError:
        return repr(text) if text else UNANSWERED
    finally:
        client.close()
    if text:
        return ANSWERED if text == REPLY else repr(text)
    return UNANSWERED


def talk(process, address, row):
    """What the clients got. The server is stopped until all of them have come, so that they stand in its queue in their order."""
    process.send_signal(signal.SIGSTOP)
    os.waitid(os.P_PID, process.pid, os.WSTOPPED | os.WEXITED | os.WNOWAIT)
    clients = []
    for _ in row.clients:
        clients.append(socket.create_connection(address, CLIENTS))
        clients[-1].sendall(REQUEST)
    process.send_signal(signal.SIGCONT)
    end = time.monotonic() + CLIENTS
    return [got(client, end) for client in clients]


def run(program, library, port, row):
    """What came of a row: what the clients got, what was printed, and the status."""
    # An address of its own for each row, since the one before may still hold its port.
    host = "127." + ".".join(str(random.randint(1, 254)) for _ in range(3))
    words = ["serve", "examples", "station", f"{host}:{port}", "1", str(row.sessions)]
    env = dict(os.environ, LD_PRELOAD=library, **{name: str(count) for name, count in row.held.items()})
    with subprocess.Popen([program, *words], cwd=TOP, env=env, stdin=subprocess.DEVNULL, stdout=subprocess.PIPE, bufsize=0) as process:
        watch = threading.Timer(ONE_ROW, process.kill)
        watch.start()
        try:
            first = process.stdout.readline().decode()
            clients = talk(process, (host, port), row) if first == f"listening {host}:{port}\n" else []
            printed = first + process.stdout.read().decode()
            return clients, printed.replace(f"{host}:{port}", "ADDRESS"), process.wait()
        finally:
            watch.cancel()
            process.kill()


def differences(program, library, port, row):
    """A line for each thing that differs in a row."""
    try:
        clients, printed, status = run(program, library, port, row)
    except OSError as error:
        return [f"{error}"]
    due = f"listening ADDRESS\nworkers 1 sessions {row.sessions} versions 1 changes 0\n"
    lines = [f"client {k}: {found}, and due is {wanted}" for k, (found, wanted) in enumerate(zip(clients, row.clients)) if found != wanted][:TOLD]
    if (printed, status) != (due, 0):
        lines.append(f"printed {printed!r}, status {status}, and due is {due!r}, status 0")
    return lines


def program_of():
    """The path of the program, built if need be."""
    if "VENUE" in os.environ:
        return os.path.abspath(os.environ["VENUE"])
    subprocess.run(["./venue", "price", "examples/table"], cwd=TOP, stdout=subprocess.DEVNULL, check=True)
    return BUILT


def main():
    if not shutil.which("cc"):
        print("interrupted_calls: skipped, since there is no cc")
        return 0
    program, differ = program_of(), 0
    with tempfile.TemporaryDirectory() as folder:
        library = os.path.join(folder, "interrupt.so")
        source = os.path.join(HERE, "interrupt.c")
        subprocess.run(["cc", "-O2", "-D_GNU_SOURCE", "-shared", "-fPIC", "-o", library, source], check=True)
        with socket.create_server(("", 0)) as door:
            port = door.getsockname()[1]
        for row in ROWS:
            lines = differences(program, library, port, row)
            differ += bool(lines)
            for line in lines:
                print(f"{' '.join(f'{name}={count}' for name, count in row.held.items())}: {line}", file=sys.stderr)
    print(f"interrupted_calls: {len(ROWS)} rows, {differ} differences")
    return 1 if differ else 0


sys.exit(main())
