#!/usr/bin/env python3
"""Serves the example station and its page for visitors on this machine, until it is interrupted: prints the address of the page, a line for
`curl` with what it answers, and what is proved of the program that runs. It opens nothing by itself, and wants nothing but Python.

usage: demo.py PROGRAM ABOUT   (the launcher gives both by `./venue demo`: a program, and what is proved of it, in words)
       demo.py --try ABOUT     (without a program: compiles one by the kit's `rt try`, in some two minutes, without proof)
The page is at port 8080 of the loopback, or at the next one that is free. What is served beside it is written by web/site.py to out/demo.
"""
import contextlib
import http.client
import http.server
import os
import re
import shlex
import shutil
import signal
import socket
import subprocess
import sys
import time

HERE = os.path.dirname(os.path.abspath(__file__))
TOP = os.path.dirname(HERE)
SITE = os.path.join(TOP, "out", "demo")
BAKERY, TICKETS = "00000000-0000-4000-8000-000000000051", "00000000-0000-4000-8000-000000000052"
WAY = f"from={BAKERY}&to={TICKETS}&profile=wheelchair"
LONGEST = 900  # seconds to wait for a program that is compiled first


def free_port(first):
    """The first port of the loopback, from this one on, that can be bound."""
    for port in range(first, 65536):
        with contextlib.suppress(OSError), socket.create_server(("127.0.0.1", port)):
            return port
    sys.exit("venue: no port is free")


def ask(port, target):
    """The status, the type and the body of the server's reply."""
    link = http.client.HTTPConnection("127.0.0.1", port, timeout=20)
    try:
        link.request("GET", target, headers={"connection": "close"})
        reply = link.getresponse()
        return reply.status, reply.getheader("content-type"), reply.read()
    finally:
        link.close()


class Pages:
    """What nginx.conf, which site.py wrote, says of the page: which paths are files of which folder, their types, and the fields of a reply."""

    def __init__(self, text):
        self.folders = re.findall(r'location ~ (\S+) \{ root "([^"]*)"', text)
        self.types = {end: kind for kind, ends in re.findall(r"^\s+(\w+/[\w+-]+) ([\w ]+);$", text, re.M) for end in ends.split()}
        self.fields = [it for it in re.findall(r'add_header (\S+) "?([^"\n]*?)"? always;', text) if "$" not in it[1]]

    def file(self, path):
        """The file of a path, or None."""
        for pattern, folder in self.folders:
            if re.fullmatch(pattern.strip("^$"), path):
                return os.path.join(folder, path.lstrip("/") or "index.html")
        return None


class Page(http.server.BaseHTTPRequestHandler):
    def do_GET(self):
        path = self.path.partition("?")[0]
        if path.startswith("/v1/"):
            return self.pass_on()
        file = self.server.pages.file(path)
        if file is None or not os.path.isfile(file):
            return self.reply(404, "text/plain", b"no such page\n")
        with open(file, "rb") as it:
            self.reply(200, self.server.pages.types.get(file.rpartition(".")[2], "application/octet-stream") + "; charset=utf-8", it.read())

    def pass_on(self):
        try:
            self.reply(*ask(self.server.behind, self.path))
        except (OSError, http.client.HTTPException):
            self.reply(502, "text/plain", b"the server doesn't answer\n")

    def reply(self, status, kind, body):
        self.send_response(status)
        for name, value in [("Content-Type", kind), ("Content-Length", str(len(body))), ("Cache-Control", "no-cache"), *self.server.pages.fields]:
            self.send_header(name, value)
        self.end_headers()
        self.wfile.write(body)

    def log_message(self, *words):
        pass


class Server(http.server.ThreadingHTTPServer):
    daemon_threads = True

    def __init__(self, port, behind, pages):
        super().__init__(("127.0.0.1", port), Page)
        self.behind, self.pages = behind, pages


def started(program, port):
    """Starts the service, and waits until it answers. Without a program it is compiled first."""
    words = ["serve", HERE, "station", f"127.0.0.1:{port}", "4", "1000000"]
    if program:
        served = subprocess.Popen([program, *words], cwd=TOP, stdin=subprocess.DEVNULL, stdout=subprocess.DEVNULL)
    else:
        folder = os.path.join(TOP, "crates", "venue_cli")
        served = subprocess.Popen(["rt", "try", "--seconds", "86400", "--", *words], cwd=folder, stdin=subprocess.DEVNULL, stdout=subprocess.DEVNULL)
    begun = told = time.monotonic()
    while served.poll() is None and time.monotonic() < begun + LONGEST:
        with contextlib.suppress(OSError, http.client.HTTPException):
            ask(port, "/v1/version")
            return served
        time.sleep(0.2)
        if time.monotonic() > told + 15:
            told = time.monotonic()
            print(f"venue: compiling, {told - begun:.0f} s", file=sys.stderr, flush=True)
    served.terminate()
    sys.exit("venue: the server doesn't answer")


def below(parent):
    """The processes below this one."""
    for name in filter(str.isdigit, os.listdir("/proc")):
        with contextlib.suppress(OSError, IndexError):
            with open(f"/proc/{name}/stat", encoding="utf-8", errors="replace") as file:
                if int(file.read().rpartition(")")[2].split()[1]) == parent:
                    yield int(name)
                    yield from below(int(name))


def tried(served, port):
    """A script that runs the program which `rt try` compiled, and which is there for as long as it listens at this port."""
    listening = re.compile(rf"0100007F:{port:04X} 00000000:0000 0A(?:\s+\S+){{5}}\s+(\d+)")
    with open("/proc/net/tcp", encoding="ascii") as file:
        inode = listening.search(file.read())
    for process in below(served.pid):
        with contextlib.suppress(OSError):
            if inode and f"socket:[{inode[1]}]" in (os.readlink(f"/proc/{process}/fd/{fd}") for fd in os.listdir(f"/proc/{process}/fd")):
                with open(f"/proc/{process}/cmdline", encoding="utf-8") as file:
                    words = file.read().split("\0")
                script = os.path.join(SITE, "program")
                with open(script, "w", encoding="utf-8") as file:
                    file.write(f'#!/bin/sh\nexec {shlex.join(words[:words.index("serve")])} "$@"\n')
                os.chmod(script, 0o755)
                return script
    sys.exit("venue: the program that `rt try` runs isn't found")


def write_site(program, port, behind):
    words = [sys.executable, os.path.join(HERE, "web", "site.py"), HERE, "station", SITE, str(port), f"127.0.0.1:{behind}"]
    ran = subprocess.run(words, env=os.environ | {"VENUE": program, "PYTHONDONTWRITEBYTECODE": "1"}, stdout=subprocess.DEVNULL)
    if ran.returncode:
        sys.exit("venue: the page can't be written")
    with open(os.path.join(SITE, "nginx.conf"), encoding="utf-8") as file:
        return Pages(file.read())


def main(program, about):
    program = None if program == "--try" else os.path.abspath(program)
    if not program:
        print("venue: nothing is built here, so the program is compiled without proof first, in some two minutes", file=sys.stderr, flush=True)
    for number in (signal.SIGTERM, signal.SIGHUP):
        signal.signal(number, lambda number, _: sys.exit(0))
    behind = free_port(20000 + os.getpid() % 10000)
    served = started(program, behind)
    try:
        port = free_port(8080)
        shutil.rmtree(SITE, ignore_errors=True)
        os.makedirs(SITE)
        pages = write_site(program or tried(served, behind), port, behind)
        address = f"http://127.0.0.1:{port}"
        # Who reads the address finds somebody there.
        with Server(port, behind, pages) as server:
            print(f"page: {address}/#{WAY}")
            print(f"curl '{address}/v1/route?{WAY}'")
            print(ask(behind, f"/v1/route?{WAY}")[2].decode())
            print(f"proved: {about}", flush=True)
            server.serve_forever()
    except KeyboardInterrupt:
        return 0
    finally:
        served.terminate()
        served.wait()


if __name__ == "__main__":
    if len(sys.argv) != 3:
        sys.exit(__doc__)
    sys.exit(main(*sys.argv[1:]))
