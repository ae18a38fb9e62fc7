"""Puts the same load on `serve`, on nginx and on `blocking` in turns, and prints what comes of it beside what is wanted.

usage: time_serve.py PROGRAM BASE TOOLS (PART | WORKERS)..
Where parts are named, among version, station, routes, places, staff, anew, memory and idle, no other is measured. BASE has venue.toml with a
staff key, and the folders `station`, `levels50`, `levels200` and `sound`. TOOLS has the programs `load` and `blocking`, and gets the
other files. The program that the environment names as BEFORE is asked for the version, and with a connection a request, in the same turns. Each load lasts a second and is repeated three times, in turns; the turn of the most requests a second is told. Times are
in microseconds: the middle, the ninetieth and the ninety-ninth of a hundred, and the longest. Processor time is that of the server for
a request, in all its processes and threads.
"""
import contextlib
import http.client
import json
import os
import re
import shutil
import signal
import socket
import subprocess
import sys
import threading
import time

from table import row
from time_idle import idle

TURNS, SECONDS = 3, 1
FEW, MANY = 50, 200  # levels
AT_ONCE = 16
KEY = "desk-key-1"
CLOSE = "connection: close\r\n"
LIFT = "00000000-0000-4000-8000-000000000301"
BAKERY, TICKETS = "00000000-0000-4000-8000-000000000051", "00000000-0000-4000-8000-000000000052"
TICK = os.sysconf("SC_CLK_TCK")


def room(levels, level, number):
    """A room of the venue of `levels.py`: a level has 102 openings and 103 units, of which those from 1 to 100 are rooms."""
    first_unit = levels + 1 + levels * 102 + 2 * (levels - 1)
    return f"00000000-0000-4000-8000-{first_unit + level * 103 + number:012d}"


def route(start, end, profile, certificate=False):
    return f"/v1/route?from={start}&to={end}&profile={profile}" + ("&certificate=yes" if certificate else "")


def across(levels, certificate=False):
    return route(room(levels, 0, 1), room(levels, levels - 1, 100), "walk", certificate)


def request(path, close=False):
    return f"GET {path} HTTP/1.1\r\nhost: a\r\n{CLOSE if close else ''}\r\n".encode()


def free_port():
    with socket.socket() as any_port:
        any_port.bind(("127.0.0.1", 0))
        return any_port.getsockname()[1]


class Server:
    """A server that runs at a port, by this command."""

    def __init__(self, name, port, command, says=None):
        self.name, self.port = name, port
        self.child = subprocess.Popen(command, stdout=subprocess.PIPE)
        if says is not None and self.child.stdout.readline() != says:
            sys.exit(f"{name} doesn't say that it listens")
        for _ in range(500):
            with contextlib.suppress(OSError), socket.create_connection(("127.0.0.1", port)):
                return
            time.sleep(0.01)
        sys.exit(f"{name} doesn't listen")

    def processes(self):
        pid = self.child.pid
        with open(f"/proc/{pid}/task/{pid}/children", encoding="ascii") as children:
            return [pid, *map(int, children.read().split())]

    def processor(self):
        """The seconds of each process, also of threads that have ended."""
        seconds = []
        for pid in self.processes():
            with open(f"/proc/{pid}/stat", encoding="ascii") as stat:
                fields = stat.read().rpartition(")")[2].split()
            seconds.append((int(fields[11]) + int(fields[12])) / TICK)
        return seconds

    def since(self, before, requests):
        """The processor time of a request, and how many of the processes did a tenth of what the busiest did."""
        busy = [now - then for then, now in zip(before, self.processor())]
        at_work = sum(each >= max(busy) / 10 for each in busy)
        return {"processor": sum(busy) * 1e6 / requests, "at_work": at_work if len(busy) > 1 else None}

    def memory(self, what):
        """In MiB: VmRSS is what is held, VmHWM the peak."""
        kib = 0
        for pid in self.processes():
            with open(f"/proc/{pid}/status", encoding="ascii") as status:
                kib += int(re.search(rf"{what}:\s*(\d+)", status.read())[1])
        return kib / 1024

    def get(self, path):
        """A reply's body by a connection of its own."""
        link = http.client.HTTPConnection("127.0.0.1", self.port, timeout=60)
        with contextlib.closing(link):
            link.request("GET", path, headers={"connection": "close"})
            return link.getresponse().read()

    def __enter__(self):
        return self

    def __exit__(self, *_):
        self.child.send_signal(signal.SIGTERM)
        self.child.wait()
        self.child.stdout.close()


class Bench:
    """The programs, and where they run."""

    def __init__(self, program, base, tools):
        self.program, self.base, self.tools = program, base, tools
        self.nginx_program = shutil.which("nginx", path=os.environ["PATH"] + ":/usr/sbin")
        self.wrk_program = shutil.which("wrk")
        for name, found in ("nginx", self.nginx_program), ("wrk", self.wrk_program):
            if found is None:
                print(f"left out: {name} isn't there (Debian's package {name})")

    def write(self, name, data):
        path = os.path.join(self.tools, name)
        with open(path, "wb") as file:
            file.write(data)
        return path

    def serve(self, folder, workers, name="serve", program=None):
        port = free_port()
        address = f"127.0.0.1:{port}"
        command = [program or self.program, "serve", self.base, folder, address, str(workers), "1000000"]
        return Server(name, port, command, f"listening {address}\n".encode())

    def blocking(self, reply):
        port = free_port()
        return Server("blocking", port, [os.path.join(self.tools, "blocking"), str(port), self.write("reply", reply)])

    def nginx(self, workers, body, connections=512):
        """A short answer stands in the configuration; one that doesn't fit there is a file."""
        port = free_port()
        if len(body) < 4000:
            answer = f"return 200 '{body.decode()}';"
        else:
            self.write("answer.json", body)
            answer = f"root {self.tools}; rewrite ^ /answer.json break;"
        user = "user root;" if os.geteuid() == 0 else ""
        paths = " ".join(f"{name}_temp_path {self.tools};" for name in ("client_body", "proxy", "fastcgi", "uwsgi", "scgi"))
        text = f"""{user}
daemon off;
worker_processes {workers};
worker_rlimit_nofile {connections + 100};
pid {self.tools}/nginx.pid;
error_log {self.tools}/nginx.log;
events {{ worker_connections {connections}; }}
http {{
    access_log off;
    sendfile on;
    tcp_nodelay on;
    keepalive_requests 1000000000;
    default_type application/json;
    open_file_cache max=10;
    {paths}
    server {{
        listen 127.0.0.1:{port};
        location / {{ {answer} }}
    }}
}}
"""
        config = self.write("nginx.conf", text.encode())
        return Server("nginx", port, [self.nginx_program, "-c", config, "-e", f"{self.tools}/nginx.log"])

    def load(self, server, path, connections, at_once=1, kind="same", seconds=SECONDS):
        """What `load` finds, with the server's processor time a request."""
        text = self.write("request", request(path, kind == "anew"))
        words = [server.port, text, connections, at_once, seconds, kind]
        before = server.processor()
        found = subprocess.run(
            [os.path.join(self.tools, "load"), *map(str, words)], stdout=subprocess.PIPE, text=True, check=False
        )
        if found.returncode != 0:
            sys.exit(f"load failed at {server.name}: {words}")
        numbers = [float(word) for word in found.stdout.split()]
        names = "requests rate middle ninetieth ninety_ninth longest above5 above10 above20".split()
        told = dict(zip(names, numbers))
        return told | server.since(before, told["requests"])

    def wrk(self, server, path, connections, at_once=1, kind="same"):
        script = []
        if at_once > 1:
            lines = f"init = function() local all = {{}} for i = 1, {at_once} do all[i] = wrk.format() end many = table.concat(all) end\n"
            script = ["-s", self.write("many.lua", (lines + "request = function() return many end\n").encode())]
        close = ["-H", "connection: close"] if kind == "anew" else []
        each = ["-t", str(connections), "-c", str(connections), "-d", f"{SECONDS}s", "--latency", *script, *close]
        before = server.processor()
        found = subprocess.run(
            [self.wrk_program, *each, f"http://127.0.0.1:{server.port}{path}"], stdout=subprocess.PIPE, text=True, check=True
        ).stdout
        count = int(re.search(r"(\d+) requests in", found)[1])
        if count == 0 or re.search("Socket errors|Non-2xx", found):
            sys.exit(f"wrk at {server.name}: {found}")
        told = {}
        if at_once == 1:  # of several at once wrk tells no times that can be used
            parts = {"middle": r"\n +50% +(\S+)", "ninetieth": r"\n +90% +(\S+)", "ninety_ninth": r"\n +99% +(\S+)"}
            parts["longest"] = r"Latency\s+\S+\s+\S+\s+(\S+)"
            told = {name: microseconds(re.search(pattern, found)[1]) for name, pattern in parts.items()}
        told["rate"] = float(re.search(r"Requests/sec:\s+(\S+)", found)[1])
        return told | server.since(before, count)


def microseconds(text):
    number, unit = re.fullmatch(r"([\d.]+)(us|ms|s|m)", text).groups()
    return float(number) * {"us": 1, "ms": 1e3, "s": 1e6, "m": 6e7}[unit]


def side_by_side(workers):
    return "1 worker, 1 connection" if workers == 1 else f"{workers} workers, {workers} connections"


def most(turns):
    return max(turns, key=lambda told: told["rate"])


def show(name, told, peak=None):
    times = ", ".join(f"{told[part]:,.0f}" for part in ("middle", "ninetieth", "ninety_ninth", "longest") if part in told)
    times = f", times {times}" if times else ""
    at_work = "" if told["at_work"] is None else f", processes at work {told['at_work']}"
    held = "" if peak is None else f", peak {peak:.0f} MiB"
    print(f"  {name}: {told['rate']:,.0f} a second{times}, processor {told['processor']:.1f}{at_work}{held}")


def compare(name, ours, theirs, wanted):
    """The ratios of what both tell, and what is wanted of them."""
    parts = {"rate": "requests a second", "ninety_ninth": "ninety-ninth", "processor": "processor"}
    ratios = [f"{word} {ours[part] / theirs[part]:.2f}{wanted.get(part, '')}" for part, word in parts.items() if part in theirs]
    print(f"  {name}: {'; '.join(ratios)}")
    row(f"{heading[-1]}, {name}", f"{ours['rate']:,.0f} a second", f"{theirs['rate']:,.0f}", ours["rate"] / theirs["rate"], wanted.get("rate", "").strip(" ()"))


heading = []


def say(text):
    heading.append(text)
    print(f"{text} (load {os.getloadavg()[0]:.1f})", flush=True)


def wanted_of(workers, at_once):
    """What is wanted of the ratios to nginx and to the program of before, for the version."""
    before = {"rate": " (wanted 0.95)"}
    if workers > 2:
        return {"nginx": {"rate": " (wanted 0.6)"} if at_once == 1 else {}, "before": before}
    nginx = {"rate": " (wanted 0.8)", "ninety_ninth": " (wanted at most 1.5)"} if at_once == 1 else {"rate": " (wanted 1)"}
    return {"nginx": nginx, "before": before}


def in_turns(bench, servers, ask, wanted):
    """Asks each server in turns by each generator of load, and prints the figures and the ratios. Several workers of nginx are asked three
    times as often, since at times connections lie at one of them while others rest."""
    for name in ("wrk", "load"):
        if name == "wrk" and bench.wrk_program is None:
            continue
        turns = {server.name: [] for server in servers}
        for _ in range(TURNS):
            for server in servers:
                for _ in range(3 if len(server.processes()) > 2 else 1):
                    turns[server.name].append(ask(name, server))
        best = {name: most(told) for name, told in turns.items()}
        for server in servers:
            show(f"{name}, {server.name}", best[server.name], server.memory("VmHWM"))
        for other in best:
            if other != "serve":
                compare(f"{name}, serve / {other}", best["serve"], best[other], wanted.get(other, {}))


@contextlib.contextmanager
def all_servers(bench, folder, path, workers, anew=False):
    """`serve`, and the yardsticks that say what it says. `blocking` would make a thread for each connection."""
    with contextlib.ExitStack() as stack:
        ours = stack.enter_context(bench.serve(folder, workers))
        body = ours.get(path)
        servers = [ours]
        if "BEFORE" in os.environ:
            servers.append(stack.enter_context(bench.serve(folder, workers, "before", os.environ["BEFORE"])))
        if bench.nginx_program is not None:
            servers.append(stack.enter_context(bench.nginx(workers, body)))
        if not anew:
            head = f"HTTP/1.1 200 OK\r\ncontent-type: application/json\r\ncontent-length: {len(body)}\r\n\r\n"
            servers.append(stack.enter_context(bench.blocking(head.encode() + body)))
        yield servers


def versions(bench, workers):
    path = "/v1/version"
    with all_servers(bench, "station", path, workers) as servers:
        for at_once in (1, AT_ONCE):

            def ask(name, server, at_once=at_once):
                return getattr(bench, name)(server, path, workers, at_once)

            say(f"version, {side_by_side(workers)}, {'one at a time' if at_once == 1 else f'{at_once} a write'}")
            in_turns(bench, servers, ask, wanted_of(workers, at_once))


def station_questions(bench, workers):
    place = f"/v1/place/{TICKETS}"
    way = route(BAKERY, TICKETS, "wheelchair")
    say(f"questions of the station, {side_by_side(workers)}")
    with bench.serve("station", workers) as server:
        turns = {"version": [], "one place": [], "wheelchair route": []}
        for _ in range(TURNS):
            for name, path in zip(turns, ("/v1/version", place, way)):
                turns[name].append(bench.load(server, path, workers))
        for name, told in turns.items():
            show(name, most(told))
        ratio = most(turns["wheelchair route"])["rate"] / most(turns["version"])["rate"]
        print(f"  route / version: {ratio:.2f} (wanted 0.5)")
        rates = [f"{most(turns[name])['rate']:,.0f}" for name in ("wheelchair route", "version")]
        row(f"{heading[-1]}, a wheelchair's route", f"{rates[0]} a second", f"version {rates[1]}", ratio, "wanted 0.5")


def session_times(bench, folder, text):
    """How long `session` takes in one process over these requests, and its processor time, in seconds."""
    with open(bench.write("requests", text), "rb") as requests:
        begin = time.monotonic()
        child = subprocess.Popen([bench.program, "session", bench.base, folder], stdin=requests, stdout=subprocess.DEVNULL)
        _, status, usage = os.wait4(child.pid, 0)
    if status != 0:
        sys.exit(f"session: status {os.waitstatus_to_exitcode(status)}")
    return time.monotonic() - begin, usage.ru_utime + usage.ru_stime


def routes(bench, levels, many):
    """In turns one worker, many workers, and the same search in one process: what so many requests take there more than one does."""
    folder = f"levels{levels}"
    for certificate in (False, True):
        path = across(levels, certificate)
        count = 50 if certificate else 100
        say(f"route over {levels} levels, {'with' if certificate else 'without'} its certificate")
        told = {workers: [] for workers in (1, many)}
        alone = {asked: [] for asked in (1, count + 1)}
        for _ in range(TURNS):
            for workers, turns in told.items():
                with bench.serve(folder, workers) as server:
                    turns.append(bench.load(server, path, workers) | {"peak": server.memory("VmHWM")})
            for asked, turns in alone.items():
                turns.append(session_times(bench, folder, request(path) * asked))
        for workers, turns in told.items():
            show(side_by_side(workers), most(turns), most(turns)["peak"])
        wall, busy = ((min(all_of) - min(one)) * 1e6 / count for one, all_of in zip(zip(*alone[1]), zip(*alone[count + 1])))
        print(f"  `session` in one process: {wall:,.0f} a request, processor {busy:,.0f}")
        middle = min(turn["middle"] for turn in told[1])
        processor = min(turn["processor"] for turn in told[1])
        wants = (" (wanted 3)", " (wanted at most 1.2)") if levels == MANY and not certificate else ("", "")
        print(f"  {many} workers to one: {most(told[many])['rate'] / most(told[1])['rate']:.2f}{wants[0] if many == 4 else ''}")
        row(f"{heading[-1]}, middle", f"{middle:,.0f} us", f"`session` {wall:,.0f} us", middle / wall, wants[1].strip(" ()"))
        print(f"  one worker to `session`: the least middle {middle / wall:.2f}{wants[1]}, processor {processor / busy:.2f}")


def places(bench, workers):
    path = "/v1/places"
    with all_servers(bench, f"levels{MANY}", path, workers) as servers:
        say(f"all places of {MANY} levels, {len(servers[0].get(path)) / 1e6:.1f} MB, {side_by_side(workers)}")
        in_turns(bench, servers, lambda name, server: getattr(bench, name)(server, path, workers), {})


class Staff:
    """Changes by staff, at a connection of their own, while it is entered: each call of `change` makes one."""

    def __init__(self, server, change, pause):
        self.server, self.change, self.pause = server, change, pause
        self.made, self.ended = 0, threading.Event()
        self.thread = threading.Thread(target=self.work)
        self.error = None

    def post(self, path, body):
        text = json.dumps(body)
        self.link.request("POST", path, text, {"x-staff-key": KEY})
        reply = self.link.getresponse()
        said = reply.read()
        if reply.status != 200:
            raise ValueError(f"{path}: {said[:200]}")

    def work(self):
        try:
            self.link = http.client.HTTPConnection("127.0.0.1", self.server.port, timeout=600)
            due = time.monotonic()
            while not self.ended.is_set():
                self.change(self)
                self.made += 1
                due += self.pause
                self.ended.wait(max(0.0, due - time.monotonic()))
            self.link.close()
        except (OSError, ValueError, http.client.HTTPException) as error:
            self.error = error

    def __enter__(self):
        self.thread.start()
        return self

    def __exit__(self, *_):
        self.ended.set()
        self.thread.join()
        if self.error is not None:
            sys.exit(f"staff: {self.error}")


def close_and_open(staff):
    staff.post("/v1/closures", {"feature": LIFT, "closed": staff.made % 2 == 0})


def publish(folder):
    return lambda staff: staff.post("/v1/publish", {"folder": folder})


def with_staff(bench, connections):
    """One worker more is for staff. Each load has a server of its own."""
    path, seconds = "/v1/version", 3
    say(f"version with staff, {connections + 1} workers, {connections} connections")
    kinds = {"nobody": None, "closures": (close_and_open, 0.025), "nobody again": None, "publications": (publish("sound"), 0.0)}
    turns = {kind: [] for kind in kinds}
    made = dict.fromkeys(kinds, 0)
    for _ in range(TURNS):
        for kind, deed in kinds.items():
            with bench.serve("station", connections + 1) as server, contextlib.ExitStack() as stack:
                staff = stack.enter_context(Staff(server, *deed)) if deed else None
                told = bench.load(server, path, connections, kind="free", seconds=seconds)
                made[kind] += staff.made if staff else 0
                turns[kind].append(told | {"peak": server.memory("VmHWM")})
    for kind, told in turns.items():
        show(f"{kind}, {made[kind]} changes", most(told), max(each["peak"] for each in told))
        longest = ", ".join(f"{each['longest'] / 1e3:.1f}" for each in told)
        late = ", ".join(f"{sum(each[part] for each in told):.0f} above {part[5:]} ms" for part in ("above5", "above10", "above20"))
        print(f"    longest of each turn {longest} ms; of {sum(each['requests'] for each in told):,.0f} answers {late}")
    for kind, other, mark in ("closures", "nobody", 10), ("publications", "nobody again", 20):
        ratio = most(turns[kind])["rate"] / most(turns[other])["rate"]
        print(f"  {kind} / {other}: {ratio:.2f} (wanted 0.9; no answer above {mark} ms)")
        rates = [f"{most(turns[name])['rate']:,.0f}" for name in (kind, other)]
        row(f"version beside {kind}", f"{rates[0]} a second", f"{other} {rates[1]}", ratio, f"wanted 0.9; none above {mark} ms")


def connections_anew(bench, workers):
    path = "/v1/version"
    with all_servers(bench, "station", path, workers, anew=True) as servers:
        say(f"version, a connection a request, {side_by_side(workers)} at once")
        wanted = {"nginx": {"rate": " (wanted 0.5)"} if workers == 1 else {}, "before": {"rate": " (wanted 0.9)"}}
        in_turns(bench, servers, lambda name, server: getattr(bench, name)(server, path, workers, kind="anew"), wanted)


def held(bench, workers):
    """What is held where each worker has a connection that has asked once."""
    with bench.serve("station", workers) as server, contextlib.ExitStack() as stack:
        for _ in range(workers):
            link = stack.enter_context(socket.create_connection(("127.0.0.1", server.port)))
            link.sendall(request("/v1/version"))
            if not link.recv(1000).startswith(b"HTTP/1.1 200"):
                sys.exit("an idle connection wasn't answered")
        return server.memory("VmRSS")


def memory(bench, publications):
    say("memory")
    one, many = held(bench, 1), held(bench, 16)
    print(f"  idle, each worker with a connection: 1 worker {one:.1f} MiB, 16 workers {many:.1f}; {many - one:.1f} more (wanted at most 4)")
    row("16 idle workers", f"{many:.1f} MiB", f"1 worker {one:.1f} MiB", wanted="at most 4 MiB more")
    folder = f"levels{FEW}"
    with bench.serve(folder, 1) as server:
        peaks = []
        staff = Staff(server, publish(folder), 0)
        staff.link = http.client.HTTPConnection("127.0.0.1", server.port, timeout=600)
        for _ in range(publications):
            staff.change(staff)
            peaks.append(server.memory("VmHWM"))
    ratio = peaks[-1] / peaks[0]
    print(f"  {FEW} levels, peak of a publication {peaks[0]:.0f} MiB, of {publications} {peaks[-1]:.0f} MiB: {ratio:.2f} (wanted at most 1.2)")
    row(f"peak of {publications} publications", f"{peaks[-1]:.0f} MiB", f"the first {peaks[0]:.0f} MiB", ratio, "at most 1.2")


def processor_name():
    with open("/proc/cpuinfo", encoding="utf-8") as file:
        return re.search(r"model name\s*:\s*(.*)", file.read() + "\nmodel name: ?")[1]


def main():
    program, base, tools, *words = sys.argv[1:]
    counts = [int(word) for word in words if word.isdigit()] or [1, 2, 4]
    most_workers = max(counts)
    parts = {
        "version": lambda: [versions(bench, workers) for workers in counts],
        "station": lambda: [station_questions(bench, workers) for workers in counts],
        "routes": lambda: [routes(bench, levels, most_workers) for levels in (FEW, MANY)],
        "places": lambda: places(bench, most_workers),
        "staff": lambda: with_staff(bench, 4),
        "anew": lambda: [connections_anew(bench, workers) for workers in sorted({1, most_workers})],
        "memory": lambda: memory(bench, 100),
        "idle": lambda: idle(bench, 4, say),
    }
    named = [word for word in words if not word.isdigit()] or list(parts)
    if not parts.keys() >= set(named):
        sys.exit(f"a part is one of {', '.join(parts)}")
    bench = Bench(program, base, tools)
    say(f"{time.strftime('%Y-%m-%d %H:%M')}, {os.cpu_count()} processors, {processor_name()}")
    for name in named:
        parts[name]()


if __name__ == "__main__":
    main()
