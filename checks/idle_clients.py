"""The clients of serve_idle.sh: a crowd that holds connections open, and whoever asks beside it.

usage: idle_clients.py ROW PORT CROWD   (CROWD is how many the crowd is; a row below says who they are)
It prints what came of the row: the status of who asked, and how many of the crowd are open then; or what the row says.
"""
import re
import resource
import socket
import sys
import time

ROW, PORT, CROWD = sys.argv[1], int(sys.argv[2]), int(sys.argv[3])
# The longest that one reply is waited for, in seconds.
LONGEST = 15
VERSION = b"GET /v1/version HTTP/1.1\r\nhost: a\r\n\r\n"
CLOSING = b"GET /v1/version HTTP/1.1\r\nhost: a\r\nconnection: close\r\n\r\n"
PLACES = b"GET /v1/places HTTP/1.1\r\nhost: a\r\n\r\n"


def post(length):
    return f"POST /v1/closures HTTP/1.1\r\nhost: a\r\ncontent-length: {length}\r\n\r\n".encode()


def connect(text=b""):
    link = socket.create_connection(("127.0.0.1", PORT), LONGEST)
    link.sendall(text)
    return link


def reply(link):
    """One reply: its status, or `end` or `reset` where there is none."""
    text = b""
    try:
        while b"\r\n\r\n" not in text:
            more = link.recv(65_536)
            if not more:
                return "end"
            text += more
        head, _, body = text.partition(b"\r\n\r\n")
        length = int(re.search(rb"content-length: (\d+)", head)[1])
        while len(body) < length:
            more = link.recv(65_536)
            if not more:
                return "cut"
            body += more
    except ConnectionResetError:
        return "reset"
    except TimeoutError:
        return "nothing"
    return head.split()[1].decode()


def asked(text=CLOSING):
    """The status of who asks over a connection of its own."""
    with connect(text) as link:
        return reply(link)


def is_open(link):
    """Whether the other side has not closed a connection on which it has sent nothing."""
    link.setblocking(False)
    try:
        return bool(link.recv(1))
    except BlockingIOError:
        return True
    except ConnectionResetError:
        return False
    finally:
        link.settimeout(LONGEST)


def beside(crowd):
    status = asked()
    return f"{status}, {sum(map(is_open, crowd))} open"


def crowd_of(text):
    return [connect(text) for _ in range(CROWD)]


def silent():
    return beside(crowd_of(b""))


def heads():
    crowd = crowd_of(VERSION[:-1])
    before = beside(crowd)
    crowd[CROWD // 2].sendall(VERSION[-1:])
    return f"{before}, {reply(crowd[CROWD // 2])}"


def bodies():
    return beside(crowd_of(post(20) + b"12345"))


def stays():
    first = connect(VERSION)
    before = reply(first)
    return f"{before}, {asked()}, {reply(first)}"


def pauses():
    silent_one, first = connect(), connect(VERSION)
    before = reply(first)
    time.sleep(1)
    first.sendall(VERSION)
    return f"{before}, {reply(first)}, {is_open(silent_one)}"


def closes():
    """Who asked for the last time stays, and isn't waited for."""
    first = connect(CLOSING)
    before = reply(first)
    return f"{before}, {asked()}, {reply(first)}"


def sends_on():
    first = connect(post(102_400))
    first.sendall(bytes(102_400))
    return f"{reply(first)}, {reply(first)}"


def reads_nothing():
    _first = connect(20 * PLACES)
    # The worker has this one by now, and room for what it writes runs out.
    time.sleep(0.5)
    return asked()


def sends_half():
    first = connect(post(65_536) + bytes(20_000))
    time.sleep(0.2)
    return f"{asked()}, {reply(first)}"


def opens_and_closes():
    for _ in range(5):
        connect().close()
    connect(VERSION[:20]).close()
    # The lobby has closed the five, and has handed out the sixth.
    time.sleep(0.2)
    return asked()


def too_many():
    crowd = []
    for _ in range(CROWD):
        crowd.append(connect())
        time.sleep(0.001)
    status = asked()
    time.sleep(0.2)
    are_open = [is_open(link) for link in crowd]
    closed = are_open.count(False)
    return f"{status}, {'the longest silent' if closed and not any(are_open[:closed]) else 'others'} closed"


_, most = resource.getrlimit(resource.RLIMIT_NOFILE)
resource.setrlimit(resource.RLIMIT_NOFILE, (most, most))
print({row.__name__: row for row in (
    silent, heads, bodies, stays, pauses, closes, sends_on, reads_nothing, sends_half, opens_and_closes, too_many
)}[ROW]())
