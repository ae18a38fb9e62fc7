#!/usr/bin/env python3
"""Sends each request that stands in docs/HTTP.md to `venue session`, in a session of its own over the example station, and compares the reply
with the one that stands below it, in which `..` stands for further items.

usage: request_pages.py [PROGRAM]   (without PROGRAM the launcher ./venue, which builds the program if need be)
It prints one line, and ends with status 1 at a difference.
"""
import os
import re
import subprocess
import sys

TOP = os.path.join(os.path.dirname(os.path.abspath(__file__)), "..")


def pairs():
    """The requests with their replies: a block that begins with a request line, and the next one."""
    with open(os.path.join(TOP, "docs", "HTTP.md"), encoding="utf-8") as file:
        blocks = re.findall(r"^```\n(.*?)^```$", file.read(), re.S | re.M)
    return [(sent, reply) for sent, reply in zip(blocks, blocks[1:]) if re.match(r"(GET|POST) \S+ HTTP/1.1\n", sent)]


def as_sent(block):
    """The bytes of a block: its lines end with CR LF, and its body has no line end."""
    head, body = block.split("\n\n", 1)
    return (head.replace("\n", "\r\n") + "\r\n\r\n" + body.rstrip("\n")).encode()


def main():
    program, differences = sys.argv[1] if len(sys.argv) > 1 else os.path.join(TOP, "venue"), 0
    for sent, reply in pairs():
        ran = subprocess.run([program, "session", os.path.join(TOP, "examples"), "station"], input=as_sent(sent), capture_output=True, timeout=50)
        wanted = re.escape(as_sent(reply)).replace(re.escape(b",.."), b",.*")
        if not re.fullmatch(wanted, ran.stdout, re.S) or ran.returncode:
            differences += 1
            print(f"{sent}\nis answered\n{ran.stdout.decode()}\nand not\n{reply}", file=sys.stderr)
    print(f"request_pages: {len(pairs())} requests, {differences} differences")
    return 1 if differences or not pairs() else 0


sys.exit(main())
