#!/usr/bin/env python3
"""Serves the example station as docs/HTTP.md does but at a port that is free, and runs the lines there that begin with `curl`, in their order:
each must print the line below it. Then it starts the demo over the same program: it must print what README.md shows of it, in which `..` stands
for anything, its page must be there, and its line for `curl` must print the answer that stands below it.

usage: curl_lines.py [PROGRAM]   (without PROGRAM the launcher ./venue, which builds the program if need be)
It prints one line, and ends with status 1 at a difference. Where curl is missing it says so, and ends with status 0.
"""
import os
import re
import shutil
import socket
import subprocess
import sys
import urllib.request

TOP = os.path.join(os.path.dirname(os.path.abspath(__file__)), "..")


def block_of(name, front):
    """The block of a page that begins so."""
    with open(os.path.join(TOP, name), encoding="utf-8") as file:
        return next(it for it in file.read().split("```\n") if it.startswith(front))


def lines_of_page():
    """The values that docs/HTTP.md names before its curl lines, and these with what they print."""
    values, *blocks = block_of("docs/HTTP.md", "at=").strip().split("\n\n")
    return values, [it.split("\n") for it in blocks]


def free_port():
    with socket.create_server(("127.0.0.1", 0)) as door:
        return door.getsockname()[1]


def printed_by(script):
    return subprocess.run(["bash", "-c", re.sub("^curl ", "curl --max-time 20 ", script, flags=re.M)], capture_output=True, text=True, timeout=30).stdout


def page_differs(program):
    """What differs of the lines of docs/HTTP.md, and how many there are."""
    values, lines = lines_of_page()
    port, differences = free_port(), []
    words = [program, "serve", "examples", "station", f"127.0.0.1:{port}", "2", "1000"]
    with subprocess.Popen(words, cwd=TOP, stdout=subprocess.PIPE, text=True) as served:
        try:
            if served.stdout.readline() != f"listening 127.0.0.1:{port}\n":
                return ["the server doesn't listen"], 0
            for line, *wanted in lines:
                printed = printed_by(values.replace(":8080", f":{port}") + "\n" + line)
                if printed != "\n".join(wanted):
                    differences.append(f"{line}\nprinted {printed}\nand not {wanted}")
        finally:
            served.terminate()
    return differences, len(lines)


def demo_differs(program):
    """What differs of the demo. Without a program of its own it is the launcher's."""
    words = ["examples/demo.py", program, "about"] if program != "./venue" else ["./venue", "demo"]
    wanted = block_of("README.md", "page: ").splitlines()
    differences = []
    with subprocess.Popen(words, cwd=TOP, stdout=subprocess.PIPE, text=True) as demo:
        try:
            found = [demo.stdout.readline().rstrip("\n") for _ in wanted]
            port = (re.search(r":(\d+)/", found[0]) or [":0", "0"])[1]
            for line, shown in zip(found, wanted):
                if not re.fullmatch(re.escape(shown.replace(":8080", f":{port}")).replace(re.escape(".."), ".*"), line):
                    differences.append(f"the demo printed {line}\nand not {shown}")
            if not differences:
                with urllib.request.urlopen(found[0].removeprefix("page: ").partition("#")[0], timeout=20) as page:
                    if b"<html" not in page.read():
                        differences.append("the demo's page isn't there")
                if printed_by(found[1]) != found[2]:
                    differences.append(f"{found[1]} doesn't print what stands below it")
        finally:
            demo.terminate()
    return differences


def main():
    lacking = [name for name in ("curl", "bash") if not shutil.which(name)]
    if lacking:
        print(f"curl_lines: skipped, since there is no {' or '.join(lacking)}")
        return 0
    program = os.path.abspath(sys.argv[1]) if len(sys.argv) > 1 else "./venue"
    differences, lines = page_differs(program)
    differences += demo_differs(program)
    for difference in differences:
        print(difference, file=sys.stderr)
    print(f"curl_lines: {lines} lines and the demo, {len(differences)} differences")
    return 1 if differences or not lines else 0


sys.exit(main())
