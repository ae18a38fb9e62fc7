#!/usr/bin/env python3
"""The ready program: one file release/venue-VERSION.tar.xz with the program, and `about`, which says the version, the commit, the kit's line, and
the digests of the program and of the sources that it was built from. It is renewed at a tagged version only.

usage: ready.py make VERSION [PROGRAM]   writes that file from a built program, without PROGRAM that of crates/venue_cli/out, and removes those
                                         of other versions; nothing of crates/ and crates.txt may be changed since the last commit
       ready.py take [--any-kit]         unpacks the program where its sources are those of this clone, and prints its path; else says why not
       ready.py compare [PROGRAM]        says whether a program that was proved and built here has the same bytes
       ready.py about                    prints what `about` says
       ready.py digest                   prints the digest of this clone's sources

The digest of the sources is over crates.txt and what a build reads of crates/: the files of src/, specs/ and proofs/ of every crate, by name.
`take` ends with status 1 where there is no ready program, where it is of other sources or for another machine, and, without --any-kit, where
the kit on the path has another line than the one that built it, since its bytes may differ. `compare` ends with status 1 only where sources and kit are the
same and the bytes are not.
"""
import hashlib
import io
import lzma
import os
import subprocess
import sys
import tarfile

TOP = os.path.dirname(os.path.dirname(os.path.abspath(__file__)))
FOLDER = os.path.join(TOP, "release")
READY = os.path.join(TOP, "out", "ready", "venue_cli")
BUILT = os.path.join(TOP, "crates", "venue_cli", "out", "venue_cli")
PARTS = "src", "specs", "proofs"


class Refused(Exception):
    """Why there is no ready program to take or to make, in words."""


def read(path):
    with open(path, "rb") as file:
        return file.read()


def sha256(data):
    return hashlib.sha256(data).hexdigest()


def sources():
    """What a build reads, by name."""
    paths = ["crates.txt"]
    for crate in os.listdir(os.path.join(TOP, "crates")):
        for part in PARTS:
            for at, _, files in os.walk(os.path.join(TOP, "crates", crate, part)):
                paths += [os.path.relpath(os.path.join(at, file), TOP) for file in files]
    return sorted(paths)


def source_digest():
    lines = [f"{sha256(read(os.path.join(TOP, path)))}  {path}\n" for path in sources()]
    return sha256("".join(lines).encode())


def said(*words):
    """What a command prints, or None where it isn't there or fails."""
    try:
        return subprocess.run(words, cwd=TOP, capture_output=True, text=True, check=True).stdout.strip()
    except (OSError, subprocess.CalledProcessError):
        return None


def kit():
    return said("rt", "version")


def packed():
    """The ready program's file, or None. There is at most one."""
    found = sorted(name for name in os.listdir(FOLDER) if name.startswith("venue-") and name.endswith(".tar.xz"))
    return os.path.join(FOLDER, found[-1]) if found else None


def opened():
    """What is said of the ready program, and its bytes."""
    path = packed()
    if path is None:
        raise Refused("there is no ready program in release/")
    try:
        with tarfile.open(path, "r:xz") as file:
            lines = file.extractfile("about").read().decode().splitlines()
            about = dict(line.split(" ", 1) for line in lines)
            return about, file.extractfile("venue_cli").read()
    except (OSError, KeyError, ValueError, tarfile.TarError, lzma.LZMAError) as error:
        raise Refused(f"{os.path.relpath(path, TOP)} isn't a ready program: {error}") from error


def need_whole(about, program):
    if sha256(program) != about["program"]:
        raise Refused(f"the ready program {about['version']} isn't whole")


def take(any_kit):
    about, program = opened()
    name = f"the ready program {about['version']}"
    if about["sources"] != source_digest():
        raise Refused(f"{name} was built from other sources than those of this clone")
    if about["machine"] != machine():
        raise Refused(f"{name} is for {about['machine']}, and this machine is {machine()}")
    if not any_kit and kit() not in (None, about["kit"]):
        raise Refused(f"{name} was built with {about['kit']}, and the kit here is {kit()}, whose bytes may differ")
    need_whole(about, program)
    # What is taken whatever the kit is doesn't lie where the launcher looks for one that it may run by itself.
    target = READY + "_by_another_kit" if any_kit else READY
    os.makedirs(os.path.dirname(target), exist_ok=True)
    with open(target + ".new", "wb") as file:
        file.write(program)
    os.chmod(target + ".new", 0o755)
    os.replace(target + ".new", target)
    print(target)


def compare(path):
    mine = sha256(read(path))
    proved = f"proved and built on this machine, sha256 {mine}"
    try:
        about, program = opened()
        need_whole(about, program)
    except Refused as refused:
        print(f"{proved}; {refused}, so there is nothing to compare")
        return 0
    name = f"the ready program {about['version']}"
    if about["sources"] != source_digest():
        print(f"{proved}; {name} was built from other sources, so there is nothing to compare")
    elif mine == about["program"]:
        print(f"{proved}; {name} has the same bytes")
    elif kit() != about["kit"]:
        print(f"{proved}; {name} has other bytes, and was built with another kit, {about['kit']}")
    else:
        print(f"{proved}; {name} has OTHER BYTES, sha256 {about['program']}, from the same sources by the same kit")
        return 1
    return 0


def machine():
    return f"{os.uname().sysname} {os.uname().machine}"


def make(version, path):
    changed = said("git", "status", "--porcelain", "--", "crates", "crates.txt")
    if changed is None or changed:
        raise Refused("crates/ or crates.txt has changes that are not committed, so no commit says what was built" if changed else "this is no git clone")
    if path == BUILT and os.stat(path).st_mtime < max(os.stat(os.path.join(TOP, it)).st_mtime for it in sources()):
        raise Refused(f"{os.path.relpath(path, TOP)} is older than a source: ./venue build")
    if kit() is None:
        raise Refused("the kit (rt) is not on the path, so its line can't be told")
    program = read(path)
    about = {"version": version, "commit": said("git", "rev-parse", "HEAD"), "kit": kit(), "machine": machine(), "sources": source_digest(), "program": sha256(program)}
    target = os.path.join(FOLDER, f"venue-{version}.tar.xz")
    files = {"about": "".join(f"{key} {value}\n" for key, value in about.items()).encode(), "venue_cli": program}
    bytes_of = io.BytesIO()
    with tarfile.open(fileobj=bytes_of, mode="w", format=tarfile.USTAR_FORMAT) as file:
        for name, data in files.items():
            row = tarfile.TarInfo(name)
            row.size, row.mode = len(data), 0o755 if name == "venue_cli" else 0o644
            file.addfile(row, io.BytesIO(data))
    old = packed()
    with open(target, "wb") as file:
        file.write(lzma.compress(bytes_of.getvalue(), preset=9 | lzma.PRESET_EXTREME))
    if old not in (None, target):
        os.remove(old)
    print(f"{os.path.relpath(target, TOP)}: {os.path.getsize(target)} bytes for a program of {len(program)}")


def main(words):
    match words:
        case ["make", version, *path] if len(path) < 2:
            make(version, *path or [BUILT])
        case ["take", *flags] if flags in ([], ["--any-kit"]):
            take(bool(flags))
        case ["compare", *path] if len(path) < 2:
            return compare(*path or [BUILT])
        case ["about"]:
            print("\n".join(f"{key} {value}" for key, value in opened()[0].items()))
        case ["digest"]:
            print(source_digest())
        case _:
            sys.exit(__doc__)
    return 0


if __name__ == "__main__":
    try:
        sys.exit(main(sys.argv[1:]))
    except (Refused, OSError) as refused:
        sys.exit(f"venue: {refused}")
