#!/bin/sh
# Whether crates.txt, docs/ARCHITECTURE.md, the picture of the building and the crates' folders tell the same, and whether they keep within the
# bounds that keep the gate short: short lists of crates, few paths through them, tests and edits where they cost least.
#
# usage: house.sh [TOP]   (the top of another copy of the repository)
# It prints a line for each thing that is wrong and one at the end with what was counted, and ends with status 1 where something is.
command -v python3 >/dev/null || { echo 'house: skipped, since there is no python3'; exit 0; }
cd "${1-$(dirname "$0")/..}" || exit 1
exec python3 - <<'PYTHON'
import os
import re
import subprocess
import sys

# Names on a crate's line that no file of it spells, by crate and name, each with a word why.
UNSPELLED = {}
# Crates of code that keep tests in their src/, each with a word why.
KEEPS_TESTS = {}
# The one file that has the word `unsafe`.
UNSAFE = "crates/board_copies/src/keeper.rt"
MOST = {"characters in a line": 200, "names": 256, "crates in a chain": 14, "files summed": 329_999, "edits": 294}

RUST_PARTS = re.compile(r"""//[^\n]*|/\*.*?\*/|"(?:[^"\\]|\\.)*"|'(?:[^'\\\n]|\\[^\n]{1,9})'""", re.S)
ANTT_PARTS = re.compile(r"{-.*?-}|(?<![^\s(){}])--[^\n]*", re.S)
SPELLED = re.compile(r"(?<![\w:.])([a-z]\w*)::|\buse ([a-z]\w*)(?: as\b|;)|\bRattle\.([a-z]\w*)")
wrong = []


def need(holds, what):
    if not holds:
        wrong.append(what)


def read(path):
    with open(path, encoding="utf-8") as file:
        return file.read()


def is_of_tests(name):
    return name.startswith("test_")


def files_of(crate, *parts):
    for part in parts:
        for at, folders, files in os.walk(f"crates/{crate}/{part}"):
            folders.sort()
            yield from (f"{at}/{file}" for file in sorted(files))


def code(path):
    """A file's text without comments, and without the strings of Rust."""
    return (RUST_PARTS if path.endswith(".rt") else ANTT_PARTS).sub(" ", read(path))


def listed():
    """The crates in the order of crates.txt, each with the names on its line."""
    found = {}
    for line in read("crates.txt").split("\n"):
        name, _, names = line.partition("#")[0].partition(":")
        need(len(line) <= MOST["characters in a line"], f"crates.txt: {len(line)} characters in the line of {name.split()[0] if name.strip() else line}")
        if name.strip():
            need(name.split()[0] not in found, f"crates.txt: {name.split()[0]} has two lines")
            found[name.split()[0]] = names.split()
    return found


def in_architecture():
    """The crates that docs/ARCHITECTURE.md names in its first block, which is the tree, and in its table of crates."""
    text = read("docs/ARCHITECTURE.md")
    tree = text.split("```")[1] if "```" in text else ""
    table = re.search(r"(?m)^\| crate \|.*\n((?:\|.*\n)*)", text)
    return re.findall(r"(?m)^ {0,22}([a-z]\w*)(?: .*)?$", tree), re.findall(r"(?m)^\| `(\w+)` \|", table[1] if table else "")


def compare(where, names, folders):
    for name in sorted({it for it in names if names.count(it) > 1}):
        wrong.append(f"{where}: {name} stands there twice")
    for name in sorted(set(names) - folders):
        wrong.append(f"{where}: {name} is no folder of crates/")
    for name in sorted(folders - set(names)):
        wrong.append(f"{where}: {name} is missing")


def longest(crates, name, seen):
    """The longest chain of crates down from this one, itself the first."""
    if name not in seen:
        chains = [longest(crates, it, seen) for it in crates[name] if it in crates]
        seen[name] = [name, *max(chains, key=len, default=[])]
    return seen[name]


def summed(crates, name, seen):
    """How many files are summed for a crate: its own, and those of each crate that it lists, once for every path that leads there."""
    if name not in seen:
        seen[name] = sum(1 for _ in files_of(name, "src", "specs", "proofs")) + sum(summed(crates, it, seen) for it in crates[name] if it in crates)
    return seen[name]


folders = {it for it in os.listdir("crates") if set(os.listdir(f"crates/{it}")) - {"out"}}
crates = listed()
tree, table = in_architecture()
compare("crates.txt", list(crates), folders)
compare("docs/ARCHITECTURE.md, tree", tree, folders)
compare("docs/ARCHITECTURE.md, table", table, folders)

unsafe, edits, in_front = [], 0, set()
for crate, names in crates.items():
    texts = {path: code(path) for path in files_of(crate, "src", "specs", "proofs") if path.endswith((".rt", ".antt"))}
    spelled = {next(filter(None, it)) for text in texts.values() for it in SPELLED.findall(text)}
    for name in names:
        need(names.count(name) == 1, f"crates.txt: {crate} lists {name} twice")
        need(name in spelled or (crate, name) in UNSPELLED, f"crates.txt: {crate} lists {name}, which no file of it names")
        need(name not in crates or name in in_front, f"crates.txt: {crate} stands in front of {name}, on which it stands")
        need(is_of_tests(crate) or not is_of_tests(name), f"crates.txt: {crate} lists {name}, which is for tests alone")
    in_front.add(crate)
    need(os.path.isfile(f"crates/{crate}/README.md"), f"crates/{crate}/README.md is missing")
    tests = [path for path, text in texts.items() if path.startswith(f"crates/{crate}/src/") and re.search(r"#!?\[cfg\(test\)\]", text)]
    need(not tests or is_of_tests(crate) or crate in KEEPS_TESTS, f"{crate} has tests in {', '.join(tests)}")
    unsafe += [path for path, text in texts.items() if path.endswith(".rt") and re.search(r"\bunsafe\b", text)]
    edits += sum(path.endswith(".edit") for path in files_of(crate, "must-fail"))
need(unsafe == [UNSAFE], f"`unsafe` stands in {', '.join(unsafe) or 'no file'}, and not in {UNSAFE} alone")
for crate, name in UNSPELLED:
    need(name in crates.get(crate, []), f"checks/house.sh excuses {name} on the line of {crate}, where it doesn't stand")
for crate in KEEPS_TESTS:
    need(crate in crates, f"checks/house.sh excuses the tests of {crate}, which isn't there")

chain, files = [], 0
if not any("stands in front of" in it for it in wrong):
    plain = {crate: [it for it in names if not is_of_tests(it)] for crate, names in crates.items() if not is_of_tests(crate)}
    lengths, sums = {}, {}
    chain = max((longest(plain, it, lengths) for it in plain), key=len)
    files = max(summed(crates, it, sums) for it in crates)
names = sum(len(names) for crate, names in crates.items() if not is_of_tests(crate))
counts = {"names": names, "crates in a chain": len(chain), "files summed": files, "edits": edits}
for what, count in counts.items():
    need(count <= MOST[what], f"{count:,} {what}, and at most {MOST[what]:,} are wanted{': ' + ' '.join(chain) if what == 'crates in a chain' else ''}")
drawn = subprocess.run([sys.executable, "docs/pictures/building.py", "-"], capture_output=True, text=True).stdout
need(drawn == read("docs/pictures/building.svg"), "docs/pictures/building.svg isn't what docs/pictures/building.py draws of crates.txt")
for line in wrong:
    print(line)
print(f"house: {len(crates)} crates, {', '.join(f'{count:,} {what}' for what, count in counts.items())}; {len(wrong)} things are wrong")
sys.exit(1 if wrong else 0)
PYTHON
