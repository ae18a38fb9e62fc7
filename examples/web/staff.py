#!/usr/bin/env python3
"""Names for the page of staff the folders that may be published, draws each by ../map.py, and writes what docs/RULES.md says of each rule, and
which doors of the folder that is served are entrances, as `venue advise` understands them.

usage: staff.py BASE SITE FOLDER ..
SITE is what site.py wrote, of the same BASE. Run it again after site.py, and where a folder has changed. The program is that of the variable
VENUE, else the launcher ./venue. It writes SITE/folders alone, and prints what. What can't be written it says in words, and then nothing is.
"""
import html
import json
import os
import re
import subprocess
import sys

sys.dont_write_bytecode = True  # so that a clone stays as it is

from files import Refused, compact, read, write

EXAMPLES = os.path.join(os.path.dirname(os.path.abspath(__file__)), "..")
RULES = os.path.join(EXAMPLES, "..", "docs", "RULES.md")
sys.path.insert(1, EXAMPLES)
import advise
from advice import drawn
from advice.folder import Folder
from advice.table import tables_of


def served(base, site):
    """The mark of the site, and the identifiers of the entrances of its folder."""
    try:
        about = json.loads(read(os.path.join(site, "site.json")))
        folder = Folder(base, about["folder"])
    except (OSError, ValueError, KeyError) as error:
        raise Refused(f"{site} isn't what site.py wrote of {base}: {error}") from error
    _, whole = tables_of(advise.PROGRAM, folder, "wheelchair")
    return about["mark"], [it.id for it in drawn.entrances(drawn.Drawing(folder), advise.touching_of(folder, whole))]


def picture(base, name):
    if not re.fullmatch("[a-z0-9_-]{1,64}", name) or not os.path.isdir(os.path.join(base, name)):
        raise Refused(f"{base} has no folder {name} that could be published")
    ran = subprocess.run([sys.executable, os.path.join(EXAMPLES, "map.py"), base, name], stdout=subprocess.PIPE)
    if ran.returncode:
        raise Refused(f"{name} can't be drawn")
    return ran.stdout


def rows_of(text):
    """The rules and notes of docs/RULES.md: their part, and by the titles of the columns what stands in each."""
    found, part, titles = {}, "", []
    for line in text.splitlines():
        cells = [cell.strip() for cell in re.split(r"(?<!\\)\|", line)[1:-1]]
        if line.startswith("## "):
            part = line[3:]
        elif cells and cells[0] in ("rule", "note"):
            titles = cells
        elif cells and titles and re.fullmatch("[A-Z][0-9]+", cells[0]):
            found[cells[0]] = part, dict(zip(titles[1:], cells[1:]))
        elif not cells:
            titles = []
    return found


def page_of(rows):
    """What docs/RULES.md says of each rule as a page, with a place for each."""
    marked = lambda text: re.sub("`([^`]*)`", r"<code>\1</code>", html.escape(text))
    told = lambda its: "".join(f"<dt>{html.escape(title)}<dd>{marked(cell)}" for title, cell in its.items())
    body = "\n".join(f'<h2 id="{rule}">{rule}</h2><p>{html.escape(part)}</p><dl>{told(its)}</dl>' for rule, (part, its) in rows.items())
    return f'<!DOCTYPE html>\n<html lang="en"><meta charset="utf-8"><meta name="viewport" content="width=device-width"><title>Rules</title>\n<h1>Rules</h1>\n{body}\n</html>\n'


def main(base, site, *names):
    mark, entrances = served(base, site)
    rows = rows_of(read(RULES).decode())
    asked = {rule: next(iter(its.values())).replace("`", "") for rule, (_, its) in rows.items()}
    files = {f"{name}.svg": picture(base, name) for name in names} | {"rules.html": page_of(rows).encode()}
    files["folders.json"] = compact({"folders": names, "mark": mark, "entrances": entrances, "rules": asked})
    for name, data in files.items():
        write(os.path.join(site, "folders", name), data)
    print(f"staff: {len(names)} folders, {len(entrances)} entrances, {len(rows)} rules; {len(files)} files of {sum(map(len, files.values()))} bytes")


if __name__ == "__main__":
    if len(sys.argv) < 4:
        sys.exit(__doc__)
    try:
        main(*sys.argv[1:])
    except Refused as refused:
        sys.exit(f"staff: {refused}; nothing is written")
