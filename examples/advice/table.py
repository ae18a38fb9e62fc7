"""The table that `links` prints, read as what it is made of: the members of each unit, and the links of each relationship."""
import array
import collections
import itertools
import os
import subprocess
import tempfile

from advice.folder import FLAGS
from advice.ways import blocks_of

KEPT = "kx ky border_tol contain_tol".split()


class Table:
    """The nodes' identifiers, without corners, whose numbers are the next; the members of each unit that is walked across, without its
    corners; and the links of relationships as (VIA, from, to). A unit of which not any two members are joined is walled: of each of its
    members and corners it has those with which it is joined, and how far they are. Its blocks stay joined without any one of theirs."""

    def __init__(self):
        self.nodes, self.corners, self.areas, self.links = [], 0, {}, []
        self.walled, self.blocks = {}, {}

    def keep(self, unit, joined):
        """Keeps the links of a unit, which `joined` has by their first end."""
        count = len(self.nodes)
        self.areas[unit] = [it for it in joined if it < count]
        if any(sum(it < count for it in joined[member][0]) < len(self.areas[unit]) - 1 for member in self.areas[unit]):
            self.walled[unit] = joined
            self.blocks[unit] = blocks_of({member: ends for member, (ends, _) in joined.items()})


def read_table(stream, folder, is_clear):
    """Reads a table line by line. Where ways go straight, of a unit's links only the first member's are looked at, since they lead to each
    other member; as many begin at each of the others, and are passed over."""
    table, lines = Table(), iter(stream)
    line = next(lines, b"")
    for line in lines:
        if not line.startswith(b"node"):
            break
        table.nodes.append(line[5:-1].decode())
    # Corners come last, each under the identifier of its unit.
    table.corners = len(table.nodes) - len(set(table.nodes))
    del table.nodes[len(table.nodes) - table.corners :]
    while line.startswith(b"link"):
        _, start, end, _, via = line.split()
        name, tail = via.decode(), b" " + via + b"\n"
        if folder.by_id[name].kind != "unit":
            table.links.append((name, int(start), int(end)))
            line = next(lines, b"")
            continue
        if is_clear:
            joined = {}
            while line.endswith(tail):
                _, start, end, length, _ = line.split()
                ends, lengths = joined.setdefault(int(start), (array.array("I"), array.array("I")))
                ends.append(int(end))
                lengths.append(int(length))
                line = next(lines, b"")
            table.keep(name, joined)
            continue
        head, members = b"link %b " % start, [int(start)]
        while line.startswith(head) and line.endswith(tail):
            members.append(int(line.split(b" ", 3)[2]))
            line = next(lines, b"")
        collections.deque(itertools.islice(lines, (len(members) - 1) ** 2 - 1), maxlen=0)
        line = next(lines, b"")
        table.areas[name] = members
    return table


def ask(program, base, folder, name, profile, is_clear):
    """The table of a profile, over the folder `name` of a base whose settings say whether ways go round walls."""
    words = [program, "links", base, name, profile]
    with subprocess.Popen(words, stdout=subprocess.PIPE, bufsize=1 << 20) as running:
        table = read_table(running.stdout, folder, is_clear)
    if running.returncode != 0:
        raise OSError(f"`links` ended with status {running.returncode}")
    return table


def tables_of(program, folder, profile):
    """The profile's table, and that of somebody who may use everything but what is out of service. The second has who touches a unit, so
    ways go straight there: behind walls somebody may be joined with a door out of service alone, which has no links."""
    with tempfile.TemporaryDirectory() as base:
        os.symlink(os.path.abspath(folder.path("")), os.path.join(base, "venue"))
        settings = [f"{key} = {folder.settings[key]}" for key in KEPT] + ["[[profile]]", 'name = "all"']
        with open(os.path.join(base, "venue.toml"), "w", encoding="utf-8") as file:
            file.write("\n".join(settings + [f"{flag} = true" for flag in FLAGS if flag != "marked"]) + "\n")
        whole = ask(program, base, folder, "venue", "all", False)
    return ask(program, folder.base, folder, folder.name, profile, folder.settings.get("inside") == "clear"), whole
