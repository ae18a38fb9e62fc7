"""What `check` finds in a rejected folder, in words that one can mend it by."""
import json
import os
import re

from advice import amiss
from advice.amiss import PROPERTIES
from advice.folder import TYPES, canonical, read_json

DOCS = os.path.join(os.path.dirname(os.path.abspath(__file__)), "..", "..", "docs")
FILES = ["manifest.json"] + [f"{kind}.geojson" for kind in TYPES]
LISTS = ("building_ids", "unit_ids", "intermediary", "accessibility", "access_control")
# What these rules judge is a file or the whole folder, and no feature.
OF_FILES = set("F1 F2 F3 F4 M1 M2 M3 C1 V1 S1 S2 G6".split())
SETTINGS = {
    "1": "venue.toml is no TOML document",
    "2": "a key that is needed is missing in venue.toml",
    "3": "a key of venue.toml has a value of the wrong kind, as a text where a whole number is asked for",
    "4": "a key of venue.toml has a value out of its range",
    "5": "venue.toml has a key that there isn't; it may be misspelled",
    "6": "two profiles of venue.toml have this name, or one has the name `walk` or `wheelchair`",
}


def rules():
    """Of each rule what it asks, and how it is mended, as docs/RULES.md has it."""
    with open(os.path.join(DOCS, "RULES.md"), encoding="utf-8") as file:
        rows = re.findall(r"(?m)^\| ([A-Z]\d) \| (.*?) \|.*\| ([^|]*) \|$", file.read())
    return {rule: (asks, mend) for rule, asks, mend in rows}




class Raw:
    """The files of a folder as far as they can be read, whatever is in them."""

    def __init__(self, path):
        self.path, self.files = path, {}
        for name in FILES:
            try:
                self.files[name] = read_json(os.path.join(path, name))
            except (ValueError, OSError, RecursionError):
                self.files[name] = None
        self.by_id = {}
        for name in FILES[1:]:
            for index, item in enumerate(self.items(name)):
                if isinstance(item, dict) and isinstance(item.get("id"), str):
                    self.by_id.setdefault(canonical(item["id"]), []).append((name, index))

    def has(self, name):
        return os.path.exists(os.path.join(self.path, name))

    def items(self, name):
        its = self.files.get(name)
        found = its.get("features") if isinstance(its, dict) else None
        return found if isinstance(found, list) else []

    def item(self, name, index):
        its = self.items(name)
        return its[index] if index < len(its) and isinstance(its[index], dict) else {}

    def properties(self, name, index):
        found = self.item(name, index).get("properties")
        return found if isinstance(found, dict) else {}

    def named(self, name, index):
        names = self.properties(name, index).get("name")
        texts = [it for it in names.values() if isinstance(it, str)] if isinstance(names, dict) else []
        return texts[0] if texts else None

    def of_id(self, identifier):
        """The files and places of the features with an identifier."""
        return self.by_id.get(canonical(identifier), []) if isinstance(identifier, str) else []

    def passed_over(self):
        """Files of JSON that aren't read, each with the one that may be meant."""
        for name in sorted(os.listdir(self.path)):
            stem = re.sub(r"[^a-z]", "", name.lower().rsplit(".", 1)[0]).removesuffix("s")
            meant = [it for it in FILES if it.split(".")[0] in (stem, stem + "s")]
            if name not in FILES and name.lower().endswith(("json",)):
                yield name, meant[0] if meant else None


class Finding:
    """A finding, with what the folder has there."""

    def __init__(self, raw, rule, file, index, member):
        self.rule, self.file, self.index, self.member = rule, file, int(index), int(member)
        has_item = rule not in OF_FILES
        self.item = raw.item(file, self.index) if has_item else {}
        self.its = raw.properties(file, self.index) if has_item else {}
        self.id, self.name = self.item.get("id"), raw.named(file, self.index) if has_item else None
        self.property, self.value, self.wanted = None, None, None
        if rule in ("C6", "X1", "X2") and self.member % 64 in PROPERTIES:
            self.find_property(*PROPERTIES[self.member % 64])
        self.amiss = amiss.told(raw, self)

    def find_property(self, name, _, wanted):
        value, place = self.its.get(name), self.member // 64
        self.is_there = name in self.its
        if name in LISTS and isinstance(value, list) and (place or self.rule != "C6" or is_wrong(name, value, place)):
            value = value[place] if place < len(value) else None
            name = f"{name}[{place}]"
        self.property, self.value = name, value
        self.wanted = wanted or (value.get("feature_type") if isinstance(value, dict) else None)

    @property
    def named_id(self):
        """The identifier that the property names."""
        return self.value.get("id") if isinstance(self.value, dict) else self.value

    def mend(self):
        """How this very finding is mended, None where docs/RULES.md tells it."""
        kind = self.file.split(".")[0]
        if self.rule == "C4":
            return f'Write "{kind}", or move the feature to the file of its type.'
        if self.rule == "C5":
            return f"Draw it as {amiss.FORMS.get(kind, 'a Polygon or a MultiPolygon')}; null is a geometry that isn't drawn."
        if self.rule == "C6":
            return f"Write {self.property} in this form" + (", or leave it out." if amiss.form_of(self).startswith("null") else "; it has to be there.")
        return None

    def where(self):
        return f"{self.file} {self.index}" if self.item else self.file

    def who(self):
        """The feature, by place, identifier and name."""
        known = f" {self.id}" if isinstance(self.id, str) else ""
        return self.where() + known + (f" {json.dumps(self.name, ensure_ascii=False)}" if self.name else "")


def is_wrong(name, value, place):
    """Whether an item of a list isn't as it has to be: the number of a list's first item is that of the list, which may be empty."""
    if place >= len(value):
        return False
    return not (name in ("accessibility", "access_control") and isinstance(value[place], str) or is_reference(value[place]))


def is_reference(value):
    return isinstance(value, dict) and isinstance(value.get("id"), str) and value.get("feature_type") in TYPES


class Report:
    """What is told of a folder that isn't accepted."""

    def __init__(self, base, name, lines, status):
        self.base, self.name, self.status = base, name, status
        self.lines, self.rows = lines, []
        self.why = self.stopped()
        if not self.why:
            self.total = int(lines[0].split()[1])
            self.raw = Raw(os.path.join(base, name))
            found = [Finding(self.raw, *line.split()[1:]) for line in lines[1:]]
            self.rows = list(self.gathered(found, rules()))

    def stopped(self):
        """What stopped the check, in words; None where the folder was judged."""
        path, line = os.path.join(self.base, self.name), self.lines[0] if self.lines else ""
        words = line.split()
        if not os.path.isdir(self.base):
            return f"there is no folder {self.base}"
        if line == "missing venue.toml":
            return f"{self.base} has no venue.toml, which has to have kx and ky at least; `./venue scale LATITUDE` prints both"
        if words[:1] == ["settings"]:
            return f"{SETTINGS[words[1]]}: {words[2] if len(words) > 2 else amiss.toml_fault(self.base)}; docs/FORMATS.md has the keys, under Settings"
        if line == "words":
            return f"`{self.name}` can't be the name of a folder: 1 to 64 of `a-z 0-9 _ -`; rename it. {self.folders()}"
        if not os.path.isdir(path):
            return f"no such folder {self.name} in {self.base}. {self.folders()}"
        if line == "fault folder":
            return f"a file of {path} couldn't be read: see who may read it"
        return None if words[:1] == ["rejected"] else f"the program printed {line!r} and ended with status {self.status}"

    def folders(self):
        """The folders of the base that look like a venue's."""
        names = [it for it in sorted(os.listdir(self.base)) if os.path.exists(os.path.join(self.base, it, "venue.geojson"))]
        return "There are: " + " ".join(names) if names else "There is none with a venue.geojson."

    def gathered(self, found, asked):
        """The findings in words; those of one missing file, or of one missing feature, are told once."""
        groups = {}
        for it in found:
            groups.setdefault(self.cause(it), []).append(it)
        for (kind, what), its in groups.items():
            first = its[0]
            asks, mend = asked.get(first.rule, ("", "See docs/RULES.md."))
            # Where the page names its example, or a table, the feature's own case is told.
            mend = first.mend() or mend
            row = {"rule": first.rule, "file": first.file, "index": first.index, "member": first.member, "id": first.id, "name": first.name}
            row |= {"property": first.property, "value": first.value, "findings": len(its)}
            who, told = first.who() + (f", {first.property}" if first.property else ""), first.amiss
            if kind == "file":
                who = what
                told = f"the file isn't there, and {count(its, 'property')} name its features, first {first.property} of {first.who()}, which names {amiss.shown(first.named_id)}"
                mend = f"Add {what}" + "".join(f", for which {name} may be meant: files of other names aren't read" for name, meant in self.raw.passed_over() if meant == what) + "."
            elif kind == "feature" and len(its) > 1:
                told += f"; so do {len(its) - 1} more, as {its[1].property} of {its[1].who()}"
            yield row | {"who": who, "amiss": told, "asks": asks, "mend": mend}

    def cause(self, it):
        """What findings have in common that are told once."""
        if it.rule == "X1" and it.wanted in TYPES and not self.raw.has(f"{it.wanted}.geojson"):
            return "file", f"{it.wanted}.geojson"
        if it.rule == "X1" and isinstance(it.named_id, str):
            return "feature", canonical(it.named_id)
        return "one", (it.rule, it.file, it.index, it.member)

    def as_text(self):
        if self.why:
            return self.why
        out = [self.lines[0]]
        out += [f'{it["rule"]}: {it["who"]}: {it["amiss"]}. {it["asks"]} What to do: {it["mend"]}' for it in self.rows]
        if self.total > len(self.lines) - 1:
            out.append(f"The first {len(self.lines) - 1} of {self.total} findings are told. Mend them and ask again.")
        out += [f"{name} isn't read" + (f"; {meant} may be meant" if meant else "") for name, meant in self.raw.passed_over()]
        out.append("Later rules are judged where these hold: ask again when this is mended.")
        return "\n".join(out)

    def as_json(self):
        told = {"stopped": self.why} if self.why else {"rejected": self.total, "findings": self.rows}
        return json.dumps(told, ensure_ascii=False, indent=1)


def count(its, what):
    return f"{len(its)} {what if len(its) == 1 else {'property': 'properties'}.get(what, what + 's')}"
