"""A venue's folder as advice reads it: its features, what they name, and the settings of its base."""
import json
import os
import tomllib

TYPES = (
    "address amenity anchor building detail fixture footprint geofence kiosk level occupant opening relationship section"
    " unit venue"
).split()
SOLID = set("opentobelow column brick concrete drywall glass wood structure vegetation".split())
LADDERS = set("elevator escalator ramp stairs movingwalkway".split())
PASSAGES = LADDERS | {"traversal"}
FLAGS = sorted(LADDERS) + ["revolving", "turnstile", "restricted", "marked"]
BUILT_IN = {"walk": set(FLAGS) - {"restricted", "marked"}, "wheelchair": {"elevator", "ramp"}}
DEFAULTS = {"border_tol": 1_000, "contain_tol": 5_000}


class Feature:
    """A feature with its place in its file; `id` is in lower case with hyphens."""

    __slots__ = ("kind", "index", "id", "its", "geometry")

    def __init__(self, kind, index, item):
        self.kind, self.index, self.id = kind, index, canonical(item["id"])
        self.its, self.geometry = item["properties"], item.get("geometry")

    @property
    def file(self):
        return f"{self.kind}.geojson"

    @property
    def category(self):
        """The part of the category that is judged: what stands before the first dot."""
        return str(self.its.get("category") or "").split(".")[0]

    @property
    def is_walked(self):
        """Whether people walk through this unit."""
        return self.category not in SOLID

    def texts(self, name):
        """A property that is a list of texts, as `access_control`."""
        return self.its.get(name) or []


def canonical(text):
    """One of the four forms of a UUID in lower case with hyphens."""
    if len(text) == 36:
        return text.lower()
    digits = text.lower().removeprefix("urn:uuid:").strip("{}").replace("-", "")
    return "-".join((digits[:8], digits[8:12], digits[12:16], digits[16:20], digits[20:]))


def read_json(path):
    """What a JSON file holds, None where there is none."""
    try:
        with open(path, "rb") as file:
            return json.loads(file.read().decode("utf-8-sig"))
    except FileNotFoundError:
        return None


def read_settings(base):
    with open(os.path.join(base, "venue.toml"), "rb") as file:
        return DEFAULTS | tomllib.loads(file.read().decode("utf-8-sig"))


def flags_of(settings, profile):
    """What a profile may use, None where the settings have no profile of that name."""
    for row in settings.get("profile", []):
        if row["name"] == profile:
            return {flag for flag in FLAGS if row.get(flag)}
    return BUILT_IN.get(profile)


class Folder:
    """The features of an accepted folder, by type and by identifier."""

    def __init__(self, base, name):
        self.base, self.name = base, name
        self.settings = read_settings(base)
        self.scale = self.settings["kx"], self.settings["ky"]
        self.language = read_json(self.path("manifest.json")).get("language")
        self.features = {kind: self.read(kind) for kind in TYPES}
        self.by_id = {it.id: it for kind in TYPES for it in self.features[kind]}

    def path(self, file):
        return os.path.join(self.base, self.name, file)

    def read(self, kind):
        found = read_json(self.path(f"{kind}.geojson"))
        return [Feature(kind, index, item) for index, item in enumerate(found["features"])] if found else []

    def __getitem__(self, kind):
        return self.features[kind]

    def get(self, identifier):
        """The feature that an identifier names; None of null."""
        return self.by_id[canonical(identifier)] if identifier else None

    def named(self, feature):
        """A feature's name in the language of the manifest, else the first it has."""
        names = feature.its.get("name")
        if not isinstance(names, dict) or not names:
            return None
        return names.get(self.language) or next(iter(names.values()))

    def units_of(self, feature):
        """The units that a feature names or is, the anchor's for an occupant."""
        if feature.kind == "amenity":
            return [self.get(it) for it in feature.its["unit_ids"]]
        if feature.kind == "anchor":
            return [self.get(feature.its["unit_id"])]
        if feature.kind in ("occupant", "kiosk", "fixture"):
            anchor = self.get(feature.its.get("anchor_id"))
            return self.units_of(anchor) if anchor else []
        return [feature] if feature.kind == "unit" else []

    def level_of(self, feature):
        """The level on which a feature lies: of an amenity that of its first unit, None where nothing tells it."""
        if feature.kind == "level":
            return feature
        if feature.kind in ("unit", "opening"):
            return self.get(feature.its["level_id"])
        units = self.units_of(feature)
        return self.get(units[0].its["level_id"]) if units else None

    def told(self, level):
        """A level in words."""
        name = self.named(level)
        return f"level {level.its['ordinal']:g}" + (f' "{name}"' if name else "")

    def elements(self, relationship):
        """The features between which a relationship leads, in order."""
        its = relationship.its
        named = [its.get("origin"), *(its.get("intermediary") or []), its.get("destination")]
        return [self.get(it["id"]) for it in named if it]

    def passages(self):
        """The relationships by which people pass."""
        return [it for it in self["relationship"] if it.category in PASSAGES]
