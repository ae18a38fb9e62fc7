"""What is amiss where a rule is broken, as the files have it: the value that stands there, how far a corner is out, where a text breaks."""
import json
import os
import re
import statistics
import tomllib

from advice.plane import is_inside, to_border
from advice.scale import degree

# Of each property by its number: its name, the form that C6 asks for, and the type of feature that it names.
PROPERTIES = {
    1: ("address_id", "null or a UUID", "address"),
    2: ("building_ids", "null or a list of UUIDs", "building"),
    3: ("level_id", "a UUID", "level"),
    4: ("unit_id", "a UUID", "unit"),
    5: ("unit_ids", "a list of UUIDs, not empty", "unit"),
    6: ("anchor_id", "a UUID", "anchor"),
    7: ("origin", 'null or an object as {"id":"..","feature_type":"unit"}', None),
    8: ("intermediary", 'null or a list of objects as {"id":"..","feature_type":"opening"}', None),
    9: ("destination", 'null or an object as {"id":"..","feature_type":"unit"}', None),
    10: ("category", "a text", None),
    11: ("restriction", "null or a text", None),
    12: ("accessibility", 'null or a list of texts, as ["wheelchair"]', None),
    13: ("access_control", 'null or a list of texts, as ["badgereader"]', None),
    14: ("door", 'null or an object whose `type` is null or a text, as {"type":"sliding"}', None),
    15: ("display_point", 'null or an object as {"type":"Point","coordinates":[10.5,50.25]}', None),
    16: ("name", 'null or an object of texts, as {"en":"Tickets","de":"Kasse"}', None),
}
FORMS = {kind: "a Point" for kind in ("amenity", "anchor")} | {"opening": "a LineString"}
FORMS |= {kind: "null" for kind in ("address", "building", "occupant")}


def shown(value, most=80):
    """A value as it stands in the file."""
    text = json.dumps(value, ensure_ascii=False, separators=(",", ":"))
    return text if len(text) <= most else text[: most - 2] + ".."


def told(raw, it):
    """What is amiss, in words."""
    if it.rule in BY_RULE:
        return BY_RULE[it.rule](raw, it)
    return "it is so" if it.item else f"{it.file} is so"


def toml_fault(base):
    try:
        with open(os.path.join(base, "venue.toml"), "rb") as file:
            tomllib.loads(file.read().decode("utf-8-sig"))
    except ValueError as error:
        return str(error)
    return "it is taken by other readers of TOML"


def bytes_of(raw, it):
    with open(os.path.join(raw.path, it.file), "rb") as file:
        return file.read()


def at(text, place):
    """A place of a text as line and column, both from 1."""
    return f"line {text.count(chr(10), 0, place) + 1}, column {place - text.rfind(chr(10), 0, place)}"


def unreadable(raw, it):
    """Where a file stops being JSON."""
    data = bytes_of(raw, it)
    if not data:
        return "the file is empty"
    try:
        text = data.decode("utf-8-sig")
    except UnicodeDecodeError as error:
        return f"{at(data[: error.start].decode(errors='replace') + ' ', error.start)}: a byte that is no UTF-8"
    try:
        json.loads(text)
    except json.JSONDecodeError as error:
        rest = text[error.pos : error.pos + 20].split("\n")[0]
        stands = f"and there stands {rest}" if rest else "and the line ends there" if text[error.pos :] else "and the file ends there"
        return f"{at(text, error.pos)}: {error.msg[0].lower() + error.msg[1:]}, {stands}"
    except RecursionError:
        return "it nests too deep"
    odd = re.search(r"-?(?:NaN|Infinity)", re.sub(r'"(?:[^"\\]|\\.)*"', lambda m: '"' * len(m[0]), text))
    return f"{at(text, odd.start())}: {odd[0]} is no number of JSON" if odd else "some readers take it; look for lone halves of surrogate pairs, as \\ud800"


def nested(raw, it):
    depth, text = 0, bytes_of(raw, it).decode("utf-8-sig", errors="replace")
    for found in re.finditer(r'"(?:[^"\\]|\\.)*"|[\[{\]}]', text):
        depth += {"[": 1, "{": 1, "]": -1, "}": -1}.get(found[0], 0)
        if depth > 64:
            return f"{at(text, found.start())} is 65 deep"
    return "it nests more than 64 deep"


def member(name):
    """What stands in a member of the manifest or the feature."""
    def tell(raw, it):
        holder = raw.files.get(it.file) if it.file == "manifest.json" else it.its if name in ("ordinal", "direction") else it.item
        if not isinstance(holder, dict):
            return f"it is {shown(holder)}"
        return f"`{name}` is {shown(holder[name])}" if name in holder else f"there is no `{name}`"
    return tell


def collection(raw, it):
    found = raw.files.get(it.file)
    if not isinstance(found, dict):
        return f"the file is {shown(found)}"
    if found.get("type") != "FeatureCollection":
        return f"its `type` is {shown(found.get('type'))}"
    return f"its `features` is {shown(found['features'])}" if "features" in found else "it has no `features`"


def feature(raw, it):
    found = raw.items(it.file)[it.index]
    if not isinstance(found, dict):
        return f"the item is {shown(found)}"
    wrong = "type" if found.get("type") != "Feature" else "properties"
    return f"its `{wrong}` is {shown(found[wrong])}" if wrong in found else f"it has no `{wrong}`"


def geometry(raw, it):
    found, asked = it.item.get("geometry"), FORMS.get(it.file.split(".")[0], "a Polygon or a MultiPolygon")
    return f"its geometry is {shown(found.get('type')) if isinstance(found, dict) else shown(found)}, and {it.file} asks for {asked}"


def form_of(it):
    """The form that a finding of C6 asks for."""
    name, form, _ = PROPERTIES[it.member % 64]
    is_free = name in ("level_id", "anchor_id") and it.file.split(".")[0] in ("fixture", "kiosk", "detail")
    return f"null or {form}" if is_free else form


def of_form(raw, it):
    form = form_of(it)
    has = f"it is {shown(it.value)}" if it.is_there else "it isn't there"
    return f"{has}, and is to be {form}"


def venues(raw, it):
    return f"it has {len(raw.items(it.file))} venues" if raw.has(it.file) else "there is no venue.geojson"


def missing_name(raw, it):
    return f"it names {shown(it.named_id)}, and no feature has this identifier"


def other_type(raw, it):
    found = raw.of_id(it.named_id)
    has = " and ".join(f"{name} {index}" for name, index in found) or "none"
    said = it.value.get("feature_type") if isinstance(it.value, dict) else it.wanted
    return f"it names {shown(it.named_id)}, which is {has}, and asks for a feature of type `{said}`"


def twice(raw, it):
    name, index = raw.of_id(it.id)[0]
    label = raw.named(name, index)
    return f"{name} {index}{f' {shown(label)}' if label else ''} has the identifier {it.id} too"


def lists(found, depth):
    """The lists of positions of a geometry, in the order in which rings are numbered."""
    if depth == 0:
        return [found]
    return [it for inner in found if isinstance(found, list) and isinstance(inner, list) for it in lists(inner, depth - 1)]


def rings_of(item):
    shape = item.get("geometry") if isinstance(item, dict) else None
    depth = {"Polygon": 1, "MultiPolygon": 2, "LineString": 0, "Point": -1}.get(shape.get("type")) if isinstance(shape, dict) else None
    if depth is None:
        return []
    return [[shape.get("coordinates")]] if depth < 0 else lists(shape.get("coordinates") or [], depth)


def is_position(it):
    numbers = it[:2] if isinstance(it, list) else []
    return len(numbers) == 2 and all(isinstance(n, (int, float)) and not isinstance(n, bool) for n in numbers) and abs(it[0]) <= 180 and abs(it[1]) <= 90


def position(raw, it):
    for number, ring in enumerate(rings_of(it.item)):
        for place, found in enumerate(ring if isinstance(ring, list) else []):
            if not is_position(found):
                return f"position {place} of ring {number} is {shown(found)}" if len(rings_of(it.item)) > 1 else f"position {place} is {shown(found)}"
    return f"its coordinates are {shown((it.item.get('geometry') or {}).get('coordinates'))}"


def unclosed(raw, it):
    kind = (it.item.get("geometry") or {}).get("type")
    for number, ring in enumerate(rings_of(it.item)):
        if kind == "LineString" and len(ring) < 2:
            return f"the line has {len(ring)} position{'s' if len(ring) != 1 else ''}, and needs two"
        if kind in ("Polygon", "MultiPolygon") and len(ring) < 4:
            return f"ring {number} has {len(ring)} positions, and needs four, the last like the first"
        if kind in ("Polygon", "MultiPolygon") and ring[0][:2] != ring[-1][:2]:
            return f"ring {number} begins at {shown(ring[0])} and ends at {shown(ring[-1])}"
    return f"its coordinates are {shown((it.item.get('geometry') or {}).get('coordinates'))}"


def crossing(raw, it):
    ring = rings_of(it.item)[it.member]
    edges = list(zip(ring, ring[1:]))[:2000]
    for k, (a, b) in enumerate(edges):
        for c, d in edges[k + 2 :]:
            t = met(a, b, c, d)
            if t is not None:
                return f"ring {it.member}: the edge from {shown(a)} to {shown(b)} crosses that from {shown(c)} to {shown(d)}"
    return f"ring {it.member} has edges that cross"


def met(a, b, c, d):
    """Where along the first edge the second one crosses it, None where it doesn't."""
    (ax, ay), (bx, by), (cx, cy), (dx, dy) = (p[:2] for p in (a, b, c, d))
    whole = (bx - ax) * (dy - cy) - (by - ay) * (dx - cx)
    if not whole:
        return None
    t = ((cx - ax) * (dy - cy) - (cy - ay) * (dx - cx)) / whole
    u = ((cx - ax) * (by - ay) - (cy - ay) * (bx - ax)) / whole
    return t if 0 < t < 1 and 0 < u < 1 else None


def hole(raw, it):
    rings = rings_of(it.item)
    return f"ring {it.member}, a hole, has {shown(farthest(rings[it.member], rings[:1])[1])} outside the outer ring"


def flat(raw, it):
    return f"ring {it.member} is {shown(rings_of(it.item)[it.member])}, which encloses nothing"


def farthest(points, rings):
    """How many metres the farthest of some points is outside of rings, and which it is."""
    points = [p for p in points if is_position(p)]
    x, y = (length / 100 for length in degree(points[0][1])) if points else (1, 1)
    rings = [[(p[0] * x, p[1] * y) for p in ring if is_position(p)] for ring in rings]
    far = lambda p: 0 if is_inside(p, rings) else to_border(p, rings)
    return max(((far((p[0] * x, p[1] * y)), p) for p in points), key=lambda row: row[0], default=(0, None))


def holder(raw, it, name):
    """The feature that a property names, its first where it is a list."""
    found = it.its.get(name)
    its = raw.of_id(found[0] if isinstance(found, list) and found else found)
    return its[0] if its else (None, 0)


def beyond(name):
    def tell(raw, it):
        over, index = holder(raw, it, name)
        points = [p for ring in rings_of(it.item) for p in ring]
        far, which = farthest(points, rings_of(raw.item(over, index)) if over else [])
        label = raw.named(over, index) if over else None
        return f"{shown(which)} is {far:.{1 if far >= 1 else 3}f} m outside of {over} {index}{f' {shown(label)}' if label else ''}, its `{name}`"
    return tell


def spread(raw, it):
    points = [(p, name, k) for name in raw.files for k, item in enumerate(raw.items(name)) for ring in rings_of(item) for p in ring if is_position(p)]
    middle = [statistics.median(p[axis] for p, _, _ in points) for axis in (0, 1)]
    p, name, k = max(points, key=lambda row: max(abs(row[0][axis] - middle[axis]) for axis in (0, 1)))
    return f"most positions are near {shown(middle)}, and {name} {k} ({raw.item(name, k).get('id')}) has {shown(p)}"


def sizes(raw, it):
    return f"the folder has {sum(len(raw.items(name)) for name in raw.files):,} features"


def ends(raw, it):
    between = it.its.get("intermediary") or []
    return f"it names {len(between) + sum(it.its.get(name) is not None for name in ('origin', 'destination'))} features"


def longest(raw, it):
    return f"its longest ring has {max(map(len, rings_of(it.item)), default=0):,} positions"


BY_RULE = {
    "F1": lambda raw, it: "there is none",
    "F2": lambda raw, it: f"it has {len(bytes_of(raw, it)):,} bytes",
    "F3": unreadable,
    "F4": nested,
    "M1": member("version"),
    "M2": member("created"),
    "M3": member("language"),
    "C1": collection,
    "C2": feature,
    "C3": member("id"),
    "C4": lambda raw, it: f'{member("feature_type")(raw, it)}, and is to be "{it.file.split(".")[0]}"',
    "C5": geometry,
    "C6": of_form,
    "V1": venues,
    "L1": member("ordinal"),
    "Q1": member("direction"),
    "S1": sizes,
    "S3": longest,
    "S4": ends,
    "G1": position,
    "G2": unclosed,
    "C7": twice,
    "X1": missing_name,
    "X2": other_type,
    "G6": spread,
    "G3": crossing,
    "G4": hole,
    "G5": flat,
    "K1": beyond("level_id"),
    "K2": beyond("unit_id"),
    "K3": beyond("unit_ids"),
    "K4": beyond("level_id"),
    "S2": lambda raw, it: "the folder has more than 1,000,000 positions",
    "S5": lambda raw, it: "it has more than 4,096 openings, anchors and amenities",
    "S6": lambda raw, it: "the units of the folder have so many openings, anchors and amenities that ways across them would be more than 20,000,000",
    "S7": lambda raw, it: "the folder has more than 400,000 places and corners",
    "S8": lambda raw, it: "the units of the folder have so many places, corners and edges that looking through them would take too long",
}
