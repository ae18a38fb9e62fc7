"""For killed.py and cut.py: changes of the example station, the requests that ask for them, and what docs/HTTP.md says of their replies and of what
is closed behind them."""
import collections
import json
import os
import shutil
import subprocess

TOP = os.path.join(os.path.dirname(os.path.abspath(__file__)), "..")
EXAMPLES = os.path.join(TOP, "examples")
BUILT = os.path.join(TOP, "crates", "venue_cli", "out", "venue_cli")
FOLDERS = ("station", "nolift")
# All profiles that the settings have, in their order.
PROFILES = ("walk", "wheelchair")
HOST = "host: a\r\n"
STAFF = "x-staff-key: desk-key-1\r\n"

# A folder that is published; or a feature that is closed or opened for the profiles that are named, or for all where none is.
Change = collections.namedtuple("Change", "folder feature closes profiles")
# The folder that was published last, and for whom each feature is closed that is.
State = collections.namedtuple("State", "folder closed")


def features_of(folder):
    """What can be closed, in the order in which replies name it."""
    found = []
    for kind in ("opening", "relationship", "unit"):
        with open(os.path.join(EXAMPLES, folder, f"{kind}.geojson"), encoding="utf-8") as file:
            found += [feature["id"] for feature in json.load(file)["features"]]
    return found


FEATURES = {folder: features_of(folder) for folder in FOLDERS}
# Those that are closed and opened: few, so that most are closed already when they are opened, and some that the station without its lift hasn't.
CHOSEN = FEATURES["station"][::4]


def make_base(path):
    """A base of one's own, with the station, the same without its lift, and the settings."""
    os.mkdir(path)
    for folder in FOLDERS:
        shutil.copytree(os.path.join(EXAMPLES, folder), os.path.join(path, folder))
    shutil.copy(os.path.join(EXAMPLES, "venue.toml"), path)


def program_of():
    """The path of the program, built if need be."""
    if "VENUE" in os.environ:
        return os.path.abspath(os.environ["VENUE"])
    subprocess.run(["./venue", "price", "examples/table"], cwd=TOP, stdout=subprocess.DEVNULL, check=True)
    return BUILT


def compile_library(folder):
    """The path of disk_calls.c as a library, or None where there is no C compiler."""
    if not shutil.which("cc"):
        return None
    library = os.path.join(folder, "disk_calls.so")
    source = os.path.join(TOP, "checks", "disk_calls.c")
    subprocess.run(["cc", "-O2", "-std=c11", "-D_GNU_SOURCE", "-shared", "-fPIC", "-o", library, source], check=True)
    return library


def any_change(draw, publications):
    """A change of any kind, of which about one in so many publishes a folder."""
    if draw.randrange(publications) == 0:
        return Change(draw.choice(FOLDERS), None, None, None)
    named = draw.choice(((), (), PROFILES[:1], PROFILES[1:], PROFILES))
    return Change(None, draw.choice(CHOSEN), draw.random() < 0.6, named)


def get(path, more=""):
    return f"GET /v1/{path} HTTP/1.1\r\n{HOST}{more}\r\n".encode()


def post(change, more=""):
    """The request that asks for a change."""
    if change.folder:
        path, body = "publish", {"folder": change.folder}
    else:
        path, body = "closures", {"feature": change.feature, "closed": change.closes}
        if change.profiles:
            body["profiles"] = change.profiles
    text = json.dumps(body)
    return f"POST /v1/{path} HTTP/1.1\r\n{HOST}{STAFF}{more}content-length: {len(text)}\r\n\r\n{text}".encode()


def is_known(state, change):
    """Whether the feature of a change can be closed there."""
    return change.feature in FEATURES[state.folder]


def closed_for(state, change):
    """For whom the feature of a change is closed behind it."""
    before = state.closed.get(change.feature, ())
    named = change.profiles or PROFILES
    return tuple(name for name in PROFILES if (change.closes if name in named else name in before))


def after(state, change):
    """The state behind a change, or None of one that adds no version."""
    if change.folder:
        return State(change.folder, {feature: names for feature, names in state.closed.items() if feature in FEATURES[change.folder]})
    if not is_known(state, change):
        return None
    names = closed_for(state, change)
    if names == state.closed.get(change.feature, ()):
        return None
    closed = {feature: others for feature, others in state.closed.items() if feature != change.feature}
    if names:
        closed[change.feature] = names
    return State(state.folder, closed)


def dropped(state, change):
    """What was closed and can't be closed any more once the folder of a change is published."""
    return [feature for feature in FEATURES[state.folder] if feature in state.closed and feature not in FEATURES[change.folder]]


def told_of_closure(change, is_changed, version):
    """The body that tells of a feature which is closed or open as asked."""
    body = {"changed": is_changed, "closed": change.closes, "feature": change.feature, "version": version}
    if change.profiles:
        body["profiles"] = list(change.profiles)
    return body


def reply_to(state, change, version):
    """The status and the body of the reply to a change, where this version of this state stood before it."""
    if change.folder:
        return 200, {"dropped": dropped(state, change), "version": version + 1}
    if not is_known(state, change):
        return 404, {"error": "no_such_feature"}
    is_changed = after(state, change) is not None
    return 200, told_of_closure(change, is_changed, version + is_changed)


def rows(state):
    """What GET /v1/closures lists."""
    closed = [(feature, state.closed[feature]) for feature in FEATURES[state.folder] if feature in state.closed]
    return [feature if names == PROFILES else {"feature": feature, "profiles": list(names)} for feature, names in closed]


def replies_of(text):
    """The statuses and the bodies of the whole replies in these bytes, each with the place of its end."""
    found, place = [], 0
    while True:
        head, gap, rest = text[place:].partition(b"\r\n\r\n")
        if not gap:
            return found
        lines = head.split(b"\r\n")
        (count,) = [int(line.split(b":")[1]) for line in lines if line.startswith(b"content-length:")]
        if len(rest) < count:
            return found
        place += len(head) + 4 + count
        found.append((int(lines[0].split()[1]), json.loads(rest[:count]), place))
