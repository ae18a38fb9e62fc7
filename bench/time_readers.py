"""Times readers of JSON over each file, in turns, and prints their bytes a second and the tree's bytes for each byte.

usage: time_readers.py ROUNDS PROGRAM RAPIDJSON_PROGRAM FILE ..
PROGRAM takes a reader's name and a file; both programs print the seconds that reading took, without loading the file.
"""
import os
import subprocess
import sys

from table import row

WANTED = {"features.json": {"rapidjson": 1.4, "json": 1.8, "tree": 3}, "rings.json": {"rapidjson": 1.2, "json": 1.3, "tree": 3.5}}


def speed(seconds, size):
    return f"{size / seconds / 1e6:.0f} MB/s"


def run(command):
    child = subprocess.Popen(command, stdout=subprocess.PIPE)
    seconds = float(child.stdout.read())
    child.stdout.close()
    _, status, usage = os.wait4(child.pid, 0)
    child.returncode = os.waitstatus_to_exitcode(status)
    if child.returncode != 0:
        sys.exit(f"{command}: status {child.returncode}")
    return seconds, usage.ru_maxrss * 1024


def measure(rounds, program, rapidjson, path):
    size = os.path.getsize(path)
    commands = {
        "exact_json": [program, "exact", path],
        "json": [program, "kit", path],
        "rapidjson": [rapidjson, path],
        "load": [program, "load", path],
    }
    least = {name: float("inf") for name in commands}
    peak = {name: 0 for name in commands}
    for _ in range(rounds):
        for name, command in commands.items():
            seconds, bytes_held = run(command)
            least[name] = min(least[name], seconds)
            peak[name] = max(peak[name], bytes_held)
    about = os.path.basename(path)
    wanted = WANTED.get(about, {})
    print(f"{about}: {size / (1 << 20):.1f} MiB")
    for name in ("exact_json", "json", "rapidjson"):
        print(f"  {name}: {least[name]:.3f} s, {speed(least[name], size)}")
    for name in ("rapidjson", "json"):
        ratio = least[name] / least["exact_json"]
        print(f"  ratio exact_json / {name}: {ratio:.2f}")
        row(f"reading {about}", speed(least["exact_json"], size), f"{name} {speed(least[name], size)}", ratio, f"at least {wanted[name]}" if wanted else "")
    tree = (peak["exact_json"] - peak["load"]) / size
    print(f"  tree: {tree:.2f} bytes a byte")
    row(f"tree of {about}", f"{tree:.2f} bytes a byte", wanted=f"at most {wanted['tree']}" if wanted else "")


for path in sys.argv[4:]:
    measure(int(sys.argv[1]), sys.argv[2], sys.argv[3], path)
