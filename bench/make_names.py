"""Writes two copies of the example station whose first unit has a name of so many tags: in `numbers` each tag is first a number and then a text,
in `texts` a text both times, in as many bytes.

usage: make_names.py BASE TAGS
"""
import json
import os
import shutil
import sys

base, tags = sys.argv[1], int(sys.argv[2])
for folder, first in (("numbers", "10"), ("texts", '""')):
    shutil.copytree("examples/station", os.path.join(base, folder))
    path = os.path.join(base, folder, "unit.geojson")
    with open(path) as source:
        collection = json.load(source)
    collection["features"][0]["properties"]["name"] = "NAME"
    name = "{" + ",".join(f'"t{tag:07}":{first},"t{tag:07}":""' for tag in range(tags)) + "}"
    text = json.dumps(collection, separators=(",", ":")).replace('"NAME"', name)
    if len(text) > 33_554_432:
        sys.exit(f"{len(text)} bytes are more than a file may have")
    with open(path, "w") as target:
        target.write(text)
