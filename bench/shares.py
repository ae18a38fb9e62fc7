"""Prints the shares of making the text, of reading and judging it, and of the ways in the time of `gen`, and the text's megabytes a second.

usage: shares.py TEXT JUDGED WHOLE BYTES   (three times in milliseconds, and the bytes of the text)
"""
import sys

from table import row

text, judged, whole, size = map(float, sys.argv[1:])
acts = whole - text - judged
for name, part in ("text", text), ("reading, rules and graph", judged), ("ways and a closing", acts):
    print(f"{name}: {part:.1f} ms, {100 * part / whole:.0f} %")
speed = f"{size / text / 1000:.0f} MB a second"
print(f"text: {speed}")
row("text of gen 200", speed, wanted="200 MB a second")
