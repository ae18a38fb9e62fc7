"""Rows of the table with which bench/run ends. Other scripts in Python take `row` from here.

usage: table.py FILE   prints the rows of this file, which has five fields a line between tabulators, as a table
"""
import os
import sys

HEAD = "figure", "found", "yardstick", "ratio", "wanted"


def row(figure, found, yardstick="", ratio="", wanted=""):
    """Adds a row, where bench/run asks for it: what was measured, the figure, the yardstick's, their ratio, and what is wanted of it."""
    path = os.environ.get("BENCH_ROWS")
    if path:
        with open(path, "a", encoding="utf-8") as file:
            file.write("\t".join((figure, found, yardstick, ratio if isinstance(ratio, str) else f"{ratio:.2f}", wanted)) + "\n")


def main(path):
    with open(path, encoding="utf-8") as file:
        rows = [HEAD, *((line.rstrip("\n").split("\t") + [""] * 5)[:5] for line in file)]
    widths = [max(len(it[place]) for it in rows) for place in range(5)]
    for it in [rows[0], tuple("-" * width for width in widths), *rows[1:]]:
        print("  ".join(text.ljust(width) for text, width in zip(it, widths)).rstrip())


if __name__ == "__main__":
    main(sys.argv[1])
