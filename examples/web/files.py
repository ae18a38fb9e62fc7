"""Files as the scripts beside this read and write them."""
import json
import os


class Refused(Exception):
    """Why no site is written, in words."""


def read(path):
    with open(path, "rb") as file:
        return file.read()


def write(path, data):
    """Whoever reads meanwhile gets the old bytes or the new ones, whole."""
    os.makedirs(os.path.dirname(path), exist_ok=True)
    with open(path + ".new", "wb") as file:
        file.write(data)
    os.replace(path + ".new", path)


def compact(value):
    return json.dumps(value, ensure_ascii=False, separators=(",", ":")).encode()
