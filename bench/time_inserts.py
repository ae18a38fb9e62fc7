"""What journal.sh asks of SQLite and of `cp`: a thousand rows of 21 bytes, each inserted in a transaction of its own into a table of one column
(journal_mode=WAL, synchronous=FULL), and ten copies of a file of 32 MiB, each with a sync. Prints the seconds of one of each.

usage: time_inserts.py FOLDER   (an empty folder on the disk to be measured)
"""
import os
import shutil
import sqlite3
import sys
import time

ROWS, COPIES = 1_000, 10
folder = sys.argv[1]
base = sqlite3.connect(f"{folder}/rows.db", isolation_level=None)
base.execute("PRAGMA journal_mode=WAL")
base.execute("PRAGMA synchronous=FULL")
base.execute("CREATE TABLE changes (record BLOB)")
began = time.perf_counter()
for number in range(ROWS):
    base.execute("INSERT INTO changes VALUES (?)", (bytes(19) + number.to_bytes(2, "big"),))
print(f"closure {(time.perf_counter() - began) / ROWS:.6f}")
base.close()

with open(f"{folder}/folder.bin", "wb") as file:
    file.write(b"\7" * 33_554_432)
    file.flush()
    os.fsync(file.fileno())
began = time.perf_counter()
for number in range(COPIES):
    shutil.copyfile(f"{folder}/folder.bin", f"{folder}/copy{number}.bin")
    with open(f"{folder}/copy{number}.bin", "rb") as file:
        os.fsync(file.fileno())
print(f"publication {(time.perf_counter() - began) / COPIES:.6f}")
