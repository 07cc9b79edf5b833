"""Commits batches of small updates by SQLite, with its log written ahead and full syncs, and prints the seconds that they took.
Usage: commit.py FILE COMMITS UPDATES BYTES"""
import sqlite3
import sys
import time

path, commits, updates, size = sys.argv[1], *map(int, sys.argv[2:])
base = sqlite3.connect(path, isolation_level=None)
base.execute("PRAGMA journal_mode = WAL")
base.execute("PRAGMA synchronous = FULL")
base.execute("CREATE TABLE pieces (id INTEGER PRIMARY KEY, bytes BLOB)")
base.executemany("INSERT INTO pieces VALUES (?, ?)", ((id, bytes(size)) for id in range(updates)))
start = time.perf_counter()
for commit in range(commits):
    piece = bytes([commit % 256]) * size
    base.execute("BEGIN")
    base.executemany("UPDATE pieces SET bytes = ? WHERE id = ?", ((piece, id) for id in range(updates)))
    base.execute("COMMIT")
print(f"{time.perf_counter() - start:.6f}")
