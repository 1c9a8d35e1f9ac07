#!/usr/bin/env python3
"""Times one edit beside what else would make it durable, medians of five, warm cache.

For `meta` (metadata of 4,096 bytes of XML) and `remove` (of the last tile) on a file of TILES tiles: a run of czi_tool with the
edit and one without any; the same reads, writes, syncs and cuts as the run with the edit by a C program (replay.c), from what strace
told; and one commit of SQLite of as many bytes as the edit put into the image, with a rollback journal and with a write-ahead log,
synced in full, alone and with opening and closing the database.

usage: bench/commit.py [TILES]      (10,000 if not given; needs gcc, strace and python3)
"""
import os
import pathlib
import shutil
import sqlite3
import statistics
import subprocess
import sys
import tempfile
import time

BENCH = pathlib.Path(__file__).resolve().parent
TOOL = os.environ.get("CZI_TOOL", str(BENCH.parent / "crates/czi_tool/out/czi_tool"))
TURNS = 5


def fresh(folder):
    """A copy of the sample without a journal, in the cache."""
    shutil.copy(folder / "many.czi", folder / "again.czi")
    (folder / "again.czi.jrn").unlink(missing_ok=True)
    return (folder / "again.czi").read_bytes()[:0]


def timed(command, script):
    start = time.perf_counter()
    subprocess.run(command, input=script, stdout=subprocess.DEVNULL, check=True)
    return time.perf_counter() - start


def traced(folder, script):
    """The calls of one run with the script, as a plan for replay.c, and how many bytes it wrote to the image."""
    fresh(folder)
    calls = folder / "calls.txt"
    kinds = "trace=read,pread64,pwrite64,fsync,ftruncate"
    command = ["strace", "-f", "-y", "-s", "0", "-o", calls, "-e", kinds, TOOL, folder / "again.czi", "edit"]
    timed(command, script)
    with open(folder / "plan.txt", "w") as out:
        subprocess.run([sys.executable, BENCH / "count_calls.py", "plan", calls], stdout=out, check=True)
    lines = (folder / "plan.txt").read_text().splitlines()
    return sum(int(line.split()[2]) for line in lines if line.startswith("write i"))


def of_sqlite(folder, mode, size):
    """Seconds of one commit of so many bytes, and of it with opening and closing."""
    path = folder / f"{mode}.db"
    for stale in folder.glob(f"{mode}.db*"):
        stale.unlink()
    with sqlite3.connect(path) as base:
        base.execute(f"pragma journal_mode={mode}")
        base.execute("create table part (bytes blob)")
    base.close()
    part = os.urandom(size)
    start = time.perf_counter()
    base = sqlite3.connect(path, isolation_level=None)
    base.execute(f"pragma journal_mode={mode}")
    base.execute("pragma synchronous=full")
    begun = time.perf_counter()
    base.execute("begin immediate")
    base.execute("insert into part values (?)", (part,))
    base.execute("commit")
    done = time.perf_counter()
    base.close()
    return done - begun, time.perf_counter() - start


def told(name, seconds):
    print(f"{name}: {statistics.median(seconds) * 1000:.1f} ms")


def compare(folder, name, script):
    size = traced(folder, script)
    print(f"{name}: {size} bytes into the image")
    plain, edited, again = [], [], []
    alone = {"delete": [], "wal": []}
    whole = {"delete": [], "wal": []}
    for _ in range(TURNS):
        fresh(folder)
        plain.append(timed([TOOL, folder / "again.czi", "edit"], b""))
        fresh(folder)
        edited.append(timed([TOOL, folder / "again.czi", "edit"], script))
        fresh(folder)
        replay = [folder / "replay", folder / "plan.txt", folder / "again.czi", folder / "again.czi.jrn"]
        again.append(timed(replay, script))
        for mode in alone:
            commit, run = of_sqlite(folder, mode, size)
            alone[mode].append(commit)
            whole[mode].append(run)
    told("  czi_tool without an edit", plain)
    told("  czi_tool with the edit", edited)
    told("  the same calls by replay.c", again)
    told("  SQLite, rollback journal: the commit", alone["delete"])
    told("  SQLite, rollback journal: with opening and closing", whole["delete"])
    told("  SQLite, write-ahead log: the commit", alone["wal"])
    told("  SQLite, write-ahead log: with opening and closing", whole["wal"])


def main():
    tiles = int(sys.argv[1]) if len(sys.argv) > 1 else 10_000
    with tempfile.TemporaryDirectory() as name:
        folder = pathlib.Path(name)
        subprocess.run(["gcc", "-O2", "-Wall", "-o", folder / "replay", BENCH / "replay.c"], check=True)
        subprocess.run([sys.executable, BENCH / "make_tiles.py", folder / "many.czi", str(tiles)], check=True)
        xml = b"x" * 4096
        compare(folder, "meta", b"meta xml=%d att=0\n%s\n" % (len(xml), xml))
        number = tiles - 1
        place = f"C{number % 4},S{number // 4 % 8},X{4 * (number // 32 % 1024)}:4,Y{2 * (number // 32768)}:2"
        compare(folder, "remove", f"remove dims={place}\n".encode())


if __name__ == "__main__":
    main()
