#!/usr/bin/env python3
"""What the gate costs: runs `rt ci` and tells the processor seconds of each crate's library, tests and must-fail edits.

usage: gate.py [NAME ..] [--log FILE]    at the top of the repository; NAME: as `rt ci` takes them

A check is one process of `rattle`, and each is looked at four times a second while it runs: the table counts what it had
used when it was last seen, so each check is short of at most a quarter of a second. What `rt ci` has kept from earlier
runs costs nothing and is 0 here. The log of `rt ci` goes to FILE, or to standard error."""
import collections
import os
import subprocess
import sys
import time

TICK = os.sysconf("SC_CLK_TCK")


def read(path):
    try:
        with open(path, "rb") as it:
            return it.read()
    except OSError:
        return b""


def below(root):
    """The processes that the process `root` started, and those that these started."""
    parents = {}
    for pid in filter(str.isdigit, os.listdir("/proc")):
        stat = read(f"/proc/{pid}/stat").rpartition(b") ")[2].split()
        if len(stat) > 15:
            parents[int(pid)] = int(stat[1]), (int(stat[11]) + int(stat[12])) / TICK, stat[19]
    found, added = {root}, True
    while added:
        more = {pid for pid, (parent, _, _) in parents.items() if parent in found} - found
        found, added = found | more, bool(more)
    return {pid: parents[pid] for pid in found if pid in parents}


def kind_of(pid):
    """The crate that a check is of and what of it is checked, or nothing for another process."""
    words = read(f"/proc/{pid}/cmdline").decode(errors="replace").split("\0")
    if not words or not words[0].endswith("/rattle") or "--crate-name" not in words:
        return None
    try:
        place = os.readlink(f"/proc/{pid}/cwd")
    except OSError:
        return None
    crate = words[words.index("--crate-name") + 1]
    if "rt-edit" in place:
        return crate.removesuffix("_tests"), "edits"
    return crate.removesuffix("_tests"), "tests" if "--test" in words or crate.endswith("_tests") else "library"


def watch(run):
    used, kinds = {}, {}
    while run.poll() is None:
        for pid, (_, seconds, begun) in below(run.pid).items():
            kind = kinds.get((pid, begun)) or kind_of(pid)
            if kind:
                kinds[pid, begun] = kind
                used[pid, begun] = seconds
        time.sleep(0.25)
    table = collections.defaultdict(collections.Counter)
    for key, seconds in used.items():
        crate, kind = kinds[key]
        table[crate][kind] += seconds
    return table


def main():
    words = sys.argv[1:]
    log = sys.stderr
    if "--log" in words:
        at = words.index("--log")
        log = open(words[at + 1], "w")
        del words[at : at + 2]
    begun = time.time()
    run = subprocess.Popen(["rt", "ci", *words], stdin=subprocess.DEVNULL, stdout=log, stderr=log)
    table = watch(run)
    parts = "library", "tests", "edits"
    print("| crate | library | tests | edits |\n|---|---|---|---|")
    for crate in sorted(table):
        print(f"| {crate} | " + " | ".join(f"{table[crate][part]:.0f}" for part in parts) + " |")
    sums = {part: sum(row[part] for row in table.values()) for part in parts}
    print("| all | " + " | ".join(f"{sums[part]:.0f}" for part in parts) + " |")
    print(f"libraries and tests {sums['library'] + sums['tests']:.0f} s, edits with their seeds {sums['edits']:.0f} s,"
          f" together {sum(sums.values()):.0f} s of processors; {time.time() - begun:.0f} s passed; exit {run.returncode}")
    return run.returncode


sys.exit(main())
