#!/usr/bin/env python3
"""Makes each system call of a small script of edits fail in turn, and kills czi_tool in each, by strace's fault injection.

usage: faults.py

The script makes each of the seven edits of crates/czi_tool/data/image.czi. What `info` tells after each run has to be that of the
document after as many commands as replies were said, or one more. Calls of the program's start (of the loader) are counted
too.
"""
import collections
import os
import shutil
import subprocess
import sys
import tempfile

HERE = os.path.dirname(os.path.abspath(__file__))
TOOL = os.environ.get("CZI_TOOL") or os.path.join(HERE, "..", "crates", "czi_tool", "out", "czi_tool")
SAMPLE = os.path.join(HERE, "..", "crates", "czi_tool", "data", "image.czi")
COMMANDS = [
    b"remove dims=X0:16,Y0:16,C0,S0\n",
    b"add pixel=0 dims=X32:16,Y0:16,C0,S1 meta=5 data=256 att=0\n<m/>\n" + bytes(range(256)) + b"\n",
    b"replace pixel=1 dims=X0:32:16,Y0:16:8,C0 meta=0 data=256 att=3\n" + bytes(range(255, -1, -1)) + b"att\n",
    b"attach guid=00112233-4455-6677-8899-aabbccddeeff type=TXT name=notes data=5\nhello\n",
    b"reattach guid=00112233-4455-6677-8899-aabbccddeeff type=TXT name=notes data=2\nhi\n",
    b"meta xml=7 att=1\n<meta/>?\n",
    b"detach name=notes\n",
]


def fresh(path):
    shutil.copy(SAMPLE, path)
    if os.path.exists(path + ".jrn"):
        os.remove(path + ".jrn")


def told(path):
    ran = subprocess.run([TOOL, path, "info"], capture_output=True)
    return ran.returncode, ran.stdout


def documents(path):
    """What is told after each number of commands."""
    lists = []
    for count in range(len(COMMANDS) + 1):
        fresh(path)
        subprocess.run([TOOL, path, "edit"], input=b"".join(COMMANDS[:count]), stdout=subprocess.DEVNULL, check=True)
        lists.append(told(path))
    return lists


def injected(path, call, fault, number):
    """Runs the script with a fault at the call with this number: the status and what was said, or None where there is none."""
    trace = path + ".trace"
    rule = f"inject={call}:{fault}:when={number}"
    words = ["strace", "-f", "-o", trace, "-e", f"trace={call}", "-e", rule, TOOL, path, "edit"]
    ran = subprocess.run(words, input=b"".join(COMMANDS), stdout=subprocess.PIPE, stderr=subprocess.DEVNULL)
    with open(trace) as file:
        told = file.read()
    return (ran.returncode, ran.stdout) if "INJECTED" in told or "SIGKILL" in told else None


def main():
    with tempfile.TemporaryDirectory() as folder:
        path = os.path.join(folder, "image.czi")
        wanted = documents(path)
        for fault in ("error=EIO", "signal=KILL"):
            for call in ("pwrite64", "fsync", "ftruncate", "write"):
                statuses = collections.Counter()
                for number in range(1, 1000):
                    fresh(path)
                    end = injected(path, call, fault, number)
                    if end is None:
                        break
                    status, said = end
                    statuses[status] += 1
                    done = said.count(b"ok ")
                    if told(path) not in wanted[done:done + 2]:
                        sys.exit(f"{fault} at {call} {number}: {said} was said, and the file is of another document")
                print(f"{fault} at each {call}: " + (", ".join(f"{n} times status {s}" for s, n in sorted(statuses.items())) or "none"))


if __name__ == "__main__":
    main()
