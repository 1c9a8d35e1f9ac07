#!/usr/bin/env python3
"""Kills czi_tool at random moments while it edits a file, and lists the file afterwards.

usage: kill.py [ROUNDS] [TILES]      (100 and 2,000 by default)

Each round makes a file of tiles, begins a script of all seven edits, with payloads of up to 100,000 bytes, and kills the program
(SIGKILL) at a random moment. The tiles that the next opening lists, the attachments and the length of the XML have to be those of
the document after some number of commands, at least as many as replies were said. A kill leaves what was written to the system; that a machine that stops leaves
the same is what the proofs say.
"""
import os
import random
import shutil
import signal
import subprocess
import sys
import tempfile
import time

HERE = os.path.dirname(os.path.abspath(__file__))
TOOL = os.environ.get("CZI_TOOL") or os.path.join(HERE, "..", "crates", "czi_tool", "out", "czi_tool")


def dimensions(number):
    return f"C{number % 4},S{number // 4 % 8},X{4 * (number // 32 % 1024)}:4,Y{2 * (number // 32768)}:2"


def told(number, pixel):
    """A tile as it is listed, behind its number and its place."""
    sizes = {"C": 1, "S": 1, "X": 4, "Y": 2}
    starts = [d.split(":")[0] for d in dimensions(number).split(",")]
    return f"pixel={pixel} comp=0 dims=" + ",".join(f"{s}:{sizes[s[0]]}:{sizes[s[0]]}" for s in starts)


def payload_line(word, number, pixel):
    data = random.randbytes(random.choice((0, 8, 1000, 100000)))
    return f"{word} pixel={pixel} dims={dimensions(number)} meta=5 data={len(data)} att=0\n".encode() + b"<m/>\n" + data + b"\n"


def attachment_line(word, name):
    data = random.randbytes(random.choice((0, 5, 1000, 100000)))
    line = f"{word} guid=00112233-4455-6677-8899-aabbccddeeff type=BIN name={name} data={len(data)}\n".encode() + data + b"\n"
    return line, f"name={name} data={len(data)}"


class Document:
    """What a script makes of a file of tiles."""

    def __init__(self, tiles):
        self.tiles, self.names, self.attachments, self.xml = [(number, 0) for number in range(tiles)], [], [], None
        self.next = tiles

    def told(self):
        return [told(*tile) for tile in self.tiles], list(self.attachments), self.xml

    def remove(self):
        number, _ = self.tiles.pop(random.randrange(len(self.tiles)))
        return f"remove dims={dimensions(number)}\n".encode()

    def add(self):
        self.next += 1
        self.tiles.append((self.next, 1))
        return payload_line("add", self.next, 1)

    def replace(self):
        place = random.randrange(len(self.tiles))
        number, _ = self.tiles[place]
        self.tiles[place] = (number, 2)
        return payload_line("replace", number, 2)

    def attach(self):
        self.next += 1
        line, said = attachment_line("attach", f"n{self.next}")
        self.names.append(f"n{self.next}")
        self.attachments.append(said)
        return line

    def reattach(self):
        if not self.names:
            return self.attach()
        place = random.randrange(len(self.names))
        line, self.attachments[place] = attachment_line("reattach", self.names[place])
        return line

    def detach(self):
        if not self.names:
            return self.attach()
        place = random.randrange(len(self.names))
        del self.attachments[place]
        return f"detach name={self.names.pop(place)}\n".encode()

    def meta(self):
        xml = random.randbytes(random.choice((0, 7, 1000, 100000)))
        self.xml = f"xml={len(xml)} att=1"
        return f"meta xml={len(xml)} att=1\n".encode() + xml + b"?\n"


def commands(tiles, count):
    """A script of so many commands, and what is told after each number of them."""
    document, script = Document(tiles), b""
    documents = [document.told()]
    for _ in range(count):
        edit = random.choice((document.remove, document.add, document.replace, document.attach, document.reattach, document.detach, document.meta))
        script += edit()
        documents.append(document.told())
    return script, documents


def asked(path, query):
    ran = subprocess.run([TOOL, path, query], capture_output=True, text=True)
    if ran.returncode:
        sys.exit(f"the file isn't opened: {ran.stdout.strip()} (status {ran.returncode})")
    return ran.stdout.splitlines()


def listed(path):
    """The tiles of the file, in order, its attachments, and how long its XML is."""
    tiles = [line.split(" ", 3)[3] for line in asked(path, "list")[1:]]
    info = asked(path, "info")
    attachments = [line[line.index("name="):] for line in info if line.startswith("attachment ")]
    return tiles, attachments, None if info[-1] == "metadata none" else info[-1].split(" ", 3)[3]


def started(path, script):
    with open(script, "rb") as file:
        return subprocess.Popen([TOOL, path, "edit"], stdin=file, stdout=subprocess.PIPE)


def copied(whole, path):
    shutil.copy(whole, path)
    if os.path.exists(path + ".jrn"):
        os.remove(path + ".jrn")
    return path


def main():
    rounds = int(sys.argv[1]) if len(sys.argv) > 1 else 100
    tiles = int(sys.argv[2]) if len(sys.argv) > 2 else 2000
    random.seed(1)
    with tempfile.TemporaryDirectory() as folder:
        whole, script = os.path.join(folder, "whole.czi"), os.path.join(folder, "script")
        subprocess.run([sys.executable, os.path.join(HERE, "make_tiles.py"), whole, str(tiles)], check=True)
        text, documents = commands(tiles, 200)
        with open(script, "wb") as file:
            file.write(text)
        path = copied(whole, os.path.join(folder, "killed.czi"))
        began = time.time()
        run = started(path, script)
        said = run.communicate()[0].decode()
        took = time.time() - began
        if said.count("ok ") != 200 or listed(path) != documents[-1]:
            sys.exit("the script isn't done")
        inside = 0
        for turn in range(rounds):
            copied(whole, path)
            run = started(path, script)
            time.sleep(random.uniform(0, took))
            run.send_signal(signal.SIGKILL)
            said = run.communicate()[0].decode()
            done = said.count("\n")
            if listed(path) not in documents[done:done + 2]:
                sys.exit(f"round {turn}: {done} replies were said, and the file lists none of the two documents")
            inside += 0 < done < len(documents) - 1
        print(f"{rounds} kills, {inside} of them inside the script: each file is as after the replies that were said, or one more")


if __name__ == "__main__":
    main()
