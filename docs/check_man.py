#!/usr/bin/env python3
"""Compares docs/czi_tool.1 with README.md: each command, line of a script, reply, status and refusal that stands in one of them has to
stand in the other.

usage: docs/check_man.py"""
import os
import re
import sys

HERE = os.path.dirname(os.path.abspath(__file__))


def read(name):
    with open(os.path.join(HERE, name), encoding="utf-8") as file:
        return file.read()


def plain(man):
    """The page without its marks: requests of fonts, and the spaces and quotes that they put between words."""
    lines = []
    for line in man.splitlines():
        match = re.match(r"\.(?:BI|BR|B|I|IR|RI) (.*)", line)
        text = match.group(1) if match else line
        if match and line.startswith((".BI", ".BR", ".IR", ".RI")):
            words = re.findall(r'"([^"]*)"|(\S+)', text)
            text = "".join(quoted or word for quoted, word in words)
        lines.append(text)
    return "\n".join(lines)


def section(man, name):
    return re.search(rf"^\.SH {name}\n(.*?)(?=^\.SH |\Z)", man, re.S | re.M).group(1)


def main():
    readme, man = read("../README.md"), read("czi_tool.1")
    rows = [row.strip("|").split("|") for row in readme.splitlines() if row.startswith("| ")]
    firsts = [word for row in rows for word in re.findall(r"`([^`]*)`", row[0])]
    words = {
        "commands": ({line.split()[2] for line in readme.splitlines() if line.startswith("    czi_tool FILE ")}, section(man, "COMMANDS")),
        "script lines": ({first.split()[0] for first in firsts if re.match(r"(add|replace|remove|attach|reattach|detach|meta|undo|region|list|info|map|check)\b", first)}, section(man, "SCRIPTS")),
        "replies": ({" ".join(reply.split()[:2]) if reply.startswith("no ") else "ok" for reply in re.findall(r"`((?:ok|no) [A-Za-z ]*)`", readme)}, section(man, "REPLIES")),
        "refusals": ({" ".join(first.split()[:2]) for first in firsts if first.startswith("refused ")}, section(man, "REFUSALS")),
        "statuses": ({s.strip() for row in rows if re.fullmatch(r"[\d, ]+", row[0].strip()) for s in row[0].split(",")}, section(man, "EXIT STATUS")),
    }
    wrong = 0
    for kind, (wanted, text) in words.items():
        heads = [plain(head) for head in re.findall(r"^\.TP\n(.*)", text, re.M)]
        found = {word.strip(" ,") for head in heads for word in (head.split(", ") if kind in ("statuses", "script lines") else [head])}
        found = {" ".join(w.split()[:2]) if kind in ("refusals", "replies") and not w.startswith("ok") else w.split()[0] for w in found}
        for missing in sorted(wanted - found):
            print(f"{kind}: {missing} of README.md isn't in the page")
        for more in sorted(found - wanted):
            print(f"{kind}: {more} of the page isn't in README.md")
        wrong += len(wanted ^ found)
    print("the page and README.md agree" if not wrong else f"{wrong} differences")
    return 1 if wrong else 0


if __name__ == "__main__":
    sys.exit(main())
