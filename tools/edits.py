#!/usr/bin/env python3
"""Brings the edits that must fail to today's spelling: each keeps its name, its file and its wrong meaning. Run once, at the top, after tools/respell.py.

An edit's texts are lines, or parts of lines, of a source or a definition. Each is turned as the scripts turned its file: words in snake case, a projection written tight, a
parameter's values by today's names. What it can't turn so that the old text stands once in its file, it prints, and leaves as it is: those are turned by hand.
"""

import glob
import os
import re
import subprocess
import sys

sys.path.insert(0, os.path.dirname(os.path.realpath(__file__)))
from respell import TOKEN, field_names, respelled

FIELDS = field_names()


def turned(text):
    text = text.replace("′", "'")
    # names with hyphens are lemmas' or fields'; a definition's has underscores
    text = TOKEN.sub(lambda m: respelled(m.group(0), FIELDS), text)
    text = re.sub(r"(?<=[A-Za-z0-9'])-(?=[a-z])", "_", text) if "-" in text else text
    text = re.sub(r"Rattle·(\w+)·specs\.specs\.", r"Rattle.\1.specs.", text).replace("Rattle·", "Rattle.")
    text = re.sub(r"(?<=Nat\.)_([-+*/%])_", r"◌\1◌", text)
    text = text.replace("«look_ahead»", "look_ahead").replace("«fetch_time»", "fetch_time")
    # a projection of a call: the call is in brackets, and the field behind them
    call = r"([A-Za-z_][A-Za-z0-9_']*(?: (?:[A-Za-z0-9_']+|\([^()]*\)))+) \.([A-Za-z_0-9]+)"
    text = re.sub(r"\(" + call + r"\)", r"(\1).\2", text)
    text = re.sub(r"(?<=→ )" + call + r"(?= ≡)", r"(\1).\2", text)
    # a projection, tight, and without the brackets that it had
    text = re.sub(r" \.(?=[A-Za-z0-9])", ".", text)
    again = None
    while again != text:
        again = text
        text = re.sub(r"\(([A-Za-z_][A-Za-z0-9_']*(?:\.[A-Za-z0-9_']+)+)\)", r"\1", text)
    return text


def candidates(text):
    """The ways in which a text may have been turned."""
    yield text
    one = turned(text)
    yield one
    for now in ("now", "old", "new"):
        yield re.sub(r"\(now ([a-z_]+)\)|\bnow ([a-z_]+)\b", lambda m: f"{m.group(1) or m.group(2)}.{now}", one)
        yield re.sub(r"now \(([a-z_]+)\.entry\)", rf"\1.{now}", one).replace("(now ", "(")


def main():
    left = 0
    for path in sorted(glob.glob("crates/*/must-fail/*.edit")):
        crate = path.split("/must-fail/")[0]
        with open(path, encoding="utf-8") as edit:
            lines = edit.read().split("\n")
        out, text, said = [], None, False
        for n, line in enumerate(lines):
            if line.startswith("file: "):
                with open(os.path.join(crate, line[6:]), encoding="utf-8") as source:
                    text = source.read()
                definition = line.endswith(".antt")
                out.append(line)
            elif line.startswith("old: "):
                found = [c for c in candidates(line[5:]) if text.count(c) == 1]
                if not found:
                    said = True
                    out.append(line)
                else:
                    out.append("old: " + found[0])
                    way = list(candidates(line[5:])).index(found[0])
            elif line.startswith("new: "):
                # a definition's new text may name what its old text does not
                new = line[5:] if said else turned(line[5:]) if definition else list(candidates(line[5:]))[way]
                out.append("new: " + new)
                if not said:
                    text = text.replace(out[-2][5:], new)
            else:
                out.append(line)
        if said:
            left += 1
            print(path)
        if out != lines:
            with open(path, "w", encoding="utf-8") as edit:
                edit.write("\n".join(out))
    print(f"{left} left by hand")


if __name__ == "__main__":
    main()
