#!/usr/bin/env python3
"""Brings the repository's own names to the spelling of today's Rattle: words in snake case, types in camel case, a dash where it joins
two names.

usage: python3 tools/respell.py links    at the top, before the kit's port.py: a link below crates/ becomes a copy of what it names
       python3 tools/respell.py names    at the top, after it: definitions, lemmas and fields that respell.tsv lists, in .antt and .rt files

A row of respell.tsv is the name as port.py leaves it, the name as it is written now, and, where one name means several things, the files
that the row is for. Functions of src/ and exported names keep theirs.
"""

import os
import re
import shutil
import sys

HERE = os.path.dirname(os.path.realpath(__file__))
WORD = r"""[^\s(){}.;,@"«»]+"""


def rows():
    everywhere, inside = {}, {}
    with open(os.path.join(HERE, "respell.tsv"), encoding="utf-8") as lines:
        for line in lines:
            old, new, *files = line.rstrip("\n").split("\t")
            if files:
                for f in files[0].split(" "):
                    inside.setdefault(f, {})[old] = new
            else:
                everywhere[old] = new
    return everywhere, inside


def sources():
    for folder, dirs, files in os.walk("crates"):
        dirs[:] = sorted(d for d in dirs if d != "out")
        for f in sorted(files):
            if f.endswith((".rt", ".antt")):
                yield os.path.join(folder, f)


def in_code(line, table):
    """Words that mean several things are turned outside comments alone."""
    code, dashes, comment = line.partition("--")
    return re.sub(WORD, lambda m: table.get(m[0], m[0]), code) + dashes + comment


def names():
    everywhere, inside = rows()
    for path in sources():
        with open(path, encoding="utf-8") as f:
            text = f.read()
        turned = re.sub(WORD, lambda m: everywhere.get(m[0], m[0]), text)
        turned = "\n".join(in_code(line, inside.get(path, {})) for line in turned.split("\n"))
        if turned != text:
            with open(path, "w", encoding="utf-8") as f:
                f.write(turned)


def links():
    for folder, dirs, files in os.walk("crates"):
        for f in dirs + files:
            path = os.path.join(folder, f)
            if os.path.islink(path):
                target = os.path.realpath(path)
                os.remove(path)
                shutil.copyfile(target, path)


if __name__ == "__main__":
    step = {"links": links, "names": names}.get(sys.argv[1] if len(sys.argv) == 2 else "")
    if not step:
        raise SystemExit(__doc__)
    step()
