#!/usr/bin/env python3
"""Prints each place, FILE:LINE, where a source, test or document that git tracks has a line of more than 140 characters, and exits 1 if
there is one. Stored data is left out, and so are the tables of bench/RESULTS.md.
usage: wide.py FOLDER, the top of a repository"""
import pathlib
import subprocess
import sys

MOST = 140
SUFFIXES = {".antt", ".c", ".edit", ".h", ".md", ".py", ".rs", ".rt", ".sh"}
TABLES = {"bench/RESULTS.md"}


def is_source(path):
    """By its suffix, or as a shell's by its first line."""
    if path.suffix:
        return path.suffix in SUFFIXES
    first = path.open("rb").readline()
    return first.startswith(b"#!") and b"sh" in first


def wide_lines(path):
    for number, line in enumerate(path.read_text(encoding="utf-8").split("\n"), 1):
        if len(line) > MOST:
            yield number, line


def main():
    folder = pathlib.Path(sys.argv[1])
    listed = subprocess.run(["git", "-C", folder, "ls-files", "-z"], check=True, capture_output=True)
    names = [name for name in listed.stdout.decode().split("\0") if name]
    sources = [name for name in names if (folder / name).is_file() and is_source(folder / name)]
    found = 0
    for name in sources:
        for number, line in wide_lines(folder / name):
            if name in TABLES and line.startswith("|"):
                continue
            print(f"{name}:{number}: {len(line)} characters")
            found += 1
    if not sources:
        sys.exit("no source is tracked")
    if found:
        sys.exit(f"lines of more than {MOST} characters: {found}")
    print(f"width: {len(sources)} files, no line of more than {MOST} characters")


main()
