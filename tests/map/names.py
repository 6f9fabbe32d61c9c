"""Whether the map is of this tree: every name that docs/PROOFS.md has in backticks stands in the crates, every module `crate/File` is
there, and every must-fail edit is named. Prints what is not so, a line each, and exits 1 if there is any.
usage: names.py ROOT"""
import pathlib
import re
import sys

NAME = r"[\w\-′″·']+"


def words(root):
    """all names in the crates' code, contracts, definitions and proofs"""
    found = set()
    for ending in ("*.rt", "*.antt"):
        for path in (root / "crates").rglob(ending):
            found.update(re.findall(NAME, path.read_text(encoding="utf-8")))
    return found


def missing(root):
    text = (root / "docs/PROOFS.md").read_text(encoding="utf-8")
    crates = {path.name for path in (root / "crates").iterdir()}
    edits = {path.stem for path in (root / "crates").glob("*/must-fail/*.edit")}
    known = words(root) | crates | edits
    for crate, module in sorted(set(re.findall(r"\b([a-z_]+)/([A-Z][A-Za-z0-9]*)\b(?!\.)", text))):
        if crate in crates and not (root / f"crates/{crate}/specs/{module}.antt").exists():
            yield f"no module {crate}/{module}"
    for name in sorted(set(re.findall(r"`([^`\n]+)`", text))):
        parts = name.split("::")
        if all(re.fullmatch(NAME, part) for part in parts):
            if not all(part in known or part.endswith("_NAME") for part in parts):
                yield f"no name {name}"
    for edit in sorted(edits):
        if f"`{edit}`" not in text:
            yield f"not in the map: the edit {edit}"


found = list(missing(pathlib.Path(sys.argv[1])))
print(*found, sep="\n", end="\n" if found else "")
sys.exit(1 if found else 0)
