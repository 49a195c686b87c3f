#!/usr/bin/env python3
"""Holds the groups of crates.txt to what docs say of them: a crate stands on crates of its own group that are listed before it, or of a lower one; the
tables of docs/DESIGN.md and docs/PROVED.md have it in its group; and group 6 has no code that runs. Ends with 1 where something differs."""
import re
import sys
from pathlib import Path

TOP = Path(__file__).resolve().parent.parent
# listings have the literals of the emitted subset, and the files of a folder are read from outside
LOOK_UP = {"sj_text": {3}, "sj_text_spec": {3}, "sj_text_print": {3}, "sj_text_scan": {3}, "sj_text_parts": {3}, "sj_text_files": {3}, "folder_files": {8}}
# makes the pieces whose definition stands in group 6
RUNS = {"world_pieces"}


def crates():
    """Of each crate what it uses, and its group, in the order of crates.txt."""
    uses, groups, group = {}, {}, None
    for line in (TOP / "crates.txt").read_text().split("\n"):
        if head := re.match(r"# (\d) ", line):
            group = int(head[1])
        elif ":" in line and not line.startswith("#"):
            name, _, libraries = line.partition(":")
            uses[name], groups[name] = libraries.split(), group
    return uses, groups


def told(text, heading):
    """The crates that a text describes, under a heading with the number of their group."""
    found, group = {}, None
    for line in text.split("\n"):
        if head := re.match(heading, line):
            group = int(head[1])
        names = re.findall(r"`(\w+)`", line.split("|")[1]) if line.startswith("| `") else re.findall(r"\*\*`(\w+)`\*\*", line) if line.startswith("- **`") else []
        for name in names if group else []:
            found.setdefault(name, group)
    return found


def differences():
    uses, groups = crates()
    order = list(uses)
    for name in order:
        for low in filter(groups.get, uses[name]):
            if groups[low] > groups[name] and groups[low] not in LOOK_UP.get(name, ()):
                yield f"{name} (group {groups[name]}) stands on {low} (group {groups[low]})"
            if groups[low] == groups[name] and order.index(low) > order.index(name):
                yield f"{name} is listed before {low}, which it uses"
    design = (TOP / "docs" / "DESIGN.md").read_text().split("## The crates")[1].split("## Forms that")[0]
    proved = (TOP / "docs" / "PROVED.md").read_text()
    for page, found in (("DESIGN", told(design, r"\*\*(\d) ")), ("PROVED", told(proved, r"## (\d) "))):
        for name in filter(found.get, order):
            if found[name] != groups[name]:
                yield f"{name}: group {groups[name]} in crates.txt, {found[name]} in {page}"
    for name in (it for it in order if groups[it] == 6 and it not in RUNS):
        code = "\n".join(file.read_text() for file in (TOP / "crates" / name / "src").rglob("*.rt"))
        if re.search(r"^\s*(let|for|if|match|while|return)\b", code, re.MULTILINE):
            yield f"{name}: group 6 has no code that runs"


found = list(differences())
print("\n".join(found) or "the groups are as they are said to be")
sys.exit(bool(found))
