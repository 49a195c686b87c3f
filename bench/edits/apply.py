#!/usr/bin/env python3
"""Looks whether each edit of this folder can be applied to its crate as it stands, without trying it: each text that it replaces has to stand there once.

Usage: bench/edits/apply.py    Ends with 1 where one can't, and says which."""
import sys
from pathlib import Path

HERE = Path(__file__).resolve().parent
CRATES = HERE.parent.parent / "crates"


def parted(edit):
    """The pairs of an edit: the file, the text that stands there, and the one in its place."""
    file = old = ""
    for line in edit.read_text().splitlines():
        word, _, text = line.partition(": ")
        if word == "file":
            file = text
        elif word == "old":
            old = text
        elif word == "new":
            yield file, old, text


def fault(edit):
    """What keeps the edit from being applied, if anything does."""
    texts = {}
    for file, old, new in parted(edit):
        path = CRATES / edit.parent.name / file
        if not path.is_file():
            return f"there is no {file}"
        text = texts.get(file) or path.read_text()
        if text.count(old) != 1:
            return f"`{old}` stands {text.count(old)} times in {file}"
        texts[file] = text.replace(old, new)
    return None


def main():
    faults = [(edit, fault(edit)) for edit in sorted(HERE.glob("*/*.edit"))]
    wrong = [(edit, why) for edit, why in faults if why]
    for edit, why in wrong:
        print(f"{edit.relative_to(HERE)}: {why}")
    print(f"{len(faults) - len(wrong)} of {len(faults)} edits of bench/edits can be applied")
    return 1 if wrong else 0


if __name__ == "__main__":
    sys.exit(main())
