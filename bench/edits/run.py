#!/usr/bin/env python3
"""Tries the edits of this folder, which the gate doesn't try: each is a wrong body, a wrong definition or a weaker condition that the check has to refuse.

Usage: bench/edits/run.py [CRATE..]    Without words, those of all crates. The edits of a crate are put beside those in its must-fail/ while `rt must-fail`
tries them, and are taken away again. What a crate stands on is proved before, where it isn't yet. Ends with 1 where an edit isn't refused."""
import os
import shutil
import subprocess
import sys


def edits_in(folder):
    return sorted(name for name in os.listdir(folder) if name.endswith(".edit"))


def is_refused(root, crate):
    """Whether the check refuses all edits of the crate, those of the gate among them."""
    kept, tried = f"{root}/bench/edits/{crate}", f"{root}/crates/{crate}/must-fail"
    had_folder = os.path.isdir(tried)
    os.makedirs(tried, exist_ok=True)
    added = [name for name in edits_in(kept) if not os.path.exists(f"{tried}/{name}")]
    try:
        for name in added:
            shutil.copyfile(f"{kept}/{name}", f"{tried}/{name}")
        return subprocess.run(["rt", "must-fail", crate], cwd=root, stdin=subprocess.DEVNULL).returncode == 0
    finally:
        for name in added:
            os.remove(f"{tried}/{name}")
        if not had_folder:
            os.rmdir(tried)


def main(words):
    here = os.path.dirname(os.path.abspath(__file__))
    root = os.path.dirname(os.path.dirname(here))
    crates = words or sorted(name for name in os.listdir(here) if os.path.isdir(f"{here}/{name}"))
    unknown = [name for name in crates if not os.path.isdir(f"{here}/{name}")]
    if unknown:
        print(f"no edits of {', '.join(unknown)} stand in bench/edits", file=sys.stderr)
        return 2
    refused = [is_refused(root, name) for name in crates]
    return 0 if all(refused) else 1


if __name__ == "__main__":
    sys.exit(main(sys.argv[1:]))
