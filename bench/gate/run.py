#!/usr/bin/env python3
"""Measures the gate: runs `rt ci` in a fresh clone of the repository, so that nothing is kept from earlier runs, and sums the processor seconds of each crate's proof, tests and edits.

Usage: bench/gate/run.py [FOLDER]    The clone is made in FOLDER, or in a new folder under /tmp. Prints a table of crates, the dearest first, and
the totals; the run's own output goes to FOLDER/gate.log. A process is seen twice a second, so what ends sooner is counted in the total alone."""
import os
import resource
import subprocess
import sys
import tempfile
import time

TICKS = os.sysconf("SC_CLK_TCK")


def text_of(path):
    try:
        with open(path, "rb") as file:
            return file.read()
    except OSError:
        return b""


def parent_and_seconds(pid):
    parts = text_of(f"/proc/{pid}/stat").rpartition(b") ")[2].split()
    return (int(parts[1]), (int(parts[11]) + int(parts[12])) / TICKS) if len(parts) > 12 else (0, 0.0)


def work_of(pid):
    """The crate and the kind of work of a prover's process, or None."""
    words = text_of(f"/proc/{pid}/cmdline").split(b"\0")
    if b"--crate-name" not in words:
        return None
    name = words[words.index(b"--crate-name") + 1].decode()
    try:
        folder = os.readlink(f"/proc/{pid}/cwd")
    except OSError:
        return None
    kind = "edits" if "/rt-edit-" in folder else "tests" if b"--test" in words else "proof"
    return name, kind


def sample(seen):
    """Adds what each process has used so far to what is known of it."""
    for entry in os.listdir("/proc"):
        if not entry.isdigit():
            continue
        parent, seconds = parent_and_seconds(entry)
        work = work_of(entry) or work_of(str(parent))
        if work:
            seen[(entry, work)] = max(seconds, seen.get((entry, work), 0.0))


def main(words):
    top = subprocess.run(["git", "rev-parse", "--show-toplevel"], capture_output=True, text=True, check=True).stdout.strip()
    room = words[0] if words else tempfile.mkdtemp(prefix="gate-")
    clone = f"{room}/clone"
    subprocess.run(["git", "clone", "-q", top, clone], check=True)
    seen = {}
    begun = time.time()
    with open(f"{room}/gate.log", "w") as log:
        run = subprocess.Popen(["rt", "ci"], cwd=clone, stdout=log, stderr=subprocess.STDOUT, stdin=subprocess.DEVNULL)
        while run.poll() is None:
            sample(seen)
            time.sleep(0.5)
    used = resource.getrusage(resource.RUSAGE_CHILDREN)
    crates = {}
    for (_, (name, kind)), seconds in seen.items():
        row = crates.setdefault(name, {"proof": 0.0, "tests": 0.0, "edits": 0.0})
        row[kind] += seconds
    print("| Crate | proof | tests | edits |\n|---|---|---|---|")
    for name, row in sorted(crates.items(), key=lambda it: -sum(it[1].values())):
        print(f"| `{name}` | {row['proof']:.0f} | {row['tests']:.0f} | {row['edits']:.0f} |")
    for kind in ("proof", "tests", "edits"):
        print(f"{kind}: {sum(row[kind] for row in crates.values()) / 60:.1f} processor minutes")
    print(f"all: {(used.ru_utime + used.ru_stime) / 60:.1f} processor minutes, {(time.time() - begun) / 60:.1f} minutes; rt ci ended with {run.returncode}")
    print(text_of(f"{room}/gate.log").decode(errors="replace").rstrip().rpartition("\n")[2])
    return run.returncode


if __name__ == "__main__":
    sys.exit(main(sys.argv[1:]))
