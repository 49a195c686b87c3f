#!/usr/bin/env bash
# Measures whole links (README.md, beside this script).
set -euo pipefail
cd "$(dirname "${BASH_SOURCE[0]}")"

work="$(mktemp -d)"
trap 'rm -rf "$work"' EXIT

printf 'main bench.C0 one\nmain bench.C0 two\nmain bench.C0 three\nhalf bench.C100 one\n' > "$work/entries"
for count in 200 2000 20000; do
  python3 folder.py "$work/classes-$count" "$count"
done

# Proves and builds the program, where it isn't built yet.
../../sjslink.sh link --optimize off "$work/entries" "$work/built" "$work/classes-200" > "$work/first"

python3 - "$work" ../../crates/sjslink_program/out/sjslink_program <<'MEASURE'
import os, subprocess, sys, time
work, program = sys.argv[1:]
for style in ("fewest", "smallest"):
    for count in (200, 2000, 20000):
        took = []
        for turn in range(3):
            start = time.monotonic()
            out = f"{work}/out-{style}-{count}-{turn}"
            ran = subprocess.Popen([program, "link", "--split", style, "--optimize", "off", f"{work}/entries", out, f"{work}/classes-{count}"], stdout=subprocess.PIPE)
            line = ran.stdout.read().decode().strip()
            _, status, used = os.wait4(ran.pid, 0)
            took.append(time.monotonic() - start)
            if status:
                sys.exit(f"{style}, {count} classes: status {status}: {line}")
        print(f"{style}, {count} classes: {min(took) * 1000:.0f} ms (first {took[0] * 1000:.0f}), {used.ru_maxrss // 1024} MB: {line}")
MEASURE
