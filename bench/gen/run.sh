#!/bin/sh
# Measures generated folders (README.md, beside this script).
set -eu

. "$(dirname "$0")/../program.sh"

begin gen_program 'sj_gen sj_names sj_outside'

cp "$root/crates/gen_program/src/main.rt" "$main"

cd "$work/crates/$program"
if ! rt run -- 1 "$work/one" 2> "$work/log"; then
    cat "$work/log" >&2
    exit 1
fi

python3 - "out/$program" "$work" <<'TIMES'
import os, resource, subprocess, sys, time
program, work = sys.argv[1], sys.argv[2]
for words in ([], ["edited"]):
    for number in (2000, 20000):
        best = 1e9
        for round in range(3):
            out = f"{work}/files-{number}-{len(words)}-{round}"
            start = time.monotonic()
            subprocess.run([program, str(number), out] + words, check=True)
            best = min(best, time.monotonic() - start)
        files = [os.path.join(folder, name) for folder, _, names in os.walk(out) for name in names]
        size = sum(os.path.getsize(file) for file in files)
        print(f"{' '.join([str(number)] + words)}: {len(files)} files, {size} bytes, {best:.2f} s")
print("highest memory in use:", resource.getrusage(resource.RUSAGE_CHILDREN).ru_maxrss // 1024, "MB")
TIMES
