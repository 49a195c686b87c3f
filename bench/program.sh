# What the measuring scripts share: a repository of copies, and the run of its program.

root=$(cd "$(dirname "$0")/../.." && pwd)
work=$(mktemp -d)
trap 'rm -rf "$work"' EXIT

# below CRATE..: these crates and those below them, in the order of crates.txt.
below() {
    python3 - "$root/crates.txt" "$@" <<'BELOW'
import sys
lines = [line.split("#")[0].partition(":") for line in open(sys.argv[1])]
lists = {name.split()[0]: rest.split() for name, colon, rest in lines if colon}
found, open_names = set(), sys.argv[2:]
while open_names:
    name = open_names.pop()
    if name in lists and name not in found:
        found.add(name)
        open_names += lists[name]
print(*(name for name in lists if name in found))
BELOW
}

# begin NAME USES: makes the folder of a program NAME that uses the libraries USES, and copies those that are crates here, with the crates below.
begin() {
    program=$1
    mkdir -p "$work/crates/$program/src"
    echo "$program: $2" > "$work/crates.txt"
    for crate in $(below $2); do
        mkdir -p "$work/crates/$crate"
        for part in src specs proofs; do
            [ ! -d "$root/crates/$crate/$part" ] || cp -R "$root/crates/$crate/$part" "$work/crates/$crate/"
        done
        grep "^$crate:" "$root/crates.txt" >> "$work/crates.txt"
    done
    cp "$root/HANDLES" "$work/"
    git init -q "$work"
    main="$work/crates/$program/src/main.rt"
}

# Adds to the program the functions that say whether a list may be the entries of a link.
judge_entries() {
    cat >> "$main" <<'ENTRIES'

// Whether these may be the entries of a link.
fn are_entries(list: &[EntryPoint]) -> bool
    ensures { OnTrue result (AreEntries list.now) }
{
    if list.is_empty() || list.len() > 1000 {
        return false;
    }
    are_valid(list)
}

fn are_valid(list: &[EntryPoint]) -> bool
    ensures { result ≡ list_all is_entry list.now }
{
    list.iter().all(|entry| entry.is_valid())
}
ENTRIES
}

# Proves, builds and runs the program, whose text is in $main by now. What the proof prints is shown where it fails.
measure() {
    cd "$work/crates/$program"
    if ! rt run 2> "$work/log"; then
        cat "$work/log" >&2
        exit 1
    fi
}

# Runs the program once more, and prints the highest memory that it used.
peak() {
    python3 - "out/$program" <<'PEAK'
import resource, subprocess, sys
subprocess.run([sys.argv[1]], stdout=subprocess.DEVNULL, check=True)
print("highest memory in use:", resource.getrusage(resource.RUSAGE_CHILDREN).ru_maxrss // 1024, "MB")
PEAK
}
