#!/usr/bin/env bash
# Runs the program of the crate that the first word names, with the other words, and proves and builds it before that where it isn't
# built from the sources as they stand. What it does meanwhile it says on standard error.
set -euo pipefail

name="$1"
shift
crates="$(cd "$(dirname "${BASH_SOURCE[0]}")" && pwd)/crates"
program="$crates/$name/out/$name"

is_built() {
  [ -x "$program" ] && [ -z "$(find "$crates" -name out -prune -o -type f -newer "$program" -print -quit)" ]
}

if ! is_built; then
  echo "$name isn't built from these sources: proving it and the crates that it stands on. From nothing this can take an hour; what is proved is kept." >&2
  rm -f "$program"
  # The lines of rt come as they are made. A build ends with a run that has no words, whose exit status says nothing of the build.
  (cd "$crates/$name" && rt run) < /dev/null >&2 || true
  if [ ! -x "$program" ]; then
    echo "$name could not be built" >&2
    exit 70
  fi
  echo "$name is built: $program (the run without words above ends a build)" >&2
fi

exec "$program" "$@"
