#!/usr/bin/env bash
# Runs each example by the programs as they are built, and looks whether it prints what its `output` says. Where node isn't there, or the programs aren't
# built, it says so and looks at nothing.
set -euo pipefail
cd "$(dirname "${BASH_SOURCE[0]}")"

if ! command -v node > /dev/null; then
  echo "no node: the examples aren't run"
  exit 0
fi
for program in sjsir_program sjslink_program; do
  if [ ! -x "../crates/$program/out/$program" ]; then
    echo "$program isn't built: the examples aren't run"
    exit 0
  fi
done

for output in */output; do
  example="$(dirname "$output")"
  if [ -x "$example/run.sh" ]; then
    "$example/run.sh"
  else
    ./run.sh "$example"
  fi | diff "$output" - || { echo "$example prints something else" >&2; exit 1; }
  echo "$example prints what it is to print"
done
