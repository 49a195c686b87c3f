#!/usr/bin/env bash
# Links three folders in one run: a program of four classes; the same with one class edited; and then with a class that isn't typed, which is
# refused. Runs what the first two are linked to under node, or prints it where there is no node.
set -euo pipefail
cd "$(dirname "${BASH_SOURCE[0]}")"

out="$(mktemp -d)"
trap 'rm -rf "$out"' EXIT

../make.sh first "$out/classes-1"
cp -R "$out/classes-1" "$out/classes-2"
../make.sh second "$out/classes-2"
cp -R "$out/classes-2" "$out/classes-3"
../make.sh third "$out/classes-3"

# The last folder is refused, so the run ends with status 1.
status=0
../../sjslink.sh link --optimize off entries "$out" "$out/classes-1" "$out/classes-2" "$out/classes-3" || status=$?
[ "$status" = 1 ]

for edit in 1 2; do
  ../module.sh "$out/$edit/main.js"
done
