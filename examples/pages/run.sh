#!/usr/bin/env bash
# Makes the class files of the listings in this folder, links them to two public modules, and runs both under node, or prints them where there is no node.
set -euo pipefail
cd "$(dirname "${BASH_SOURCE[0]}")"

out="$(mktemp -d)"
trap 'rm -rf "$out"' EXIT

../make.sh listings "$out/classes"
../../sjslink.sh link --split fewest --optimize off entries "$out" "$out/classes"

for page in shop admin; do
  ../module.sh "$out/1/$page.js"
done
