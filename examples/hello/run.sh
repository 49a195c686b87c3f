#!/usr/bin/env bash
# Makes the class file of the listing in this folder, links it, and runs the module that is written under node, or prints it where there
# is no node.
set -euo pipefail
cd "$(dirname "${BASH_SOURCE[0]}")"

out="$(mktemp -d)"
trap 'rm -rf "$out"' EXIT

mkdir "$out/classes"
../../sjsir.sh make java.lang.Object.listing "$out/classes/java.lang.Object.sjsir"
../../sjslink.sh link --optimize off entries "$out" "$out/classes"

../module.sh "$out/1/main.js"
