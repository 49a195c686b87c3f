#!/usr/bin/env bash
# run.sh EXAMPLE: makes the class files of the listings of that example, links them by its entries, and runs the module that is written under node, or
# prints it where there is no node. Where the program ends by an exception that nothing catches, its class is printed.
set -euo pipefail
cd "$(dirname "${BASH_SOURCE[0]}")/${1:?the name of an example}"

out="$(mktemp -d)"
trap 'rm -rf "$out"' EXIT

../make.sh listings "$out/classes"
../../sjslink.sh link --optimize off entries "$out" "$out/classes"

../module.sh "$out/1/main.js" 2> "$out/thrown" || grep -o -m 1 'c_java_lang_[A-Za-z]*Exception' "$out/thrown" || {
  cat "$out/thrown" >&2
  exit 1
}
