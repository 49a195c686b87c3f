#!/usr/bin/env bash
# Makes the class files of the listings of a folder: make.sh LISTINGS FOLDER
set -euo pipefail

mkdir -p "$2"
for listing in "$1"/*.listing; do
  "$(dirname "${BASH_SOURCE[0]}")/../sjsir.sh" make "$listing" "$2/$(basename "$listing" .listing).sjsir"
done
