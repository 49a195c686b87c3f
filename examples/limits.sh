#!/usr/bin/env bash
# Runs the linker as it is built over real folders and outputs at their limits: each line says a case, and what the status, the standard output and the
# files have to be. With --many it makes folders of 1,000,000 and 1,000,001 entries too, which takes minutes.
set -euo pipefail
here="$(cd "$(dirname "${BASH_SOURCE[0]}")" && pwd)"

program="$here/../crates/sjslink_program/out/sjslink_program"
if [ ! -x "$program" ]; then
  echo "sjslink_program isn't built: its limits aren't tried"
  exit 0
fi
room="$(mktemp -d)"
trap 'rm -rf "$room"' EXIT
cd "$room"
mkdir classes
cp "$here/hello/classes/Object.sjsir" classes/
cp "$here/hello/entries" entries
accepted="edit 1 ok modules=1 read=1 checked=1 optimised=0 emitted=1"

# looks whether the program ends with this status and prints this: CASE STATUS TEXT, and then the words behind `link --optimize off`
tried() {
  local case="$1" status="$2" text="$3" printed ended=0
  shift 3
  printed="$("$program" link --optimize off "$@")" || ended=$?
  if [ "$ended" != "$status" ] || [ "$printed" != "$text" ]; then
    echo "$case: status $ended and '$printed', where it is to be $status and '$text'" >&2
    exit 1
  fi
  echo "$case: as it is to be"
}

# looks whether a command holds: CASE, and the command
holds() {
  local case="$1"
  shift
  "$@" || { echo "$case: it isn't so" >&2; exit 1; }
}

tried "a folder" 0 "$accepted" entries out classes
holds "a module" grep -q 'console.log("hi")' out/1/main.js
holds "nothing beside the module" test "$(ls -A out/1)" = main.js

tried "no such folder" 3 "" entries out none
tried "no such entries file" 3 "" none out classes
tried "a file for a folder" 3 "" entries out entries

mkdir latin
touch "latin/$(printf '\351').sjsir"
tried "a name that isn't UTF-8" 3 "" entries out latin

mkdir large
truncate -s 16777217 large/a.sjsir
tried "a class file that is too large" 1 "edit 1 refused 18 a.sjsir" entries out large
truncate -s 16777216 large/a.sjsir
tried "a class file that isn't" 1 "edit 1 refused 1 a.sjsir:0" entries out large

truncate -s 1048577 long
tried "an entries file that is too large" 6 "entries line 0" long out classes

holds "standard output that takes nothing" test "$("$program" link --optimize off entries out classes > /dev/full; echo $?)" = 4

echo older > file
tried "a file where OUT is to be" 4 "" entries file classes
holds "the file" grep -qx older file

mkdir -p taken/1/main.js
tried "a folder where a module is to be" 4 "" entries taken classes
holds "the folder alone" test "$(ls -A taken/1)" = main.js

# a file may have no byte: a write fails, as on a full disk
mkdir -p full/1
echo older > full/1/main.js
holds "a full disk" test "$(trap '' XFSZ; ulimit -f 0; "$program" link --optimize off entries full classes > /dev/null 2>&1; echo $?)" = 4
holds "the older module" grep -qx older full/1/main.js
holds "nothing beside the older module" test "$(ls -A full/1)" = main.js

# less memory than the file has bytes
holds "want of memory" test "$(ulimit -v 16000; "$program" link --optimize off entries out large > /dev/null 2>&1; echo $?)" = 5

if [ "${1:-}" = --many ]; then
  mkdir many
  cp classes/Object.sjsir many/
  seq 999999 | sed 's|^|many/|' | xargs touch
  tried "a folder of 1,000,000 entries" 0 "$accepted" entries out many
  touch many/one
  tried "a folder of more" 3 "" entries out many
fi
