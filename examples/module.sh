#!/usr/bin/env bash
# Runs a module that was written under node, or prints it where there is no node: module.sh FILE
set -euo pipefail

if command -v node > /dev/null; then
  echo '{"type": "module"}' > "$(dirname "$1")/package.json"
  exec node "$1"
fi
cat "$1"
