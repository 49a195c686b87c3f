#!/usr/bin/env bash
# The command `sjslink`.
exec "$(dirname "${BASH_SOURCE[0]}")/program.sh" sjslink_program "$@"
