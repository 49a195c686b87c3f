#!/usr/bin/env bash
# The command `sjsir`.
exec "$(dirname "${BASH_SOURCE[0]}")/program.sh" sjsir_program "$@"
