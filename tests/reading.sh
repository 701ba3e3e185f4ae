#!/usr/bin/env bash
# docs/headline.md has the table that tools/count_reading makes of the clauses and their definitions.
set -u
cd "$(dirname "${BASH_SOURCE[0]}")/.." || exit 1
command -v python3 >/dev/null || { echo "tests/reading.sh: skipped, the command python3 is not here"; exit 0; }

tools/count_reading --check
