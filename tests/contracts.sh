#!/usr/bin/env bash
# docs/contracts.md is what tools/list_contracts makes of the sources and of docs/promises.md.
set -u
cd "$(dirname "${BASH_SOURCE[0]}")/.." || exit 1
command -v python3 >/dev/null || { echo "tests/contracts.sh: skipped, the command python3 is not here"; exit 0; }

tools/list_contracts --check
