#!/usr/bin/env bash
# The format of logs with an image, by a reader of its own: the files of three compactions are those that the definitions are computed on,
# and what a crash leaves at any moment of one reads as the log before it or as the image alone, in whatever way torn gates are read.
set -u
cd "$(dirname "${BASH_SOURCE[0]}")/.." || exit 1
command -v python3 >/dev/null || { echo "tests/compacted_logs.sh: skipped, the command python3 is not here"; exit 0; }

python3 tests/compacted_logs.py crates/frame_log/specs/ExamplesTwo.antt
