#!/bin/sh
# Times the whole program beside plain C++ programs, compares what they print, and prints a table in Markdown. Run it
# from the repository's top: sh bench/engine/run.sh; --help tells its options, bench/README.md what is measured.
set -eu
export PYTHONDONTWRITEBYTECODE=1
exec "${PYTHON:-python3}" "$(dirname "$0")/bench.py" "$@"
