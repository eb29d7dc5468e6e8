#!/bin/sh
# Times the matrix of 64 views over 4,000,000 edges (and of 1,024 over 400,000), its greedy order, its differences and its tree
# order beside the same in plain C++, and compares the orders; and compares the tree order of 227 views over 20,000 edges with
# that of tests/oracle, where Python is there. Run it from the repository's top: sh bench/view_matrix/run.sh
set -eu
here=$(cd "$(dirname "$0")" && pwd)
sh "$here/../run_one.sh" view_matrix 'surge_outside graph_model edge_predicates graph_loader view_matrix view_order tree_order' 'csv indexmap thiserror anyhow'
if command -v python3 > /dev/null 2>&1; then
    PYTHONDONTWRITEBYTECODE=1 python3 "$here/tree.py" "${BENCH_DIR:-${TMPDIR:-/tmp}/surge-bench}/view_matrix/surge.txt"
fi
