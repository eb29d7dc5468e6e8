#!/bin/sh
# Times steps of a join for which many products wait beside the same with a BTreeMap in plain Rust. Run it from the
# repository's top:
# sh bench/diff_join/run.sh
exec sh "$(dirname "$0")/../run_one.sh" diff_join 'surge_outside ordered_pairs chunk_list lattice_time weighted trace_store flow_core diff_join reduce_theory diff_reduce loop_theory diff_iterate flow_rows'
