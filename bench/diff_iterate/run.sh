#!/bin/sh
# Times a loop of 6 and one of 1,000,000 rounds whose body changes nothing after five, beside plain Rust. Run it from the
# repository's top: sh bench/diff_iterate/run.sh
exec sh "$(dirname "$0")/../run_one.sh" diff_iterate 'surge_outside ordered_pairs chunk_list lattice_time weighted trace_store flow_core diff_join reduce_theory diff_reduce loop_theory diff_iterate flow_rows'
