#!/bin/sh
# Times a count by key beside a hash map of counts in plain C++. Run it from the repository's top:
# sh bench/diff_reduce/run.sh
exec sh "$(dirname "$0")/../run_one.sh" diff_reduce 'surge_outside ordered_pairs chunk_list lattice_time weighted trace_store flow_core diff_join reduce_theory diff_reduce loop_theory diff_iterate flow_rows'
