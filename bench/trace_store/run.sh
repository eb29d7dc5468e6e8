#!/bin/sh
# Times traces beside plain Rust. Run it from the repository's top: sh bench/trace_store/run.sh
exec sh "$(dirname "$0")/../run_one.sh" trace_store 'surge_outside chunk_list lattice_time weighted trace_store'
