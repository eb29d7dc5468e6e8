#!/bin/sh
# Times runs in phases on 16 windows over 100,000 nodes and 1,000,000 edges, and on 16 views with the same edges, beside the same
# plain runs in C++, and compares the sums of the values. Run it from the repository's top: sh bench/phases/run.sh
exec sh "$(dirname "$0")/../run_one.sh" phases 'surge_outside graph_model multisets edge_predicates graph_loader vertex_lang graph_algos view_matrix view_order result_tables phase_runs' 'csv indexmap itoa anyhow'
