#!/bin/sh
# Times 16 views over 100,000 nodes and 1,000,000 edges, stepped one behind the other by the kernel of rounds, beside the same
# in plain C++, and compares the works and the sums of the values. Run it from the repository's top: sh bench/round_kernel/run.sh
exec sh "$(dirname "$0")/../run_one.sh" round_kernel 'surge_outside graph_model multisets graph_loader vertex_lang lone_work message_forms change_lists value_codes arc_rows round_messages round_inputs waiting_nodes round_kernel graph_algos' 'csv indexmap anyhow'
