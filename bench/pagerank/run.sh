#!/bin/sh
# Times ten rounds of PageRank on 100,000 nodes and 1,000,000 edges, in a plain run, beside a plain C++ loop with the same
# whole numbers, and compares the sums of the values. Run it from the repository's top: sh bench/pagerank/run.sh
exec sh "$(dirname "$0")/../run_one.sh" pagerank 'surge_outside graph_model multisets graph_loader vertex_lang graph_algos' 'csv indexmap anyhow'
