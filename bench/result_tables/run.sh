#!/bin/sh
# Times the writing of 16 tables of 1,000,000 nodes and of their summaries, beside plain C++ loops over one buffer. Run it
# from the repository's top: sh bench/result_tables/run.sh
exec sh "$(dirname "$0")/../run_one.sh" result_tables 'surge_outside graph_model multisets graph_loader vertex_lang result_tables' 'csv indexmap itoa anyhow'
