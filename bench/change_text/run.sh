#!/bin/sh
# Times the writing of 64 tables of 100,000 nodes, each with 1% of the rows of the one before changed, as a change text, and
# that text's reading and replay, beside plain C++ loops over buffers. Run it from the repository's top:
# sh bench/change_text/run.sh
exec sh "$(dirname "$0")/../run_one.sh" change_text 'surge_outside graph_model multisets graph_loader vertex_lang result_tables change_text' 'csv indexmap itoa thiserror anyhow'
