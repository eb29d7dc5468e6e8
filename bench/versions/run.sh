#!/bin/sh
# Times edits of kept runs beside the same runs anew: 16 windows over 100,000 nodes and 1,000,000 edges, of which neighbours differ in
# 2% of the edges, and 64 that differ in 0.2%. Prints the milliseconds of the run, what part of them an edit of 1, 100 and 1,000 edges
# takes, and the peaks of memory of the graph and its matrix, of the run beside them, and of run and edits.
# Run it from the repository's top: sh bench/versions/run.sh [PROGRAM], where PROGRAM is one that is built already.
set -eu
top=$(cd "$(dirname "$0")/../.." && pwd)
crates='surge_outside graph_model multisets graph_loader edge_predicates vertex_lang lone_work message_forms change_lists value_codes arc_rows round_messages round_inputs waiting_nodes round_kernel graph_algos view_matrix view_order result_tables view_segment view_versions'
program=${1:-}
[ -n "$program" ] || program=$(sh "$top/bench/build.sh" versions "$crates" 'csv indexmap itoa thiserror anyhow')
python3 - "$program" "${BENCH_ROUNDS:-3}" "${BENCH_PROGRAMS:-hops dist wcc pagerank}" <<'PYTHON'
import subprocess, sys

program, rounds, names = sys.argv[1], int(sys.argv[2]), sys.argv[3].split()
CODE = (
    "import resource, subprocess, sys\n"
    "print(subprocess.run(sys.argv[1:], check=True, capture_output=True, text=True).stdout, end='')\n"
    "print('peak', resource.getrusage(resource.RUSAGE_CHILDREN).ru_maxrss * 1024)\n"
)


def run(*words):
    """The numbers that the program prints, by their first word, and its peak memory in bytes."""
    out = subprocess.run([sys.executable, "-c", CODE, program, *words], check=True, capture_output=True, text=True).stdout
    return {line.split()[0]: [int(n) for n in line.split()[1:]] for line in out.splitlines()}


print(f"{'views':6} {'program':10} {'run, ms':>9} {'1 edge':>8} {'100':>8} {'1,000':>8} {'idle, MB':>9} {'run, MB':>8} {'edits, MB':>10}", flush=True)
for views in ["mid", "fine"]:
    for name in names:
        idle, kept = (run(views, name, what)["peak"][0] / 1e6 for what in ("idle", "run"))
        found = [run(views, name, "edits") for _ in range(rounds)]
        first = min(it["run"][0] for it in found)
        parts = [first / min(it["edits"][k] for it in found) for k in range(3)]
        peak = max(it["peak"][0] for it in found) / 1e6
        told = " ".join(f"{'1/%.1f' % part:>8}" for part in parts)
        print(f"{views:6} {name:10} {first / 1e3:9.0f} {told} {idle:9.0f} {kept - idle:8.0f} {peak - idle:10.0f}", flush=True)
PYTHON
