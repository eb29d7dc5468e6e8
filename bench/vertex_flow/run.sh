#!/bin/sh
# Times a vertex program as a dataflow over 8 windows of some 20,000 edges beside the kernel of rounds over the same
# windows, and measures the peak memory of both. Run it from the repository's top: sh bench/vertex_flow/run.sh
set -eu
top=$(cd "$(dirname "$0")/../.." && pwd)
program=$(sh "$top/bench/build.sh" vertex_flow 'surge_outside graph_model multisets graph_loader vertex_lang lone_work message_forms change_lists value_codes arc_rows round_messages round_inputs waiting_nodes round_kernel graph_algos lattice_time weighted chunk_list trace_store flow_core ordered_pairs diff_join reduce_theory diff_reduce loop_theory diff_iterate inner_theory keyed_loop work_theory vertex_items view_items vertex_update vertex_parts flow_work vertex_flow flow_rows' 'csv indexmap anyhow')
python3 - "$program" "${BENCH_ROUNDS:-5}" <<'PYTHON'
import subprocess, sys

program, rounds = sys.argv[1], int(sys.argv[2])


def run(side, name):
    """What the program prints for a side and a name, and its peak memory in bytes."""
    code = (
        "import resource, subprocess, sys\n"
        "out = subprocess.run(sys.argv[1:], check=True, capture_output=True, text=True).stdout\n"
        "print(out, end='')\n"
        "print('peak', resource.getrusage(resource.RUSAGE_CHILDREN).ru_maxrss * 1024)\n"
    )
    out = subprocess.run([sys.executable, "-c", code, program, side, name], check=True, capture_output=True, text=True).stdout
    return {line.split()[0]: [int(n) for n in line.split()[1:]] for line in out.splitlines()}


print(f"{'program':10} {'evaluations':>12} {'dataflow, s':>12} {'kernel, s':>10} {'ratio':>7} {'dataflow, MB':>13} {'kernel, MB':>11}")
for name in ["hops", "wcc", "pagerank"]:
    found = {"flow": [], "kernel": []}
    for _ in range(rounds):
        for side in found:
            found[side].append(run(side, name))
    answers = {tuple(it["answer"]) for runs in found.values() for it in runs}
    if len(answers) != 1:
        sys.exit(f"the answers of {name} differ: {sorted(answers)}")
    seconds = {side: min(it["micros"][0] for it in runs) / 1e6 for side, runs in found.items()}
    peak = {side: max(it["peak"][0] for it in runs) / 1e6 for side, runs in found.items()}
    print(
        f"{name:10} {answers.pop()[0]:12} {seconds['flow']:12.3f} {seconds['kernel']:10.4f} "
        f"{seconds['flow'] / seconds['kernel']:7.0f} {peak['flow']:13.0f} {peak['kernel']:11.0f}"
    )
PYTHON
