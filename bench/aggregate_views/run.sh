#!/bin/sh
# Times groups of 1,000,000 edges, kept right by lists of changes, beside a hash map in plain C++, and measures what the
# changes take of memory. Run it from the repository's top: sh bench/aggregate_views/run.sh
set -eu
top=$(cd "$(dirname "$0")/../.." && pwd)
crates='surge_outside graph_model graph_loader ordered_pairs chunk_list lattice_time weighted trace_store flow_core reduce_theory diff_reduce aggregate_views'
sh "$top/bench/run_one.sh" aggregate_views "$crates" 'csv indexmap thiserror anyhow'
work=${BENCH_DIR:-${TMPDIR:-/tmp}/surge-bench}/aggregate_views
program=$(find "$work/crates/bench_aggregate_views/out" -type f -name bench_aggregate_views -perm -u+x | head -n 1)
python3 - "$program" "$work/surge.txt" <<'PYTHON'
import subprocess, sys

program, told = sys.argv[1:]
CODE = "import resource, subprocess, sys; subprocess.run(sys.argv[1:], check=True, stdout=subprocess.DEVNULL); print(resource.getrusage(resource.RUSAGE_CHILDREN).ru_maxrss * 1024)"
peak = [int(subprocess.run([sys.executable, "-c", CODE, program, *words], check=True, capture_output=True, text=True).stdout) for words in ([], ["idle"])]
print(f"peak memory {peak[0] / 1e6:.0f} MB, without the changes {peak[1] / 1e6:.0f} MB: {(peak[0] - peak[1]) / 1e6:.0f} bytes an edge")
least = {}
for line in open(told):
    name, *numbers = line.split()
    if name.startswith("apply"):
        least[name] = min(int(numbers[0]), least.get(name, 1 << 62))
for size in ("few", "many"):
    print(f"10,000 changes, {size}: 1/{least[f'apply_all_{size}'] / least[f'apply_10000_{size}']:.0f} of all")
PYTHON
