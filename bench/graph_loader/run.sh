#!/bin/sh
# Times the load of a large graph beside reading the same bytes through `csv` alone and one look-up for each end, and
# measures its peak memory. Run it from the repository's top: sh bench/graph_loader/run.sh
set -eu
top=$(cd "$(dirname "$0")/../.." && pwd)
program=$(sh "$top/bench/build.sh" graph_loader 'surge_outside graph_model graph_loader' 'csv indexmap anyhow')
python3 - "$program" "${BENCH_ROUNDS:-5}" <<'PYTHON'
import resource, subprocess, sys

program, rounds = sys.argv[1], int(sys.argv[2])


def run(word):
    """The figures that the program prints, and the peak memory of it in bytes."""
    code = (
        "import resource, subprocess, sys\n"
        "out = subprocess.run(sys.argv[1:], check=True, capture_output=True, text=True).stdout\n"
        "print(out, end='')\n"
        "print('peak', resource.getrusage(resource.RUSAGE_CHILDREN).ru_maxrss * 1024)\n"
    )
    out = subprocess.run([sys.executable, "-c", code, program, word], check=True, capture_output=True, text=True).stdout
    return {line.split()[0]: [int(n) for n in line.split()[1:]] for line in out.splitlines()}


loads = [run("load") for _ in range(rounds)]
reads = [run("read") for _ in range(rounds)]
assert loads[0]["graph"] == [1_000_000, 4_000_000], loads[0]
assert reads[0]["fields"][:2] == [1_000_001, 6 * 4_000_001], reads[0]
size = sum(loads[0]["bytes"])
load = min(r["load"][0] for r in loads)
csv = min(r["csv"][0] for r in reads)
look_ups = min(r["look-ups"][0] for r in reads)
peak = max(r["peak"][0] for r in loads)
print(f"files {size / 1e6:.1f} MB")
print(f"load {load / 1e3:.0f} ms; csv alone {csv / 1e3:.0f} ms and look-ups {look_ups / 1e3:.0f} ms; ratio {load / (csv + look_ups):.2f}")
print(f"peak memory {peak / 1e6:.0f} MB with the files in memory, {peak / size:.2f} times their size")
PYTHON
