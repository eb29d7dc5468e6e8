#!/bin/sh
# Builds a bench's program and the same in plain Rust (plain.rs) or C++ (plain.cpp), runs both in turn, and prints the
# least time of each in microseconds, and their ratio. The first line that they print has to be the same.
# Called by bench/NAME/run.sh as: run_one.sh NAME 'CRATES THAT IT STANDS ON, LOWEST FIRST' ['PORTED CRATES']
set -eu
name=$1
top=$(cd "$(dirname "$0")/.." && pwd)
work=${BENCH_DIR:-${TMPDIR:-/tmp}/surge-bench}/$name
rounds=${BENCH_ROUNDS:-7}
program=$(sh "$top/bench/build.sh" "$name" "$2" "${3:-anyhow}")
if [ -f "$top/bench/$name/plain.cpp" ]; then
    language=C++
    c++ -O2 -std=c++17 -o "$work/plain" "$top/bench/$name/plain.cpp"
else
    language=Rust
    rustc -O --edition 2024 -o "$work/plain" "$top/bench/$name/plain.rs"
fi
: > "$work/surge.txt"
: > "$work/plain.txt"
round=0
while [ "$round" -lt "$rounds" ]; do
    "$program" >> "$work/surge.txt"
    "$work/plain" >> "$work/plain.txt"
    round=$((round + 1))
done
if [ "$(head -n 1 "$work/surge.txt")" != "$(head -n 1 "$work/plain.txt")" ]; then
    echo "the answers differ" >&2
    exit 1
fi
head -n 1 "$work/surge.txt"
awk -v surge="$work/surge.txt" -v plain="$work/plain.txt" -v language="$language" '
    function least(file, found,    line, parts) {
        while ((getline line < file) > 0) {
            if (split(line, parts, " ") == 2) {
                if (!(parts[1] in found) || parts[2] + 0 < found[parts[1]]) found[parts[1]] = parts[2] + 0
                if (!(parts[1] in seen)) { seen[parts[1]] = 1; order[++count] = parts[1] }
            }
        }
    }
    BEGIN {
        least(surge, ours)
        least(plain, theirs)
        printf "%-24s %12s %12s %8s\n", "call", "surge, us", language ", us", "ratio"
        for (i = 1; i <= count; i++) printf "%-24s %12d %12d %8.2f\n", order[i], ours[order[i]], theirs[order[i]], ours[order[i]] / theirs[order[i]]
    }'
