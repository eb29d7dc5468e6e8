#!/bin/sh
# Times the reading of scripts of growing size and the printing of what was read, in nanoseconds for each byte. Where both
# are linear, a row's figures stay the same. Run it from the repository's top: sh bench/gvdl_printer/run.sh
set -eu
top=$(cd "$(dirname "$0")/../.." && pwd)
program=$(sh "$top/bench/build.sh" gvdl_printer 'surge_outside phrase_theory gvdl_tokens gvdl_tree gvdl_parser gvdl_printer' 'thiserror anyhow')
"$program" | awk '
    { bytes[$1] = bytes[$1] sprintf("%9d", $2)
      reads[$1] = reads[$1] sprintf("%9.1f", 1000 * $3 / $2)
      prints[$1] = prints[$1] sprintf("%9.1f", $4 ? 1000 * $5 / $4 : 0)
      if (!($1 in seen)) { seen[$1] = 1; order[++count] = $1 } }
    END {
        for (i = 1; i <= count; i++) {
            printf "%-12s bytes        %s\n", order[i], bytes[order[i]]
            printf "%-12s read, ns/B   %s\n", "", reads[order[i]]
            printf "%-12s print, ns/B  %s\n", "", prints[order[i]]
        }
    }'
