#!/bin/sh
# Times batches beside plain Rust. Run it from the repository's top: sh bench/weighted/run.sh
exec sh "$(dirname "$0")/../run_one.sh" weighted 'surge_outside weighted'
