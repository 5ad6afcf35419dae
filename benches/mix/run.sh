#!/usr/bin/env bash
# Builds and runs the benchmark of order entry by kinds of requests: run.sh [TURNS]. Where PROGRAM names one that is built, that one is
# measured. It is built without a proof: that the requests that are picked are ones that a batch may have is not proved here.
set -euo pipefail
here=$(cd "$(dirname "$0")" && pwd)
turns=${1:-3}
source "$here/../workspace.sh"

if [ -z "${PROGRAM:-}" ]; then
    uses=$(below "$here/../.." tpcc_more)
    lay_out "$here" Threads "mix_bench: anyhow clap indexmap atomic_table rand_pcg rand_core $uses" $uses
    UNPROVED=1 make_program
    PROGRAM=out/mix_bench
fi
python3 "$here/measure.py" "$PROGRAM" "$turns"
