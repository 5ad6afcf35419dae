#!/usr/bin/env bash
# Proves, builds and runs the benchmark of works that scan: run.sh [TURNS]. Where PROGRAM names one that is built, that one is measured.
set -euo pipefail
here=$(cd "$(dirname "$0")" && pwd)
turns=${1:-3}
source "$here/../workspace.sh"

if [ -z "${PROGRAM:-}" ]; then
    uses=$(below "$here/../.." range_resv cat_read)
    lay_out "$here" Threads "scans_bench: anyhow serde_json indexmap atomic_table rand_pcg rand_core $uses" $uses
    make_program 1000 1 1 1
    PROGRAM=out/scans_bench
fi
python3 "$here/measure.py" "$PROGRAM" "$turns"
