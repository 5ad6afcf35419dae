#!/usr/bin/env bash
# Builds and runs the benchmark of nodes that divide the rows: run.sh [TURNS]. Where PROGRAM names one that is built, that one is measured.
# It is built without a proof.
set -euo pipefail
here=$(cd "$(dirname "$0")" && pwd)
turns=${1:-3}
source "$here/../workspace.sh"

if [ -z "${PROGRAM:-}" ]; then
    uses=$(below "$here/../.." part_nodes cat_builtin)
    lay_out "$here" Threads "nodes_bench: anyhow serde_json json fast_float atomic_table rand_pcg rand_core thiserror $uses" $uses
    UNPROVED=1 make_program
    PROGRAM=out/nodes_bench
fi
python3 "$here/measure.py" "$PROGRAM" "$turns"
