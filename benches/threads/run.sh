#!/usr/bin/env bash
# Measures what starting threads costs, alone and in batches: run.sh [TURNS [PROGRAM]]. PROGRAM is that of benches/batches;
# without one it is proved and built first, or with UNPROVED set built without a proof.
set -euo pipefail
here=$(cd "$(dirname "$0")" && pwd)
turns=${1:-5}
program=${2:+$(realpath "$2")}
source "$here/../workspace.sh"

if [ -z "$program" ]; then
    uses='batch_engine batch_core dep_rules workloads load_gen tpcc_load proc_lang aria_base'
    lay_out "$here/../batches" Threads "batches_bench: anyhow $uses" $(below "$here/../.." $uses)
    make_program 0 100 50 0 10 1 1 0 0
    program=$PWD/out/batches_bench
else
    work=$(mktemp -d)
    trap 'rm -rf "$work"' EXIT
fi
gcc -O2 -o "$work/starts" "$here/starts.c" -lpthread
gcc -O2 -shared -fPIC -o "$work/lasting.so" "$here/lasting.c" -ldl
for threads in 1 3; do
    "$work/starts" $threads
done
python3 "$here/measure.py" "$program" "$work/lasting.so" "$turns"
