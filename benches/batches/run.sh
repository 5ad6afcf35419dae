#!/usr/bin/env bash
# Measures whole batches by the engine, beside a plain engine: run.sh ARIA [TURNS [NAME=PROGRAM].. [TABLE]..].
# ARIA is the program of this repository, which writes the scripts. Where no PROGRAM is named, the one of this folder
# is proved and built first. Where SCRIPTS names a folder, the scripts are kept there, and those that are there serve.
set -euo pipefail
here=$(cd "$(dirname "$0")" && pwd)
aria=$(realpath "$1")
turns=${2:-2}
words=("${@:3}")
source "$here/../workspace.sh"

uses='batch_engine batch_core dep_rules workloads load_gen tpcc_load proc_lang aria_base'
case "${words[*]}" in
    *=*) work=$(mktemp -d) && trap 'rm -rf "$work"' EXIT ;;
    *)
        lay_out "$here" Threads "batches_bench: anyhow $uses" $(below "$here/../.." $uses)
        make_program 0 100 50 0 10 1 1 0 0
        words=("engine=out/batches_bench" "${words[@]}")
        ;;
esac
rustc -O --edition 2021 -o "$work/plain" "$here/plain/main.rs"
python3 "$here/measure.py" "$aria" "$work/plain" "${SCRIPTS:-$work/scripts}" "$turns" "${words[@]}"
