#!/usr/bin/env bash
# Proves, builds and runs the benchmark of lines, beside a plain program in Rust where there is rustc.
set -euo pipefail
here=$(cd "$(dirname "$0")" && pwd)
source "$here/../workspace.sh"

uses='answer_text cat_builtin script_text batch_core proc_lang aria_base'
lay_out "$here" none "lines_bench: anyhow $uses" $(below "$here/../.." $uses)
make_program read 100
if command -v rustc > plain.log; then
    rustc -O -o out/plain "$here/split.rs"
fi
python3 "$here/measure.py" out/lines_bench out/plain
