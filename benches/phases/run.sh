#!/usr/bin/env bash
# Proves, builds and runs the benchmark of the phases, beside plain loops in Rust.
set -euo pipefail
here=$(cd "$(dirname "$0")" && pwd)
source "$here/../workspace.sh"

uses='work_crew resv_phase resv_words touch_numbers key_numbering install_phase dep_rules tbl_rows aria_base'
lay_out "$here" Threads "phases_bench: anyhow $uses" $(below "$here/../.." $uses)
make_program 1000 10 1 1
rustc -O -o out/plain "$here/plain.rs"
python3 "$here/measure.py" out/phases_bench out/plain
