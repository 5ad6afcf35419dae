#!/usr/bin/env bash
# Proves, builds and runs the benchmark of order entry's load and audit.
set -euo pipefail
here=$(cd "$(dirname "$0")" && pwd)
source "$here/../workspace.sh"

uses='tpcc_audit tpcc_load tbl_rows proc_lang aria_base'
lay_out "$here" none "orders_bench: anyhow $uses" $(below "$here/../.." $uses)
make_program 1 30 100
python3 "$here/measure.py" out/orders_bench
