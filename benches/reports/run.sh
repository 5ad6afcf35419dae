#!/usr/bin/env bash
# Proves, builds and runs the benchmark of the check of reports.
set -euo pipefail
here=$(cd "$(dirname "$0")" && pwd)
source "$here/../workspace.sh"

uses=$(below "$here/../.." aria_top serial_check)
lay_out "$here" Threads "reports_bench: anyhow $uses" $uses
make_program 1 100 1000
python3 "$here/measure.py" out/reports_bench
