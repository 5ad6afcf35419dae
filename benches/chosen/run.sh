#!/usr/bin/env bash
# Measures keys that were chosen against a hash: run.sh [PROGRAM]. Where no program is named, it is proved and built first.
set -euo pipefail
here=$(cd "$(dirname "$0")" && pwd)
source "$here/../workspace.sh"

program=${1:-}
if [ -z "$program" ]; then
    uses='fallback_locks proc_exec touch_numbers key_numbering dep_rules tbl_rows aria_base'
    lay_out "$here" Threads "chosen_bench: anyhow $uses" $(below "$here/../.." $uses)
    "${RT:-rt}" run -- 0 1 100 > build.log 2>&1 < /dev/null || { cat build.log; exit 1; }
    program=out/chosen_bench
fi
python3 "$here/measure.py" "$program"
