#!/usr/bin/env bash
# Proves, builds and runs the benchmark of checkpoints.
set -euo pipefail
here=$(cd "$(dirname "$0")" && pwd)
source "$here/../workspace.sh"

uses='dir_disk workloads command_words slot_images image_text checkpoint disk_model load_gen answer_text script_text tbl_rows proc_lang batch_rules aria_base'
lay_out "$here" none "checkpoints_bench: anyhow $uses" $(below "$here/../.." $uses)
make_program 100
python3 "$here/measure.py" out/checkpoints_bench
