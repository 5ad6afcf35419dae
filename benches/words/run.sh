#!/usr/bin/env bash
# Proves, builds and runs the benchmark of the reservation words.
set -euo pipefail
here=$(cd "$(dirname "$0")" && pwd)
source "$here/../workspace.sh"
lay_out "$here" Threads 'words_bench: anyhow aria_base resv_words' aria_base resv_words
make_program
out/words_bench
