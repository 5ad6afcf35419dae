#!/usr/bin/env bash
# Proves, builds and runs the benchmark of `execute`: run.sh [COMMIT]. With a commit its crates are
# measured beside those of this folder, in turns.
set -euo pipefail
here=$(cd "$(dirname "$0")" && pwd)
source "$here/../workspace.sh"
built=$(mktemp -d)
trap 'rm -rf "$built"' EXIT

uses='exec_phase cat_builtin tbl_snapshot tbl_rows proc_lang aria_base'

# build TOP NAME: the program over the crates that lie in TOP.
build() (
    lay_out "$1/benches/execute" Threads "execute_bench: anyhow $uses" $(below "$1" $uses)
    make_program 0 1 1
    cp out/execute_bench "$built/$2"
)

if [ $# -gt 0 ]; then
    mkdir "$built/top"
    git -C "$here/../.." archive --format=tar "$1" -- crates crates.txt | tar -x -C "$built/top"
    mkdir -p "$built/top/benches"
    cp -r "$here" "$built/top/benches/"
    build "$built/top" before
fi
build "$here/../.." after
python3 "$here/measure.py" "$built"
