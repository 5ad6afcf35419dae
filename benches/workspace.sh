# For the run.sh of each benchmark to source. The gate does not see a benchmark: its sources end in .txt.

# below TOP CRATE..: these crates and all of the repository in TOP that they stand on.
below() {
    python3 - "$@" <<'END'
import sys

lines = [line.split(":") for line in open(sys.argv[1] + "/crates.txt") if not line.startswith("#")]
uses = {name.split()[0]: on.split() for name, on in lines}
found, open_names = [], sys.argv[2:]
while open_names:
    name = open_names.pop()
    if name in uses and name not in found:
        found.append(name)
        open_names += uses[name]
print(*found)
END
}

# lay_out FOLDER HANDLES LINE CRATE..
#
# Lays a benchmark out beside copies of the crates that it uses, in a temporary folder that goes when
# the script ends, and changes into the benchmark's crate there. FOLDER is where the benchmark lies,
# HANDLES what it may use of the machine, and LINE its line of crates.txt. Where GATE names a clone that
# the gate has run in, what it proved there is not proved again.
lay_out() {
    local folder=$1 handles=$2 line=$3
    shift 3
    local top=$folder/../..
    work=$(mktemp -d)
    trap 'rm -rf "$work"' EXIT
    git init -q "$work"
    printf 'Handles allowed: %s.\n' "$handles" > "$work/HANDLES"
    for crate in "$@"; do
        grep "^$crate[ :]" "$top/crates.txt" >> "$work/crates.txt"
        mkdir -p "$work/crates/$crate"
        for part in src specs proofs; do
            if [ -d "$top/crates/$crate/$part" ]; then
                cp -r "$top/crates/$crate/$part" "$work/crates/$crate/"
            fi
        done
    done
    printf '%s\n' "$line" >> "$work/crates.txt"
    local own=$work/crates/${line%%:*}
    (cd "$folder" && find . -mindepth 2 -name "*.txt") | while read -r file; do
        mkdir -p "$own/$(dirname "$file")"
        cp "$folder/$file" "$own/${file%.txt}"
    done
    if [ -n "${GATE:-}" ]; then
        "$top/tools/take_proved.py" "$work" "$GATE"
    fi
    cd "$own"
}

# make_program ARGUMENT..: leaves the benchmark's program as out/NAME in its crate. It is proved, built and run once with these
# arguments. Where UNPROVED is set it is built without a proof, as tools/build says, in minutes.
make_program() {
    local name=${PWD##*/}
    if [ -n "${UNPROVED:-}" ]; then
        "$(dirname "${BASH_SOURCE[0]}")/../tools/build" --crate "$work" "$name" "out/$name" > build.log 2>&1 || { cat build.log; return 1; }
    else
        "${RT:-rt}" run -- "$@" > build.log 2>&1 < /dev/null || { cat build.log; return 1; }
    fi
}
