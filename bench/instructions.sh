#!/usr/bin/env bash
# instructions.sh: how many instructions a split takes, in the Rust and in the library with the audit taken off; a table on standard output,
# and in docs/SPEED.md with the date where SPEED=1 is set. RAPIER_SRC names the folder `src` of rapier3d 0.35.3.
# Counted by valgrind's callgrind, as the difference of two runs of one program (src/split.rs), so on x86-64 only.
set -eu
here=$(cd "$(dirname "$0")" && pwd)
root=$(cd "$here/.." && pwd)
. "$root/tools/need.sh"
need_cargo
need_archive "$root"
need valgrind valgrind
if [ "$(uname -m)" != x86_64 ]; then
    echo "instructions.sh: valgrind counts x86-64 code on x86-64 only" >&2
    exit 1
fi
cd "$here"
cargo build --release --offline --quiet
program=target/release/bench
work=$(mktemp -d)
trap 'rm -r "$work"' EXIT

count() { # SIDE BODIES LINKS PARTS TURNS
    valgrind --tool=callgrind --callgrind-out-file=/dev/null "$program" split "$@" "$work/words" 2>&1 > /dev/null | sed -n 's/.*Collected : //p'
}

row() { # BODIES LINKS PARTS
    "$program" split words "$@" 0 "$work/words"
    local rust ours
    rust=$(($(count rust "$@" 1) - $(count rust "$@" 0)))
    ours=$(($(count ours "$@" 1) - $(count audit "$@" 1)))
    echo "| $1 | $2 | $3 | $rust | $ours | $(awk "BEGIN { printf \"%.2f\", $ours / $rust }") |"
}

{
    echo "Instructions of one split, counted by callgrind:"
    echo
    echo "| bodies | links | parts | the Rust | ours, audit aside | ours / the Rust |"
    echo "|---|---|---|---|---|---|"
    for size in "16 64" "256 1024" "4000 16000"; do
        # shellcheck disable=SC2086
        row $size 1
        # shellcheck disable=SC2086
        row $size 2
    done
} | tee "$work/table"
if [ -n "${SPEED:-}" ]; then python3 "$here/speed.py" "$work/table" "$root/docs/SPEED.md" instructions; fi
