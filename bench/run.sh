#!/usr/bin/env bash
# run.sh [quick]: the benchmark; writes its tables to standard output, and to docs/SPEED.md with the date where SPEED=1 is set.
# RAPIER_SRC names the folder `src` of rapier3d 0.35.3. `quick` makes a tenth of the turns.
set -eu
here=$(cd "$(dirname "$0")" && pwd)
root=$(cd "$here/.." && pwd)
. "$root/tools/need.sh"
need_cargo
need_archive "$root"
# On Arm the library is x86-64 code, so both sides are built for x86-64 and run under one emulator.
if [ -n "$on" ]; then export BENCH_NOTE=", both sides under one emulator on $(uname -m), so only ratios mean something"; fi
cd "$here"
cargo build --release --offline --quiet
program="cargo run --release --offline --quiet --"
if [ -n "${SPEED:-}" ]; then
    work=$(mktemp)
    $program "$@" | tee "$work"
    python3 "$here/speed.py" "$work" "$root/docs/SPEED.md"
    rm "$work"
else
    $program "$@"
fi
