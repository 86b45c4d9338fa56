#!/usr/bin/env bash
# compare.sh SEEDS [FIRST]: the program `lesson` against the Rust, on SEEDS generated scripts (seeds from FIRST, 1) in every mode of the
# generator and with each of its options that a lesson's text has. A line of progress; at the end `compared C commands, D differences`,
# exit 0 exactly if D is 0. RAPIER_SRC names the folder `src` of rapier3d 0.35.3.
#
# From a tie that the two break differently, or a step out of the domain of equality (docs/DIFFERENCES.md), to the next reset nothing is
# compared, and C counts what was. A script has 2,000 commands, 20,000 in the modes big and pile; edge, whose full tables take long to audit, is run on
# every third seed (STEP=1: on every one). LENGTH=2000 gives every script so many commands; MODES='small,pile room' are the modes instead of all; LEAVE_OUT='split|run' leaves those commands out of all scripts; LESSON is another program to compare.
set -eu
here=$(cd "$(dirname "$0")" && pwd)
root=$(cd "$here/.." && pwd)
. "$root/tools/need.sh"
seeds=${1:?usage: compare.sh SEEDS [FIRST]} first=${2:-1}
lesson=${LESSON:-$root/target/bin/lesson}
need_rust
need python3 python3
[ -x "$lesson" ] || "$root/tools/build.sh" lesson
(cd "$here" && cargo build --release --offline --quiet)

work=$(mktemp -d)
trap 'rm -r "$work"' EXIT
total=0 different=0
all="small,small wild,small room,mid,mid wild,mid room,edge,edge wild,edge room,big,big room,pile,pile room"
IFS=, read -r -a modes <<< "${MODES:-$all}"
for mode in "${modes[@]}"; do
    case $mode in
    edge*) length=${LENGTH:-2000} step=${STEP:-3} ;;
    big* | pile*) length=${LENGTH:-20000} step=1 ;;
    *) length=${LENGTH:-2000} step=1 ;;
    esac
    for ((seed = first; seed < first + seeds; seed += step)); do
        # shellcheck disable=SC2086
        "$here/target/release/gen" "$seed" "$length" $mode > "$work/script"
        if [ -n "${LEAVE_OUT:-}" ]; then
            grep -vE "^($LEAVE_OUT)( |\$)" "$work/script" > "$work/cut"
            mv "$work/cut" "$work/script"
        fi
        "$here/target/release/oracle" < "$work/script" > "$work/rust"
        "$lesson" < "$work/script" > "$work/ours"
        if python3 "$here/tools/compare.py" "$work/script" "$work/rust" "$work/ours" > "$work/said"; then
            said=$(sed -n 's/^same: \([0-9]*\) of.*/\1/p' "$work/said")
            total=$((total + said))
        else
            different=$((different + 1))
            printf '\nmode %s, seed %s: %s\n' "$mode" "$seed" "$(head -3 "$work/said")"
        fi
        printf '\r%-10s seed %d of %d: %d commands so far, %d differences ' "$mode" "$((seed - first + 1))" "$seeds" "$total" "$different" >&2
    done
done
printf '\n' >&2
echo "compared $total commands, $different differences"
[ "$different" = 0 ]
