#!/usr/bin/env bash
# run.sh [CALLS [SEED]]: the damage tests on the compiled library; ends with `N calls, 0 failures, R calls/s`.
# run.sh valgrind [CALLS [SEED]]: well-formed tables in memory that was never written, under valgrind's memcheck.
# run.sh stack [CALLS [SEED]]: how deep a stack the calls take.
# run.sh sanitizer [CALLS [SEED]]: the damage tests with the harness itself under gcc's sanitizers.
# CC, CFLAGS and LDFLAGS are heeded.
set -eu
here=$(cd "$(dirname "$0")" && pwd)
root=$(cd "$here/.." && pwd)
. "$root/tools/need.sh"
need_cc
need_archive "$root"
out=$root/target/damage
mkdir -p "$out"
build() { # NAME FLAGS..
    local name=$1
    shift
    $cc -std=gnu11 -g -pthread "$@" -Wall -Wextra -Werror ${CFLAGS:-} -I "$root/include" "$here/damage.c" "$here/judge.c" \
        "$root/target/staticlib/libashwoodrung.a" ${LDFLAGS:-} -o "$out/$name"
}
case ${1:-} in
valgrind)
    shift
    need valgrind valgrind
    build plain -O1
    exec valgrind -q --error-exitcode=1 "$out/plain" fresh "${1:-20000}" "${2:-1}"
    ;;
sanitizer)
    shift
    build sanitized -O1 -fsanitize=undefined -fno-sanitize-recover=all
    exec $on "$out/sanitized" "${1:-400000}" "${2:-1}"
    ;;
*)
    build damage -O2
    exec $on "$out/damage" "$@"
    ;;
esac
