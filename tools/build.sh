#!/usr/bin/env bash
# build.sh [lesson] [archive]: what this repository makes, proved by the kit's rt and put where the scripts look; both where none is named.
#   lesson    target/bin/lesson, the program
#   archive   target/staticlib/libashwoodrung.a, the library for C and Rust, from the crate ashwoodrung_c
set -eu
root=$(cd "$(dirname "$0")/.." && pwd)
command -v rt > /dev/null || { echo "build.sh: no rt here: the Rattle kit has it" >&2; exit 1; }

# Runs rt in a crate's folder, and shows what it said where it fails.
quietly() { # CRATE WORDS..
    local crate=$1 said
    shift
    said=$(cd "$root/crates/$crate" && rt "$@" < /dev/null 2>&1) || { echo "$said" | tail -30 >&2; exit 1; }
}

[ $# -gt 0 ] || set -- lesson archive
for what in "$@"; do
    case $what in
    lesson)
        quietly lesson run
        mkdir -p "$root/target/bin"
        cp "$root/crates/lesson/out/lesson" "$root/target/bin/lesson"
        ;;
    archive)
        quietly ashwoodrung_c lib
        mkdir -p "$root/target/staticlib"
        cp "$root/crates/ashwoodrung_c/out/libashwoodrung_c.a" "$root/target/staticlib/libashwoodrung.a"
        ;;
    *)
        echo "build.sh: no $what: lesson or archive" >&2
        exit 2
        ;;
    esac
done
