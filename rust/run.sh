#!/usr/bin/env bash
# run.sh: builds the Rust crate over the proved static library, runs its tests and the examples in its documentation, and the example that
# replays a lesson, which must write what examples/falling_pile.out has.
set -eu
here=$(cd "$(dirname "$0")" && pwd)
root=$(cd "$here/.." && pwd)
. "$root/tools/need.sh"
need_cargo
need_archive "$root"
cd "$here/ashwoodrung"
cargo test --offline --quiet
if cargo run --offline --quiet --example falling_pile | diff examples/falling_pile.out -; then
    echo "rust/ashwoodrung: the tests pass, and falling_pile wrote what falling_pile.out has"
else
    echo "rust/ashwoodrung: falling_pile wrote something else than falling_pile.out" >&2
    exit 1
fi
