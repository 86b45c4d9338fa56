#!/usr/bin/env bash
# wrong_kind.sh: an edge number handed to a call that wants an island does not compile. The compiler refuses it before the prover sees it, so it
# can be no must-fail edit of the gate (`rt must-fail` calls one that does not compile a BAD EDIT): this script tries it on a copy, and reads the
# refusal. Needs the kit's `rt`; proves nothing, and needs nothing proved (`rt try` compiles, and wants a test to run, so the copy gets an empty one).
set -eu
root=$(cd "$(dirname "$0")/.." && pwd)
command -v rt > /dev/null || { echo "wrong_kind.sh: no rt here: the Rattle kit has it" >&2; exit 1; }
work=$(mktemp -d)
trap 'rm -r "$work"' EXIT
cp "$root/crates.txt" "$work"
(cd "$root" && tar c --exclude=out crates) | tar x -C "$work"
code=$work/crates/ashwoodrung/src/lib.rt
printf '\n#[test]\nfn is_compiled() {}\n' >> "$code"
tried() { (cd "$work/crates/ashwoodrung" && rt try --test 2>&1 < /dev/null || true); }

said=$(tried)
if ! echo "$said" | grep -q '^test is_compiled \.\.\. ok$'; then
    echo "wrong_kind.sh: the copy does not compile as it stands; rt said:" >&2
    echo "$said" | tail -5 >&2
    exit 1
fi
sed -i 's/host_calls::split(t, Island(island))/host_calls::split(t, Edge(island))/' "$code"
said=$(tried)
if echo "$said" | grep -q 'expected `Island`, found `Edge`'; then
    echo "an edge for an island: refused by the compiler: expected \`Island\`, found \`Edge\`"
else
    echo "wrong_kind.sh: an edge for an island was not refused as a wrong kind; rt said:" >&2
    echo "$said" | tail -5 >&2
    exit 1
fi
