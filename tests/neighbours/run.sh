#!/usr/bin/env bash
# run.sh: every lesson here against what it should print. Ends with 'K lessons, D differences'. Wants target/bin/lesson (tools/build.sh lesson).
set -u
cd "$(dirname "$0")"
lessons=0 different=0
for script in *.txt; do
  lessons=$((lessons + 1))
  ../../target/bin/lesson < "$script" | diff - "${script%.txt}.out" > /dev/null || { echo "differs: $script"; different=$((different + 1)); }
done
echo "$lessons lessons, $different differences"
[ "$different" = 0 ]
