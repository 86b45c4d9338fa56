#!/usr/bin/env bash
# run.sh: runs each lesson of this folder, compares what `lesson` writes with its .out, and draws its dumps (demos/NAME.svg).
set -eu
here=$(cd "$(dirname "$0")" && pwd)
root=$(cd "$here/.." && pwd)
. "$root/tools/need.sh"
need python3 python3
lesson=${LESSON:-$root/target/bin/lesson}
[ -x "$lesson" ] || "$root/tools/build.sh" lesson
bad=0 good=0
for script in "$here"/*.txt; do
    name=${script%.txt}
    if "$lesson" "$script" | diff "$name.out" - > /dev/null; then
        good=$((good + 1))
    else
        bad=$((bad + 1))
        echo "$(basename "$script"): another answer than $(basename "$name").out has"
    fi
    "$root/tools/lesson_svg.py" "$script" "$name.out" > "$name.svg"
done
echo "$good lessons as they should be, $bad not; pictures in demos/*.svg"
[ "$bad" = 0 ]
