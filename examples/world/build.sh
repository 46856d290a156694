#!/bin/sh
# Makes the streams of a world that tools/world.py has cut: sh examples/world/build.sh WORLD [JOBS]
#
# WORLD is the folder. Level by level: parents are made of their children's fronts. A stream has its
# name only once it is whole, so the script goes on where it was stopped; one that is older than
# world.json is made anew. Each job is one process that reads one tile. `tools/world.py build` does
# the same, and tells faults with their cures; it alone packs streams.
set -eu
top=$(cd "$(dirname "$0")/../.." && pwd)
export WORLD="$1" TOP="$top" SIMPLIFY="${SIMPLIFY:-$top/simplify}" VDPM="${VDPM:-$top/vdpm}"
export PYTHON="${PYTHON:-python3}" FACES="${FACES:-100000}"
if grep -q '^ "packed": true' "$WORLD/world.json"; then
    echo "build.sh: the streams of $WORLD are packed: tools/world.py build makes these" >&2
    exit 1
fi
level=0
while tiles=$("$PYTHON" "$top/tools/world.py" list "$WORLD" $level) && [ -n "$tiles" ]; do
    export LEVEL=$level
    # shellcheck disable=SC2016  # the words are those of each job
    printf '%s\n' "$tiles" | xargs -P "${2:-4}" -I TILE sh -euc '
        [ "$1.vdpm" -nt "$WORLD/world.json" ] && exit
        [ "$LEVEL" = 0 ] || "$PYTHON" "$TOP/tools/world.py" parent "$WORLD" "${1##*/}" \
            --faces "$FACES" --program "$VDPM"
        "$SIMPLIFY" --keep-border < "$1.obj" > "$1.vdpm.part"
        mv "$1.vdpm.part" "$1.vdpm"
        echo "$1.vdpm: level $LEVEL, $(find "$WORLD" -name "*.vdpm" | wc -l) streams"
    ' job TILE
    level=$((level + 1))
done
