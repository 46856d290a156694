#!/usr/bin/env bash
# Makes the pictures of this folder anew: bash docs/pictures/make.sh [PROGRAM [SIMPLIFY]]
# They are ./vdpm and ./simplify unless others are named.
set -euo pipefail
cd "$(dirname "${BASH_SOURCE[0]}")/../.."
vdpm=${1:-./vdpm}
simplify=${2:-./simplify}
work=$(mktemp -d)
trap 'rm -r "$work"' EXIT
"$simplify" 0 --digits 1 < examples/asteroid.obj > "$work/asteroid.vdpm"

# Draws the frames of a script: its file, the pictures' name, and how they are drawn.
draw() {
    local script=$1 name=$2
    shift 2
    cat "$work/asteroid.vdpm" "$script" | "$vdpm" view 3238 |
        python3 tools/frames_to_svg.py "docs/pictures/$name" --width 640 "$@"
}

# The third front has every record split.
(cat examples/asteroid_fronts.script; seq -f 's %.0f' 0 3237; echo w) > "$work/fronts.script"
draw "$work/fronts.script" fronts --from 0 -3 1
draw examples/asteroid_outline.script outline --from 0 -10 3
draw examples/asteroid_glide.script glide --from 0 -10 3
python3 tools/flight.py --at 0 0 0 --tolerance 16 --width 640 --height 480 \
    < examples/asteroid.eyes > "$work/flight.script"
draw "$work/flight.script" flight --at 0 0 0 --height 480 --eyes "$work/flight.script"
# A terrain with a flat sea, by error and by deviation.
python3 benches/terrain.py 60 sea | "$simplify" > "$work/sea.vdpm"
for line in v vd; do
    printf '%s 0 -30000 14000 600 12\nw\n' "$line" | cat "$work/sea.vdpm" - | "$vdpm" live 4000
done | python3 tools/frames_to_svg.py docs/pictures/flat --width 640 --from 0 -3 1.6
bash docs/pictures/simplified.sh "$vdpm" "$simplify"
python3 docs/pictures/split.py
python3 docs/pictures/crates.py
# This needs a Chromium.
python3 docs/pictures/window.py "$vdpm"
