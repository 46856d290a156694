#!/usr/bin/env bash
# Draws an open terrain of 45,000 faces at 450, by `build` and by `simplify`, as simplified-1.svg
# and simplified-2.svg: bash docs/pictures/simplified.sh [VDPM SIMPLIFY]
# Both are drawn by one camera.
set -euo pipefail
cd "$(dirname "${BASH_SOURCE[0]}")/../.."
vdpm=${1:-./vdpm} simplify=${2:-./simplify}
work=$(mktemp -d)
trap 'rm -r "$work"' EXIT
python3 benches/terrain.py 150 > "$work/terrain.obj"
for by in "$vdpm build" "$simplify"; do
    $by 450 < "$work/terrain.obj" > "$work/stream"
    echo w | cat "$work/stream" - | "$vdpm" view 0
done | python3 tools/frames_to_svg.py docs/pictures/simplified --width 480 --from 0.4 -3 1.9 --back
