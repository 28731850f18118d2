#!/usr/bin/env bash
# Measures `floor` on a game text near the largest.
here=$(cd "$(dirname "${BASH_SOURCE[0]}")" && pwd) || exit 1
game=$(mktemp) || exit 1
trap 'rm -f "$game"' EXIT
python3 "$here/make-game.py" > "$game"
"$here/../../osposg" floor < "$game" > /dev/null || exit 1
for _ in 1 2 3; do
    python3 "$here/../measure.py" "$game" "$here/../../crates/osposg_cli/out/osposg_cli" floor
done
