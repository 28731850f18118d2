#!/usr/bin/env bash
# Compares what a program prints for `gen`, and for `show` of that, with the texts of make-game.py: compare.sh PROGRAM
here=$(cd "$(dirname "${BASH_SOURCE[0]}")" && pwd) || exit 1
wanted=$(mktemp) || exit 1
trap 'rm -f "$wanted"' EXIT
same=0
for number in $(seq 1 20); do
    for size in $(seq 3 8); do
        python3 "$here/make-game.py" "$number" "$size" > "$wanted" || exit 1
        "$1" gen --number "$number" --size "$size" | cmp - "$wanted" || exit 1
        "$1" show < "$wanted" | cmp - "$wanted" || exit 1
        same=$((same + 1))
    done
done
echo "$same games are the same"
