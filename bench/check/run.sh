#!/usr/bin/env bash
# Measures `check` of a certificate of 1,024 nodes and 1,024 points over 16 states.
here=$(cd "$(dirname "${BASH_SOURCE[0]}")" && pwd) || exit 1
input=$(mktemp) || exit 1
trap 'rm -f "$input"' EXIT
python3 "$here/make-certificate.py" > "$input"
"$here/../../osposg" check < "$input" || exit 1
for _ in 1 2 3; do
    python3 "$here/../measure.py" "$input" "$here/../../crates/osposg_cli/out/osposg_cli" check
done
