#!/usr/bin/env bash
# Builds a proved program that measures, and prints the lines of what it measured.
# Usage: measuring.sh CRATE UNIT, where each of those lines has the words of the unit.
set -e
cd "$(dirname "${BASH_SOURCE[0]}")/../crates/$1"
if output=$(rt run -- measure 2>&1); then
    grep "$2" <<<"$output"
else
    echo "$output"
    exit 1
fi
