#!/usr/bin/env bash
# Builds the proved program crates/simplex_bench and lets it measure.
exec "$(dirname "${BASH_SOURCE[0]}")/../measuring.sh" simplex_bench 'ns an entry'
