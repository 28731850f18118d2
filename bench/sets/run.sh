#!/usr/bin/env bash
# Builds the proved program crates/sets_bench and lets it measure.
exec "$(dirname "${BASH_SOURCE[0]}")/../measuring.sh" sets_bench 'ns a call'
