#!/bin/sh
# Measures a table that grows with a copy after each batch, copies of large tables, and look-ups beside a plain map. README.md says what is
# measured, and how. It needs the kit.
#
# usage: bench/segments.sh
set -e
most=0
. "$(dirname "$0")/begin.sh"

build rig_tables rig_tables run -- segments
for try in 1 2 3; do measure rig_tables segments; done
