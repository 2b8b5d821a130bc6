#!/bin/sh
# Measures what filters cost. README.md says what is measured, and how. It needs the kit.
#
# usage: bench/filters.sh
set -e
most=0
. "$(dirname "$0")/begin.sh"

build rig_tables rig_tables run -- filters
measure rig_tables filters
build rig_mounts rig_mounts run -- basis
measure rig_mounts basis
