#!/bin/sh
# Measures a store that grows while it is mounted: imports beside puts, copies, and look-ups. README.md says what is measured, and how. It
# needs the kit.
#
# usage: bench/store.sh
set -e
most=0
. "$(dirname "$0")/begin.sh"

build rig_store rig_store run
for try in 1 2 3; do measure rig_store; done
