#!/bin/sh
# Measures what writers wait where others poll, each in a thread of its own. README.md says what is measured, and how. It needs the kit.
#
# usage: bench/shared.sh
set -e
most=0
. "$(dirname "$0")/begin.sh"

build rig_shared rig_shared run
for try in 1 2 3 4 5; do measure rig_shared; done
