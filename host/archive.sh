#!/usr/bin/env bash
# Makes target/libchangegraph.a, which C programs link: proves the crate changegraph, which exports all that C calls, and what it stands on, and has rt build its archive;
# a line a crate. It takes no argument. RT_JOBS=N has N processes share each crate's check; without it rt chooses.
set -euo pipefail
cd "$(dirname "$0")/.."
if [ $# != 0 ]; then
  echo "usage: host/archive.sh (no arguments; RT_JOBS=N for N processes in each check)" >&2
  exit 2
fi
. host/machine.sh
echo "proving what the archive needs, where that was not done before"
tools/prove.sh changegraph
made=crates/changegraph/out/libchangegraph.a
if ! cmp -s "$made" target/libchangegraph.a; then
  cp "$made" target/libchangegraph.a
fi
echo "target/libchangegraph.a is made"
