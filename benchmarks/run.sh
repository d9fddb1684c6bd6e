#!/usr/bin/env bash
# Makes the archive and runs the benchmarks on this machine (x86-64 Linux with a C compiler): run.sh [session | public | graph | count]. `session` is the text session's speed; `public` what
# a call of C costs, and the check's share; `graph` times the Rust and the archive on the same inputs in one run and prints ratios; `count` counts instructions of the same cases
# (valgrind). Without a word the first three.
set -euo pipefail
cd "$(dirname "$0")/.."
what="${1:-all}"
host/archive.sh >/dev/null
mkdir -p target/benchmarks
if [ "$what" = session ] || [ "$what" = all ]; then
  cc -std=c11 -O2 -Wall -Wextra -Werror -Iinclude benchmarks/session.c target/libchangegraph.a -o target/benchmarks/session
  target/benchmarks/session
fi
if [ "$what" = session ]; then
  exit
fi
tools/prove.sh benchmark_cores >/dev/null
cores=crates/benchmark_cores/out/libbenchmark_cores.a
if [ "$what" = public ] || [ "$what" = all ]; then
  cc -std=c11 -O2 -Wall -Wextra -Werror -Iinclude benchmarks/public.c target/libchangegraph.a "$cores" -o target/benchmarks/public
  target/benchmarks/public
fi
if [ "$what" = public ]; then
  exit
fi
source="${AUTOMERGE_SRC:-oracle/../../shared/docs/src}"
export AUTOMERGE_SRC
AUTOMERGE_SRC="$(cd "$source" && pwd)"
cp target/libchangegraph.a "$cores" target/benchmarks/
export CHANGEGRAPH_LIB="$PWD/target/benchmarks" CARGO_TARGET_DIR="$PWD/target/oracle"
(cd oracle && cargo build --profile plain --offline --quiet --features archive)
program=target/oracle/plain/oracle
if [ "$what" != count ]; then
  "$program" bench
  exit
fi
echo "| case | side | instructions an operation |"
echo "|---|---|---|"
"$program" bench names | while IFS=$'\t' read -r name side operations; do
  total="$(valgrind --tool=callgrind --callgrind-out-file=/dev/null --toggle-collect='*measured*' "$program" bench once "$name" "$side" 2>&1 | sed -n 's/.*Collected : //p')"
  echo "| $name | $side | $((total / operations)) |"
done
