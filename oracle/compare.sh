#!/usr/bin/env bash
# Compares the archive with the Rust and the paper's definitions over random operations: compare.sh [SEED ROUNDS]. Needs target/libchangegraph.a (host/archive.sh).
# Without cargo, a C compiler, or the Rust text there is nothing to compare with, and it says so. compare.sh --ready only tells whether all is here.
set -euo pipefail
cd "$(dirname "$0")/.."
. tools/report.sh
. host/toolchain.sh
source="${AUTOMERGE_SRC:-oracle/../../shared/docs/src}"
lacks=""
# The Rust text needs Rust 1.82 or later: Debian 12 has it in cargo-web and rustc-web, later releases in cargo and rustc.
if need cargo cargo-web rustc-web || need cargo cargo rustc; then
  minor="$(cargo --version | sed -nE 's/^cargo 1\.([0-9]+)\..*/\1/p')"
  [ "${minor:-0}" -ge 82 ] || lacks="cargo is older than 1.82, which the Rust text needs"
else
  lacks="no cargo"
fi
[ -n "$CC" ] || lacks="no C compiler"
[ -d "$source" ] || lacks="no Rust text: AUTOMERGE_SRC is to name the folder of automerge's src/"
if [ "${1:-}" = --ready ]; then
  [ -z "$lacks" ] || echo "$lacks"
  [ -z "$lacks" ]
  exit
fi
if [ -n "$lacks" ]; then
  left_out "the comparison with the Rust ($lacks)"
  exit 0
fi
seed="${1:-7}"
rounds="${2:-60}"
export AUTOMERGE_SRC
AUTOMERGE_SRC="$(cd "$source" && pwd)"
export CARGO_TARGET_DIR="$PWD/target/oracle"
(cd oracle && cargo build --release --offline --quiet)
mkdir -p target/host
$CC $CFLAGS oracle/drive.c target/libchangegraph.a -o target/host/drive
host="$PWD/target/host/drive"
target/oracle/release/oracle check
target/oracle/release/oracle fuzz "$seed" "$rounds" "$host" | tail -n 2

# Random text sessions, through the C function and through the Rust.
$CC $CFLAGS host/session.c host/reasons.c target/libchangegraph.a -o target/host/session
sessions=0
for each in $(seq "$seed" $((seed + 39))); do
  target/oracle/release/oracle gen-session "$each" 400 >target/host/random.list
  target/oracle/release/oracle session <target/host/random.list >target/host/random.answer 2>/dev/null
  target/host/session target/host/random.list | cmp - target/host/random.answer
  sessions=$((sessions + 1))
done
echo "sessions from seed $seed on: $sessions the same"
ran "the comparison with the Rust"
