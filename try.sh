#!/usr/bin/env bash
# Answers a change list: try.sh [--explain] [LIST]. Without a list it answers the worked example; `-` is standard input. The first time it proves and builds
# the program that answers, and says before how long that takes. The answers go to standard output, all else to standard error.
# After a bad line, and with --explain, it also builds the tool host/session.c, where a C compiler is here, which says in words what is meant.
# Exit status: 0 answered, 1 a bad line, 2 the list cannot be read or is too long, 3 something was not proved or built.
set -euo pipefail
usage="usage: try.sh [--explain] [LIST]   (docs/CHANGE-LIST.md says what a change list is)"
explain=""
case "${1:-}" in
--explain)
  explain=yes
  shift
  ;;
--help | -h)
  echo "$usage"
  exit 0
  ;;
-?*)
  echo "$usage" >&2
  exit 2
  ;;
esac
if [ $# -gt 1 ]; then
  echo "$usage" >&2
  exit 2
fi
home="$(cd "$(dirname "$0")" && pwd)"
list="$(mktemp)"
answer="$(mktemp)"
trap 'rm -f "$list" "$answer"' EXIT
named=- # the list as the tool is to name it: a file of the user's, or standard input
case "${1:-}" in
"") cp "$home/examples/worked.list" "$list" ;;
-) cat >"$list" ;;
*)
  cat -- "$1" >"$list" || exit 2
  [ ! -f "$1" ] || named="$(realpath -- "$1")"
  ;;
esac
cd "$home"
. host/machine.sh

# ---- the program that answers
todo="$(tools/prove.sh --todo bench | wc -l)"
if [ "$todo" -gt 0 ]; then
  echo "first $todo crates are proved: about $((todo * 20 / 60 + 1)) minutes. Later runs take seconds." >&2
fi
tools/prove.sh bench >&2 || exit 3

# ---- the tool that explains, where a C compiler is here
tool() {
  local archive=crates/session_face/out/libsession_face.a
  command -v cc >/dev/null 2>&1 || return 1
  [ -f "$archive" ] || echo "the tool that explains is built: about half a minute" >&2
  tools/prove.sh session_face >&2 || return 1
  mkdir -p target/host
  cc -std=c11 -O2 -Iinclude host/session.c host/reasons.c "$archive" -o target/host/explain || return 1
}
explained() { # WORD..
  target/host/explain "$@" "$named" <"$list"
}
if [ -n "$explain" ]; then
  tool || { echo "to explain, a C compiler is needed" >&2; exit 3; }
  status=0
  explained --explain || status=$?
  exit "$status"
fi

# ---- the answer
if [ "$(wc -c <"$list")" -gt 65536 ]; then
  echo "the list has more than 65,536 bytes, and the program bench answers none so long; with --explain there is room for 1,048,576" >&2
  exit 2
fi
crates/bench/out/bench <"$list" >"$answer" || exit 3
cat "$answer"
if [ ! -s "$answer" ] && [ "$(wc -l <"$list")" -gt 2 ]; then
  echo "the answer has more than 65,536 bytes, and the program bench writes none so long; with --explain there is room for 16,777,216" >&2
  exit 2
fi
bad="$(tail -n 1 "$answer" | sed -n 's/^bad\t//p')"
if [ -n "$bad" ]; then
  if tool; then
    explained >/dev/null || true
  else
    echo "line $bad is none of a change list: docs/CHANGE-LIST.md says what a line must be" >&2
  fi
  exit 1
fi
