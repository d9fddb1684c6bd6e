#!/usr/bin/env bash
# Proves the named crates and all that they depend on, and builds them: prove.sh CRATE.. . A program is then crates/CRATE/out/CRATE, a static library crates/CRATE/out/libCRATE.a. One line
# for each crate as it is done ("7 of 23, print, 12 s"); where some were proved before and are unchanged, these share a line at the end; where all were, it says nothing. What the prover
# says goes to target/prove.log, and its end is shown where a crate is not proved.
# prove.sh --todo CRATE.. lists those of them that were never proved here, a line each. RT_JOBS=N has N processes share the check of each crate; without it rt chooses.
set -euo pipefail
cd "$(dirname "$0")/.."
if [ $# = 0 ] || { [ "$1" = --todo ] && [ $# = 1 ]; }; then
  echo "usage: tools/prove.sh [--todo] CRATE.." >&2
  exit 2
fi
case "${RT_JOBS-1}" in '' | *[!0-9]* | 0) echo "RT_JOBS is a number, 1 or more" >&2; exit 2 ;; esac

# The crates of this repository that the given ones reach, themselves too.
reached() {
  WANTED="$*" awk '
    { sub(/#.*/, "") }
    /:/ { name = $1; sub(/:.*/, "", name); needs = $0; sub(/[^:]*:/, "", needs); deps[name] = needs }
    function visit(name,    list, n, k) {
      if (!(name in deps) || name in seen) return
      seen[name] = 1
      n = split(deps[name], list, " ")
      for (k = 1; k <= n; k++) visit(list[k])
      print name
    }
    END { n = split(ENVIRON["WANTED"], list, " "); for (k = 1; k <= n; k++) visit(list[k]) }' crates.txt
}

# What shows that a crate was proved here: of a library rt's stamp, of a program or a static library what was built.
shown() { # CRATE
  if [ -f "crates/$1/src/main.rt" ]; then
    echo "crates/$1/out/$1.stamp"
  elif grep -q "^$1 staticlib" crates.txt; then
    echo "crates/$1/out/lib$1.a"
  else
    echo "crates/$1/out/rlib/stamp"
  fi
}

if [ "$1" = --todo ]; then
  shift
  reached "$@" | while IFS= read -r crate; do [ -f "$(shown "$crate")" ] || echo "$crate"; done
  exit
fi

# Has rt build a crate, unless it is a static library that is newer than all that it is made of: rt itself would check such a one again.
build() { # CRATE
  local how=lib made began status=0
  made="$(shown "$1")"
  case "$made" in
  *.a)
    if [ -f "$made" ] && [ -z "$(find crates.txt $(reached "$1" | sed 's|^|crates/|') -name out -prune -o -type f -newer "$made" -print -quit)" ]; then
      return 0
    fi
    how="lib --cpu x86-64" # any x86-64 processor, as include/changegraph.h has it
    ;;
  crates/*/out/rlib/stamp) ;;
  *) how=run ;; # the program is run too, without input
  esac
  began="$(mktemp)"
  if ! (cd "crates/$1" && rt $how ${RT_JOBS:+--jobs "$RT_JOBS"} </dev/null 2>&1); then
    status=1
  elif [ "$how" != run ]; then
    touch -r "$began" "$made" # what changes while it is made counts as newer
  fi
  rm -f "$began"
  return "$status"
}

mkdir -p target
total="$(reached "$@" | wc -l)"
if ! for crate in "$@"; do build "$crate" || exit 1; done | tee target/prove.log | {
  at=0 began=$SECONDS name=""
  while IFS= read -r line; do
    if [[ "$line" =~ ^crate\ ([a-z0-9_]+):\  ]]; then
      name="${BASH_REMATCH[1]}"
    elif [[ "$line" == logic=proved* ]] && [ -n "$name" ]; then
      at=$((at + 1))
      echo "$at of $total, $name, $((SECONDS - began)) s"
      began=$SECONDS
    fi
  done
  [ "$at" = 0 ] || [ "$at" = "$total" ] || echo "$((total - at)) of $total were proved before"
}; then
  grep -vE '^(library|statements|logic|axioms|checked) |^(crate|fn) .*: (modules|proved)' target/prove.log | cut -c 1-300 | tail -n 30 >&2
  echo "not proved; target/prove.log has all that was said" >&2
  exit 1
fi
