#!/usr/bin/env bash
# Tests try.sh on what a first user does: no list, a list from a file and from standard input, a bad line, a list that cannot be read or is too long, wrong words.
# Prints a line; exit status 1 where anything is wrong. It proves and builds what try.sh does, unless that was done before.
set -euo pipefail
cd "$(dirname "$0")/.."
. tools/report.sh
room="$(mktemp -d)"
trap 'rm -rf "$room"' EXIT
runs=0
wrong=0

# run STATUS ANSWER WORDS..: try.sh with these words must end with the status and write what the file ANSWER has
run() {
  local status=0 want="$1" answer="$2"
  shift 2
  ./try.sh "$@" >"$room/answer" 2>"$room/said" || status=$?
  runs=$((runs + 1))
  if [ "$status" != "$want" ] || ! cmp -s "$room/answer" "$answer"; then
    wrong=$((wrong + 1))
    echo "try.sh $*: status $status where $want is right, or another answer than $answer:"
    head -n 5 "$room/answer" "$room/said"
  fi
}

# said WORDS: the last run must have said this
said() {
  grep -qF -- "$1" "$room/said" || {
    wrong=$((wrong + 1))
    echo "not said: $1"
    cat "$room/said"
  }
}

: >"$room/nothing"
run 0 examples/worked.answer
run 0 examples/worked.answer examples/worked.list
run 0 examples/worked.answer - <examples/worked.list
run 0 examples/unchained.answer examples/unchained.list
printf 'change list 1\nactors 2\n' >"$room/spaces.list"
printf 'bad\t1\n' >"$room/bad"
run 1 "$room/bad" "$room/spaces.list"
said "line 1"
run 2 "$room/nothing" "$room/none.list"
head -c 65537 /dev/zero >"$room/long.list"
run 2 "$room/nothing" "$room/long.list"
said "65,536"
{ printf 'change list\t1\nactors\t16\n' && seq 3000 | sed $'s/.*/clock\t-/'; } >"$room/asks.list"
run 2 "$room/nothing" "$room/asks.list"
said "65,536"
if command -v cc >/dev/null 2>&1; then # the tool that explains is built where a compiler is here
  run 0 examples/worked.explained --explain
  run 1 "$room/bad" "$room/spaces.list"
  said "A space stands between"
fi
run 2 "$room/nothing" --unknown
run 2 "$room/nothing" one two
./try.sh --help | grep -q usage
echo "try.sh: $runs runs, $wrong wrong"
[ "$wrong" = 0 ]
ran "try.sh, as a first user runs it"
