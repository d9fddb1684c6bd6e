#!/usr/bin/env bash
# Tests the program that answers a change list at its limits: limits_test.sh [PROGRAM], without a word crates/bench/out/bench. No contract can say what a program reads and
# writes, so runs show it: a list of 65,536 bytes is answered and an answer of 65,536 bytes written; with a byte more of either nothing is, whatever the lines say and
# however they come. No answer is computed: each stands here beside its line. Prints what is wrong, and a line; exit status 1 where anything is. It takes a few seconds.
set -euo pipefail
cd "$(dirname "$0")/.."
. tools/report.sh
program="${1:-crates/bench/out/bench}"
if [ ! -f "$program" ]; then
  echo "there is no program $program; tools/prove.sh bench makes crates/bench/out/bench" >&2
  exit 2
fi
command=("$program")
room="$(mktemp -d)"
trap 'rm -rf "$room"' EXIT
list="$room/list"
answer="$room/answer"
runs=0
wrong=0

# ---- a list and its answer, line by line

begin() { exec 3>"$list" 4>"$answer" && printf 'change list\t1\nactors\t2\n' >&3; }
line() { printf "$1\n" >&3 && printf "$2\n" >&4; } # LINE ANSWER
lines() { # HOW-MANY LINE ANSWER
  local k
  for ((k = 0; k < $1; k++)); do line "$2" "$3"; done
}

# All the changes that there is room for, of actor 0, each on the one before it; change k has the op k.
changes() {
  local k hash before=-
  for ((k = 1; k <= 256; k++)); do
    printf -v hash '%064x' "$k"
    line "add\t$hash\t0\t$k\t$k\t1\t$before" 'add\t0'
    before="$hash"
  done
}

# Who owns an op, each time one of another change: 71 bytes of answer.
owners() { # HOW-MANY
  local k op hash
  for ((k = 0; k < $1; k++)); do
    op=$((k * 37 % 256 + 1))
    printf -v hash '%064x' "$op"
    line "owner\t0\t$op" "owner\t$hash"
  done
}

# The clock of so many hashes that no change has: 6 bytes and 65 for each, and 10 of answer.
clock_of() { # HOW-MANY
  line "clock\t$(yes "$(printf '%064d' 0 | tr 0 f)" | head -n "$1" | paste -s -d , -)" 'clock\t0,0'
}

# ---- runs

complain() {
  wrong=$((wrong + 1))
  echo "limits: $1"
}

# One run, on standard input.
run() { timeout 60 "${command[@]}" >"$room/wrote" 2>"$room/said"; }

# What a run came to: it must end by itself with status 0, say nothing on standard error and write the answer.
judge() { # WORDS STATUS
  ended "$1" "$2"
  cmp -s "$answer" "$room/wrote" ||
    complain "$1: wrote $(wc -c <"$room/wrote") bytes ending in '$(tail -c 20 "$room/wrote" | tr -c '[:print:]' ' ')', not the $(wc -c <"$answer") that are right"
}
ended() { # WORDS STATUS
  runs=$((runs + 1))
  [ "$2" = 0 ] || complain "$1: ended with status $2"
  [ ! -s "$room/said" ] || complain "$1: wrote to standard error"
}

# A long list in pieces with pauses between them, so that no read gets all of it; its last byte comes alone, and then the end.
pieces() {
  local size left
  left="$(wc -c <"$list")"
  {
    for size in 1 13 4096 4097 20000; do
      head -c "$size"
      sleep 0.02
      left=$((left - size))
    done
    head -c $((left - 1))
    sleep 0.02
    cat
    sleep 0.02
  } <"$list"
}

# From a file, from a pipe, and from a pipe in pieces.
each_way() { # WORDS
  local status=0
  run <"$list" || status=$?
  judge "$1" "$status"
  status=0
  cat "$list" 2>/dev/null | run || status="${PIPESTATUS[1]}"
  judge "$1, from a pipe" "$status"
  if [ "$(wc -c <"$list")" -gt 30000 ]; then
    status=0
    pieces 2>/dev/null | run || status="${PIPESTATUS[1]}"
    judge "$1, in pieces" "$status"
  fi
}

# The list has so many bytes and its answer so many.
sized() { # WORDS BYTES BYTES
  local sizes
  exec 3>&- 4>&-
  sizes="$(wc -c <"$list") $(wc -c <"$answer")"
  [ "$sizes" = "$2 $3" ] || complain "$1: the test itself is wrong, list and answer have $sizes bytes"
}

# It is answered; it is not, and nothing is written.
written() { # WORDS BYTES BYTES
  sized "$@"
  each_way "$1"
}
nothing() { # WORDS BYTES BYTES
  sized "$@"
  : >"$answer"
  each_way "$1"
}

# ---- how long a list may be

begin
lines 921 "clock\t$(printf '%064d' 1)" 'clock\t0,0'
lines 17 heads 'heads\t-'
lines 2 'owner\t0\t0' 'owner\t14'
written "a list of 65,536 bytes" 65536 9364
cp "$list" "$room/full"
cp "$answer" "$room/full.answer"
sed '1s/^c/C/' "$room/full" >"$list"
printf 'bad\t1\n' >"$answer"
written "65,536 bytes, the first line bad" 65536 6
{ head -c 65535 "$room/full" && printf 0; } >"$list"
{ head -n 939 "$room/full.answer" && printf 'bad\t942\n'; } >"$answer"
written "65,536 bytes, the last line unended" 65536 9363

# A longer list, which a command writes.
: >"$answer"
longer() { # WORDS BYTES COMMAND..
  "${@:3}" >"$list"
  nothing "$1" "$2" 0
}
more() { cat "$room/full" && printf "$1"; }
unended() { head -c 65535 "$room/full" && printf 00; }
longer "65,537 bytes, a right list" 65537 sed '$s/0$/10/' "$room/full"
longer "65,537 bytes, the first line bad" 65537 sed '1s/^/x/' "$room/full"
longer "65,537 bytes, the last line unended" 65537 unended
longer "a right list of 65,536 bytes and an LF" 65537 more '\n'
longer "a right list of 65,536 bytes and a letter" 65537 more h
longer "a right list of 65,536 bytes and a zero" 65537 more '\0'
longer "a right list of 65,542 bytes" 65542 more 'heads\n'
longer "a right list of 65,536 bytes twice" 131072 cat "$room/full" "$room/full"
longer "1,000,000 zeros" 1000000 head -c 1000000 /dev/zero
status=0
run </dev/zero || status=$?
judge "zeros without end" "$status"
status=0
yes heads 2>/dev/null | run || status="${PIPESTATUS[1]}"
judge "lines without end" "$status"

# ---- how long an answer may be

# 65,507 bytes of answer: 29 more are the most.
long() { begin && changes && owners 901; }
long
lines 2 'clock\t-' 'clock\t0,0'
line 'owner\t1\t1' 'owner\t14'
written "an answer of 65,536 bytes" 47574 65536
long
lines 3 'clock\t-' 'clock\t0,0'
nothing "an answer of 65,537 bytes" 47572 65537
long
lines 2 'clock\t-' 'clock\t0,0'
line 'owner\t1' 'bad\t1162'
written "an answer of 65,536 bytes that ends in a bad line" 47572 65536
long
lines 2 "add\t$(printf '%064x' 9)\t0\t0\t0\t0\t-" 'add\t3'
line 'owner\t1\t1' 'owner\t14'
line 'owner\t1' 'bad\t1163'
nothing "an answer of 65,537 bytes that ends in a bad line" 47724 65537
begin
changes
all="$(seq 256 | while read -r k; do printf ',%064x' "$k"; done)"
lines 60 'missing\t-' "missing\t${all:1}"
nothing "an answer of 1,000,416 bytes" 37720 1000416

# Both at once. The last 18 lines have lengths that fill the list too.
both() { # LAST-LINE ITS-ANSWER
  local k
  begin
  changes
  owners 899
  for k in 30 30 30 30 30 30 30 30 34; do clock_of "$k"; done
  lines 3 'owner\t1\t10000000000000000000' 'owner\t14'
  lines 5 'owner\t1\t0' 'owner\t14'
  line "$1" "$2"
}
both 'owner\t1\t00' 'bad\t1175'
nothing "a list of 65,537 bytes and an answer of 65,536" 65537 65536
both 'clock\t-' 'clock\t0,0'
nothing "a list of 65,534 bytes and an answer of 65,537" 65534 65537
both 'owner\t1\t0' 'owner\t14'
written "a list and an answer of 65,536 bytes" 65536 65536

# ---- an answer that cannot be written: the program ends all the same

status=0
timeout 60 "${command[@]}" <"$list" >&- 2>"$room/said" || status=$?
ended "standard output closed" "$status"
if [ -c /dev/full ]; then
  status=0
  timeout 60 "${command[@]}" <"$list" >/dev/full 2>"$room/said" || status=$?
  ended "no room on standard output" "$status"
fi
status=0 # or 141: the system by default ends a program that writes to such a pipe
{ sleep 0.1 && timeout 60 "${command[@]}" <"$list" 2>"$room/said"; } | : || status="${PIPESTATUS[0]}"
ended "a pipe that nobody reads" "${status/#141/0}"

# Standard output is a pipe without room for all of it, and the program is stopped while it waits, at which the system ends the write with a part; the rest must follow.
status=0
{
  echo "$BASHPID" >"$room/pid"
  head -c 4096 /dev/zero
  exec "${command[@]}" <"$list" 2>"$room/said"
} | {
  sleep 0.3
  kill -STOP "$(cat "$room/pid")" 2>/dev/null || true
  sleep 0.1
  kill -CONT "$(cat "$room/pid")" 2>/dev/null || true
  tail -c +4097 >"$room/wrote"
} || status="${PIPESTATUS[0]}"
judge "stopped while it writes" "$status"

# ---- no list, and lists that end early

: >"$list"
printf 'bad\t1\n' >"$answer"
written "an empty list" 0 6
status=0
run <&- || status=$?
judge "standard input closed" "$status"
status=0
run </ || status=$?
judge "a folder as standard input" "$status"
printf 'change list\t1' >"$list"
written "a first line that is not ended" 13 6
printf 'change list\t1\n' >"$list"
printf 'bad\t2\n' >"$answer"
written "a first line alone" 14 6
begin
written "no line that asks" 23 0

echo "limits: $runs runs, $wrong wrong"
[ "$wrong" = 0 ]
ran "the program at its limits of input and output"
