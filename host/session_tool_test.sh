#!/usr/bin/env bash
# Tests the session tool (host/session.c) by what it writes and its exit status: session_tool_test.sh COMMAND..., where the command runs the tool from the
# root of the tree, as in host/session_tool_test.sh target/host/session. Last line: session tool: N runs, M wrong; exit status 1 where any was wrong.
#
# Each list of examples/wrong has a bad line. NAME.said is what the tool says of it, and `answers` has a line for each: its name, tab, its answer, in
# which \t is a tab and \n an LF. Lists that are too long to be kept are made here.
set -euo pipefail
cd "$(dirname "$0")/.."
if [ $# -eq 0 ]; then
  echo "usage: session_tool_test.sh COMMAND..." >&2
  exit 2
fi
tool=("$@")
work="$(mktemp -d)"
trap 'rm -rf "$work"' EXIT
runs=0
wrong=0

# One run: what it is, the exit status, the files with standard output and standard error that are wanted, and the tool's arguments.
check() {
  local what="$1" status="$2" out="$3" err="$4" got=0
  shift 4
  "${tool[@]}" "$@" >"$work/out" 2>"$work/err" || got=$?
  cat "$out" >"$work/want.out"
  cat "$err" >"$work/want.err"
  judged "$what" "$status" "$got"
}

# Compares what a run gave with what is wanted.
judged() {
  runs=$((runs + 1))
  if [ "$2" != "$3" ] || ! cmp -s "$work/want.out" "$work/out" || ! cmp -s "$work/want.err" "$work/err"; then
    wrong=$((wrong + 1))
    echo "session tool: $1: exit status $3, wanted $2"
    diff "$work/want.out" "$work/out" | cut -c 1-200 | sed 's/^/  standard output: /' | head -n 10 || true
    diff "$work/want.err" "$work/err" | cut -c 1-200 | sed 's/^/  standard error: /' | head -n 10 || true
  fi
}

# A run whose standard output has no room: exit status 2, and what is said.
check_full() {
  local what="$1" got=0
  shift
  "${tool[@]}" "$@" >/dev/full 2>"$work/err" || got=$?
  : >"$work/out"
  : >"$work/want.out"
  echo "standard output: cannot be written: No space left on device" >"$work/want.err"
  judged "$what" 2 "$got"
}

# Parts of a list: its first two lines; the hash of a change; an `add` line with change, sequence and dependencies; a line so many times; a list with a hash
# so many times.
start() { printf 'change list\t1\nactors\t2\n'; }
hash() { printf '%064x' "$1"; }
add() { printf 'add\t%064x\t0\t%d\t%d\t1\t%s\n' "$1" "$2" "$2" "$3"; }
repeat() { seq "$1" | sed "s|.*|$2|"; }
joined() { repeat "$1" "$2" | paste -s -d , -; }

# What is said where the list or the answer is too long for the small program.
note() { printf "%s: note: %s has %s bytes; the program \`bench\`, which has room for 65,536, would write nothing\n" "$1" "$2" "$3"; }

# Wrong lists.
names=0
while IFS=$'\t' read -r name answer; do
  names=$((names + 1))
  check "$name" 1 <(printf '%b' "$answer") "examples/wrong/$name.said" "examples/wrong/$name.list"
done <examples/wrong/answers
lists="$(find examples/wrong -name '*.list' | wc -l)"
if [ "$names" -ne "$lists" ]; then
  wrong=$((wrong + 1))
  echo "session tool: examples/wrong has $lists lists and $names answers"
fi
check "a wrong list on standard input" 1 <(printf 'heads\t-\nbad\t4\n') <(sed '1s/^[^:]*/standard input/' examples/wrong/near-word.said) <examples/wrong/near-word.list
check "a wrong list explained" 1 \
  <(printf 'heads\t-  # line 3: no heads: there is no change yet\nbad\t4  # line 4: bad: no line from here on is answered; standard error says why\n') \
  examples/wrong/near-word.said --explain examples/wrong/near-word.list
check "a wrong first line explained" 1 <(printf 'bad\t1  # line 1: bad: no line from here on is answered; standard error says why\n') \
  examples/wrong/empty.said --explain examples/wrong/empty.list

# Right lists, from a file and from standard input, and in words.
check "the worked example" 0 examples/worked.answer /dev/null examples/worked.list
check "the worked example on standard input" 0 examples/worked.answer /dev/null <examples/worked.list
check "the worked example as -" 0 examples/worked.answer /dev/null - <examples/worked.list
check "the worked example after --" 0 examples/worked.answer /dev/null -- examples/worked.list
check "the worked example explained" 0 examples/worked.explained /dev/null --explain examples/worked.list
check "the option after the file" 0 examples/worked.explained /dev/null examples/worked.list --explain
start >"$work/list"
check "a list that asks nothing" 0 /dev/null /dev/null "$work/list"
check "a list that asks nothing, explained" 0 /dev/null /dev/null --explain "$work/list"
sed 's/  # .*//' examples/worked.explained >"$work/want.out"
cp examples/worked.answer "$work/out"
: >"$work/want.err"
: >"$work/err"
judged "the answer is what stands before the words" 0 0

# The document: the list that it makes, and what it shows of a wrong one.
sed -n '/^```sh$/,/^```$/p' docs/CHANGE-LIST.md | sed '/^```/d' >"$work/make.sh"
(cd "$work" && bash make.sh)
check "the list that docs/CHANGE-LIST.md makes" 0 examples/worked.answer /dev/null "$work/my.list"
while IFS= read -r line; do
  grep -qxF -- "$line" docs/CHANGE-LIST.md || {
    wrong=$((wrong + 1))
    echo "session tool: docs/CHANGE-LIST.md does not have: $line"
  }
done <examples/wrong/spaces.said

# Every number in words.
{
  start
  printf 'clock\t-\nowner\t1\t4\n'
  add 1 1 -
  printf 'add\t%s\t2\t1\t1\t1\t-\n' "$(hash 2)"
  add 2 3 -
  printf 'add\t%s\t0\t2\t4294967296\t1\t-\n' "$(hash 2)"
  printf 'add\t%s\t0\t2\t2\t3\t-\n' "$(hash 2)"
  add 2 2 "$(joined 33 "$(hash 1)")"
  add 2 2 "$(hash 1),$(hash 9)"
  add 1 9 "$(hash 9)"
  printf 'missing\t%s\nmissing\t-\n' "$(hash 1)"
  for change in $(seq 2 33); do add "$change" "$change" "$(joined 32 "$(hash 1)")"; done
  add 34 34 "$(hash 1)"
  for change in $(seq 34 256); do add "$change" "$change" -; done
  add 257 257 -
  printf 'missing\t%s\nheads\nclock\t%s\n' "$(hash 254)" "$(hash 7)"
} >"$work/list"
cat >"$work/numbers" <<END
clock	0,0  # line 3: actor 0: nothing; actor 1: nothing
owner	14  # line 4: no change owns this op: counter 4 of actor 1
add	0  # line 5: accepted, change 1 of actor 0
add	5  # line 6: refused: no such actor (the list has 2, numbered from 0)
add	6  # line 7: refused: the sequence is not the actor's count of changes plus 1 (which is 2 for actor 0)
add	7  # line 8: refused: the max op is above 4,294,967,295, or the op count above the max op
add	7  # line 9: refused: the max op is above 4,294,967,295, or the op count above the max op
add	8  # line 10: refused: more than 32 dependencies (33)
add	4	$(hash 9)  # line 11: refused: the dependency named here is unknown (the first such one in the line); add that change first
add	3  # line 12: known already: it counts as accepted, and nothing changed
missing	-  # line 13: nothing is missing
missing	$(hash 1)  # line 14: 1 change is missing
$(for change in $(seq 2 33); do printf 'add\t0  # line %d: accepted, change %d of actor 0\n' $((change + 13)) "$change"; done)
add	10  # line 47: refused: no room for the dependencies; a session holds 1,024 in all (1024 are in use, and here are 1)
$(for change in $(seq 34 256); do printf 'add\t0  # line %d: accepted, change %d of actor 0\n' $((change + 14)) "$change"; done)
add	9  # line 271: refused: no room; a session holds 256 changes
missing	$(hash 255),$(hash 256)  # line 272: 2 changes are missing, in the order in which they were added
heads	$(seq 2 256 | while read -r n; do hash "$n"; echo; done | paste -s -d , -)  # line 273: 255 heads: the changes that no other depends on
clock	7,0  # line 274: actor 0: up to its change 7; actor 1: nothing
END
check "every number explained" 0 "$work/numbers" <(note "$work/list" "the list" 90,925) --explain "$work/list"

# Limits: a line, the small program's room, the list, the answer.
number=1111111111111111111
{
  start
  printf 'add\t%s\t%s\t%s\t%s\t1\t%s\n' "$(hash 2)" "$number" "$number" "${number:0:14}" "$(joined 35 "$(hash 3)")"
} >"$work/list"
check "a line of 2,400 bytes" 0 <(printf 'add\t4\t%s\n' "$(hash 3)") /dev/null "$work/list"
sed -i '3s/\t1\t/1\t1\t/' "$work/list"
cat >"$work/said" <<END
standard input: line 3 is bad (2,401 bytes); no line from here on is answered
    …$(tail -n 1 "$work/list" | tail -c 82)
$(printf '%85s^' '')
    The line has 2,401 bytes; at most 2,400 may stand before its LF.
    Name fewer hashes in it, and see whether an LF is missing.
END
check "a line of 2,401 bytes" 1 <(printf 'bad\t3\n') "$work/said" <"$work/list"

{
  start
  repeat 921 "$(printf 'clock\t%s' "$(hash 1)")"
  repeat 17 heads
  repeat 2 "$(printf 'owner\t0\t0')"
} >"$work/list"
{
  repeat 921 "$(printf 'clock\t0,0')"
  repeat 17 "$(printf 'heads\t-')"
  repeat 2 "$(printf 'owner\t14')"
} >"$work/answer"
check "a list of 65,536 bytes" 0 "$work/answer" /dev/null <"$work/list"
sed -i '$s/0$/10/' "$work/list"
check "a list of 65,537 bytes" 0 "$work/answer" <(note "standard input" "the list" 65,537) <"$work/list"
{ start && repeat 8192 heads; } >"$work/list"
check "an answer of 65,536 bytes" 0 <(repeat 8192 "$(printf 'heads\t-')") /dev/null <"$work/list"
echo heads >>"$work/list"
check "an answer of 65,544 bytes" 0 <(repeat 8193 "$(printf 'heads\t-')") <(note "standard input" "the answer" 65,544) <"$work/list"

{ printf 'change list\t1\nactors\t16\nowner\t0\t0\n' && repeat 174757 heads; } >"$work/list"
check "a list of 1,048,576 bytes" 0 <(printf 'owner\t14\n' && repeat 174757 "$(printf 'heads\t-')") \
  <(note "standard input" "the list" 1,048,576 && note "standard input" "the answer" 1,398,065) <"$work/list"
echo >>"$work/list"
check "a list of 1,048,577 bytes" 2 /dev/null \
  <(echo "standard input: the list is longer than 1,048,576 bytes, which is the room for a list; ask fewer questions at a time") <"$work/list"
{
  start
  for change in $(seq 1 256); do add "$change" "$change" -; done
  repeat 1007 "$(printf 'missing\t-')"
} >"$work/list"
missing="$(printf 'missing\t%s' "$(seq 1 256 | while read -r n; do hash "$n"; echo; done | paste -s -d , -)")"
check "an answer of 16,766,072 bytes" 0 <(repeat 256 "$(printf 'add\t0')" && repeat 1007 "$missing") <(note "standard input" "the answer" 16,766,072) <"$work/list"
printf 'missing\t-\n' >>"$work/list"
check "an answer of more than 16,777,216 bytes" 2 /dev/null \
  <(echo "standard input: the answer is longer than 16,777,216 bytes, which is the room for an answer; ask fewer questions at a time") <"$work/list"

# What cannot be read or written.
check "a missing file" 2 /dev/null <(echo "$work/none: cannot be opened: No such file or directory") "$work/none"
check "a file that is named as an option" 2 /dev/null <(echo "--help: cannot be opened: No such file or directory") -- --help
check "a directory" 2 /dev/null <(echo "examples: cannot be read: Is a directory") examples
check "a directory on standard input" 2 /dev/null <(echo "standard input: cannot be read: Is a directory") <examples
if [ -c /dev/full ]; then
  check_full "no room for the answer" examples/worked.list
  check_full "no room for the words" --explain examples/worked.list
  check_full "no room for the help" --help
  check_full "no room for the answer of a wrong list" examples/wrong/near-word.list
  check_full "no room for a long answer" <(start && repeat 10000 heads)
fi

# Help, and commands that are wrong.
"${tool[@]}" --help >"$work/help" || true
for words in "usage: session [--explain] [FILE]" "Exit status" "1,048,576 bytes" "16,777,216 bytes" "65,536 bytes"; do
  grep -qF -- "$words" "$work/help" || {
    wrong=$((wrong + 1))
    echo "session tool: --help does not say: $words"
  }
done
check "--help" 0 "$work/help" /dev/null --help
check "-h" 0 "$work/help" /dev/null -h
usage() { printf 'session: %s\nusage: session [--explain] [FILE]\nTry: session --help\n' "$1"; }
check "an unknown option" 2 /dev/null <(usage "no such option: --frob") --frob examples/worked.list
check "an unknown short option" 2 /dev/null <(usage "no such option: -x") -x
check "two files" 2 /dev/null <(usage "more than one file") examples/worked.list examples/worked.list

echo "session tool: $runs runs, $wrong wrong"
[ "$wrong" -eq 0 ]
