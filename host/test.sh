#!/usr/bin/env bash
# Makes the archive, builds the C programs of host/ against it and runs the tests. Prints a line a test; exit status 1 where one failed.
set -euo pipefail
cd "$(dirname "$0")/.."
. tools/report.sh
. host/toolchain.sh
if [ -z "$CC" ]; then
  left_out "the C tests (no C compiler)"
  exit 0
fi
host/archive.sh
mkdir -p target/host

# The tests once more under valgrind, and with the compiler's sanitizers on the C side.
sanitize="-fsanitize=address,undefined"
[ -n "$MEMCHECK" ] || left_out "the C tests under valgrind"
if ! printf 'int main(void) { return 0; }\n' | $CC $sanitize -x c - -o target/host/sanitized 2>/dev/null || ! target/host/sanitized; then
  sanitize=""
  left_out "the C tests with sanitizers"
fi
tests="graph_test questions_test queue_test load_test session_test hub_test saved_test"
for test in $tests; do
  # Under valgrind fewer steps of hub_test, and of saved_test, which has a process for each byte of an image, every 16th.
  case "$test" in hub_test) fewer=20000 ;; saved_test) fewer=16 ;; *) fewer="" ;; esac
  $CC $CFLAGS "host/$test.c" target/libchangegraph.a -o "target/host/$test"
  "target/host/$test"
  if [ -n "$MEMCHECK" ]; then
    $MEMCHECK "target/host/$test" $fewer
  fi
  if [ -n "$sanitize" ]; then
    $CC $CFLAGS $sanitize "host/$test.c" target/libchangegraph.a -o "target/host/$test.sanitized"
    "target/host/$test.sanitized"
  fi
done

# Each test notices what is wrong: with a header in which two numbers are exchanged it says what failed, and fails.
other=target/host/other
rm -rf "$other"
mkdir -p "$other/host" "$other/include"
cp host/*.c host/*.h "$other/host/"
cp include/changegraph_hub.h "$other/include/"
sed 's/CG_DONE = 0/CG_DONE = 15/; s/CG_SHORT_BUFFER = 15/CG_SHORT_BUFFER = 0/' include/changegraph.h >"$other/include/changegraph.h"
for test in $tests; do
  $CC -I"$other/include" $CFLAGS "$other/host/$test.c" target/libchangegraph.a -o "$other/$test"
  if TMPDIR="$PWD/$other" "$other/$test" >"$other/said" 2>&1 || ! grep -q '^failed: ' "$other/said"; then
    echo "$test does not say that CG_DONE and CG_SHORT_BUFFER are exchanged" >&2
    exit 1
  fi
done
echo "with two numbers of the header exchanged each of these tests fails"

# saved_test notices a saver that is wrong: what is wrong with it, and how saved.c becomes so.
wrong_saver() {
  sed "$2" host/saved.c >"$other/host/saved.c"
  if cmp -s host/saved.c "$other/host/saved.c"; then
    echo "a saver $1 can no longer be made of host/saved.c" >&2
    exit 1
  fi
  $CC $CFLAGS "$other/host/saved_test.c" target/libchangegraph.a -o "$other/saved_test"
  if TMPDIR="$PWD/$other" "$other/saved_test" 16 >"$other/said" 2>&1 || ! grep -q '^failed: ' "$other/said"; then
    echo "saved_test does not notice a saver $1" >&2
    exit 1
  fi
}
wrong_saver "that writes over the old record" 's/beside\[\] = ".new"/beside[] = ""/'
wrong_saver "that does not look at the checksum" 's/sum == right/(sum == right || 1)/'
wrong_saver "that renames what is not on the disk yet" 's/ || !made_lasting(out.file)//'
wrong_saver "that lets the renaming be lost" 's/ && made_lasting(directory)//'
wrong_saver "that leaves the cached clocks" 's/row \* head->changes/row * 0/'
echo "with a saver that is wrong in one of 5 ways saved_test fails"
ran "the C tests${MEMCHECK:+, under valgrind}${sanitize:+, with sanitizers}"

# The headers as C and as C++ at every level of optimisation, with tables that hold nothing yet: no warning. An answer that is not looked at is one. The archive needs what they say.
for level in -O0 -O1 -O2 -O3 -Os; do
  $CC $CFLAGS "$level" host/fresh.c target/libchangegraph.a -o target/host/fresh
  target/host/fresh
done
printf '#include "changegraph_hub.h"\nvoid f(cg_graph *g);\nvoid f(cg_graph *g) { cg_hub_open(g, 1); }\n' >target/host/ignored.c
if $CC $CFLAGS -c target/host/ignored.c -o target/host/ignored.o 2>target/host/said || ! grep -q unused-result target/host/said; then
  echo "an answer that is not looked at gives no warning" >&2
  exit 1
fi
if need g++ g++; then
  for standard in c++11 c++17 c++20; do
    for level in -O0 -O1 -O2 -O3 -Os; do
      g++ "-std=$standard" "$level" -Wall -Wextra -Werror -Iinclude -x c++ -c host/fresh.c -o target/host/fresh.o
    done
  done
  ran "the headers as C and as C++"
else
  left_out "the headers as C++"
fi
"$($CC -print-prog-name=nm)" target/libchangegraph.a | awk '
  $1 == "U" { used[$2] = 1 }
  $2 ~ /^[TDBRVW]$/ { defined[$3] = 1 }
  END { for (name in used) if (!(name in defined)) if (name == "memcpy" || name == "memset") met++; else { print "the archive needs " name; wrong++ }; exit met != 2 || wrong > 0 }'
echo "headers: no warning; the archive needs memcpy and memset"

# A hub in small, here and built from the place where it was installed; and the session's tool on lists that are right.
$CC $CFLAGS host/example.c target/libchangegraph.a -o target/host/example
target/host/example | cmp - host/example.out
$CC $CFLAGS host/example_test.c target/libchangegraph.a -o target/host/example_test
target/host/example_test
# It notices a hub that is wrong: what is wrong with it, and how example.c becomes so.
wrong_hub() {
  sed "$2" host/example.c >"$other/host/example.c"
  if cmp -s host/example.c "$other/host/example.c"; then
    echo "a hub $1 can no longer be made of host/example.c" >&2
    exit 1
  fi
  $CC $CFLAGS "$other/host/example_test.c" target/libchangegraph.a -o "$other/example_test"
  if "$other/example_test" >"$other/said" 2>&1 || ! grep -q '^failed: ' "$other/said"; then
    echo "example_test does not notice a hub $1" >&2
    exit 1
  fi
}
wrong_hub "that drops what it released and cannot add yet" 's/= cg_let_wait(&queue, cg_key_at(&batch, i), &change)/= CG_NO_QUEUE_ROOM/'
wrong_hub "that takes one device for another" 's/uint64_t actor = cg_actor_of(&keys, key);/uint64_t actor = cg_actor_of(\&keys, key) \& 1;/'
wrong_hub "that drops what the record has no room for" 's/round->stop = number;/return REFUSED;/'
echo "with a hub that is wrong in one of 3 ways example_test fails"
if need pkg-config pkg-config; then
  rm -rf target/host/installed target/host/moved
  host/install.sh target/host/installed
  mv target/host/installed target/host/moved
  built="$(PKG_CONFIG_PATH="$PWD/target/host/moved/lib/pkgconfig" pkg-config --cflags --libs changegraph)"
  $CC ${CFLAGS/-Iinclude/} target/host/moved/share/doc/changegraph/example.c $built -o target/host/moved/example
  target/host/moved/example | cmp - host/example.out
  ran "the example built from an installed place"
else
  left_out "the example built from an installed place"
fi
echo "example: writes what host/example.out has"
$CC $CFLAGS host/session.c host/reasons.c target/libchangegraph.a -o target/host/session
for list in worked worked-clocks unchained; do
  target/host/session "examples/$list.list" | cmp - "examples/$list.answer"
done
echo "session: the lists of examples/ have their answers"

# The stack and the memory that docs/MEMORY.md has: each function of the header is measured and stands there, and each figure there is one that the program prints. Of the stack
# 4,096 bytes more or less are let pass, since the C library has a part of a thread's stack; the rest is exact. The benchmarks in C are only compiled.
$CC $CFLAGS -pthread host/stack.c target/libchangegraph.a -o target/host/stack
target/host/stack | awk '
  function is_wrong(words) { print words; wrong++ }
  FILENAME == ARGV[1] { if (/^CG_ANSWER cg_/) { name = $2; sub(/[(].*/, "", name); declared[name] = 1 }; next }
  FILENAME == ARGV[2] {
    if (split($0, cell, / *[|] */) < 4 || cell[3] !~ /^[0-9,]+$/) next
    gsub(/,/, "", cell[3])
    if (cell[4] != "runs" && cell[4] != "crashes") { bytes[cell[2]] = cell[3]; next }
    n = split(cell[2], word, "`")
    for (k = 2; k < n; k += 2) { stack[word[k]] = cell[3]; how[word[k]] = cell[4] }
    next
  }
  / bytes of stack, [a-z]+ in 128 KiB$/ {
    name = $1
    sub(/:$/, "", name)
    if (!(name in stack) || $2 > stack[name] + 4096 || $2 < stack[name] - 4096 || $6 != how[name]) is_wrong("not as docs/MEMORY.md has it: " $0)
    if (!(name in measured)) functions++
    measured[name] = 1
    next
  }
  /: [0-9]+ bytes$/ {
    words = $0
    sub(/: [0-9]+ bytes$/, "", words)
    if (!(words in bytes) || $(NF - 1) != bytes[words]) is_wrong("not as docs/MEMORY.md has it: " $0)
    computed[words] = 1
    sizes++
    next
  }
  { print }
  END {
    for (name in declared) if (!(name in measured)) is_wrong("not measured: " name)
    for (name in measured) if (!(name in declared)) is_wrong("not in the header: " name)
    for (name in stack) if (!(name in measured)) is_wrong("of docs/MEMORY.md not measured: " name)
    for (words in bytes) if (!(words in computed)) is_wrong("of docs/MEMORY.md not computed: " words)
    print "stack: " functions + 0 " functions and " sizes + 0 " figures of memory, " wrong + 0 " wrong"
    exit functions == 0 || wrong > 0
  }
' include/changegraph.h docs/MEMORY.md -
ran "the stack and the memory as docs/MEMORY.md has them"
$CC $CFLAGS benchmarks/session.c target/libchangegraph.a -o target/host/session_benchmark
$CC $CFLAGS -c benchmarks/public.c -o target/host/public_benchmark.o

# What the same tool says of wrong lists; and its reading of a line against the session's, over lists changed at random.
host/session_tool_test.sh target/host/session
$CC $CFLAGS host/reasons_test.c host/reasons.c target/libchangegraph.a -o target/host/reasons_test
target/host/reasons_test
if [ -n "$MEMCHECK" ]; then
  $MEMCHECK target/host/reasons_test 100
fi
if [ -n "$sanitize" ]; then
  $CC $CFLAGS $sanitize host/session.c host/reasons.c target/libchangegraph.a -o target/host/session.sanitized
  host/session_tool_test.sh target/host/session.sanitized
  $CC $CFLAGS $sanitize host/reasons_test.c host/reasons.c target/libchangegraph.a -o target/host/reasons_test.sanitized
  target/host/reasons_test.sanitized 10
fi
ran "the example in C, and the session's tool on right and wrong lists"
