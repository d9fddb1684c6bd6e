# Sourced by scripts that build C programs against the archive: sets CC, CFLAGS and MEMCHECK; CC is empty where no compiler can be had. Programs run as they are and under valgrind.
# What is missing is a Debian package, and is installed where this user may do so.
. host/machine.sh
MEMCHECK=""
CC="${CC:-cc}"
need "$CC" gcc libc6-dev || CC=""
if [ -n "$CC" ] && need valgrind valgrind libc6-dbg; then
  MEMCHECK="valgrind --quiet --error-exitcode=99 --leak-check=full"
fi
CFLAGS="-std=c11 -O2 -g -Wall -Wextra -Werror -Iinclude"
