#!/usr/bin/env bash
# Puts what a C program needs under a prefix: host/install.sh PREFIX. Headers in include/, the archive in lib/, a file for pkg-config in lib/pkgconfig/, and in share/doc/changegraph/ the
# pages that the headers name with the notice that goes with every copy. The archive is made first, unless nothing that it is made of changed since. No blanks in PREFIX: pkg-config's
# words could not be used as below.
#
#     cc hub.c $(PKG_CONFIG_PATH=PREFIX/lib/pkgconfig pkg-config --cflags --libs changegraph)
set -euo pipefail
cd "$(dirname "$0")/.."
case "$#${1:-}" in 1 | 1-* | 1*[[:space:]]* | [!1]*)
  echo "usage: host/install.sh PREFIX (a folder, without blanks in its name)" >&2
  exit 2
  ;;
esac
prefix="$1"
case "$prefix" in /*) ;; *) prefix="$OLDPWD/$prefix" ;; esac

archive=target/libchangegraph.a
host/archive.sh
pages="$prefix/share/doc/changegraph"
mkdir -p "$prefix/include" "$prefix/lib/pkgconfig" "$pages"
install -m 644 include/changegraph.h include/changegraph_hub.h "$prefix/include/"
install -m 644 "$archive" "$prefix/lib/"
install -m 644 NOTICE docs/MEMORY.md docs/SAVING.md host/example.c host/saved.c host/saved.h "$pages/"

# The prefix is found from where the file lies, so that the whole may be moved.
version="$(sed -n 's/^#define CG_VERSION \([0-9]*\)$/\1/p' include/changegraph.h)"
cat >"$prefix/lib/pkgconfig/changegraph.pc" <<END
prefix=\${pcfiledir}/../..

Name: changegraph
Description: the clocks, the ready queue and the change graph of a run record, proved
Version: $version
Cflags: -I\${prefix}/include
Libs: -L\${prefix}/lib -lchangegraph
END
echo "changegraph $version is in place under $1"
