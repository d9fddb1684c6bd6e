# Sourced by scripts that run or link what the kit builds: stops where the kit is not here, or the processor is not x86-64, which is what it runs on and builds for. Gives `need`.

# need COMMAND PACKAGE..: whether the command is here. Where it is not, and this user may install Debian's packages, they are installed first.
need() {
  local command="$1"
  shift
  command -v "$command" >/dev/null 2>&1 && return 0
  if [ "$(id -u)" = 0 ] && command -v apt-get >/dev/null 2>&1; then
    apt-get update -qq >/dev/null 2>&1 || true
    DEBIAN_FRONTEND=noninteractive apt-get install -y -qq --no-install-recommends "$@" >/dev/null 2>&1 || true
  fi
  command -v "$command" >/dev/null 2>&1
}

if ! command -v rt >/dev/null 2>&1; then
  echo "the Rattle kit is not here: no command rt" >&2
  exit 2
fi
if [ "$(uname -m)" != x86_64 ]; then
  echo "the Rattle kit runs on x86-64 alone, and builds for it alone: this processor is $(uname -m)" >&2
  exit 2
fi
