# Sourced by the scripts of the gate. Each tells here what it did; the gate (.ci/run) names a file in GATE_REPORT and prints it before its last line.
#   ran WORDS         this ran, and was right
#   left_out WORDS    this did not run, since something is not installed: with CI set the gate fails
report() { [ -z "${GATE_REPORT:-}" ] || printf '%s: %s\n' "$1" "$2" >>"$GATE_REPORT"; }
ran() { report ran "$*"; }
left_out() {
  echo "left out: $*"
  report "left out" "$*"
}
