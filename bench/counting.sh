# Read by the other scripts here, which set `program` first. Its instructions are counted by valgrind's callgrind, so that
# the figures don't depend on what else the machine does. `room` is a folder that goes at the end.
[ -x "$program" ] || { echo "bench: $program isn't built: .ci/run builds it" >&2; exit 1; }
room=$(mktemp -d)
trap 'rm -rf "$room"' EXIT

# instructions STATUS [WORD..]: those of one run of the program on this standard input, which has to end with this status
instructions() {
  local wanted=$1 ended=0
  shift
  valgrind --tool=callgrind --callgrind-out-file=/dev/null --log-file="$room/log" "$program" "$@" >/dev/null 2>&1 || ended=$?
  [ "$ended" -eq "$wanted" ] || {
    echo "bench: a run ended with status $ended" >&2
    return 1
  }
  sed -n 's/^.*Collected : \([0-9]*\).*$/\1/p' "$room/log"
}
