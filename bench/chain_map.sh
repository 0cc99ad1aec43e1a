#!/usr/bin/env bash
# Instructions that a call on a chain takes, at chains of several lengths whose keys rose, fell or came in no order: keys
# of 24 bytes, and as values share mode records of 92 bytes. Run by hand on the program that the gate built; the gate doesn't.
set -eu
cd "$(dirname "$0")/.."
program=crates/bench/out/bench
. bench/counting.sh

works='find put_new put_old remove copy change patch add entries'
echo "| pairs | keys |$(printf ' %s |' $works)"
echo "|---|---|$(printf '%s' "$works" | sed 's/[a-z_]* */---|/g')"
for pairs in ${*:-18 143 1250 10000}; do
  for order in rising falling random; do
    row="| $pairs | $order |"
    for work in $works; do
      # what is done once, as filling the chain, cancels out
      case $work in
        remove) times=$((pairs < 128 ? pairs / 2 : 64)) ;;
        entries) times=4 ;;
        # in a long chain what the heap does once is much: it needs more calls to cancel out
        *) times=$((pairs < 2000 ? 64 : 1024)) ;;
      esac
      once=$(echo "$work $pairs $times $order" | instructions 0)
      twice=$(echo "$work $pairs $((2 * times)) $order" | instructions 0)
      row="$row $(((twice - once) / times)) |"
    done
    echo "$row"
  done
done
