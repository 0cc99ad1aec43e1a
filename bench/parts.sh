#!/usr/bin/env bash
# Instructions that a call on records in hand takes, at records with so many entries. Run by hand on the program that the gate built; the
# gate doesn't.
set -eu
cd "$(dirname "$0")/.."
program=crates/bench/out/bench
. bench/counting.sh

sizes=${*:-1 10 100}
echo "| call |$(printf ' %s |' $sizes)"
echo "|---|$(printf '%s' "$sizes" | sed 's/[0-9]* */---|/g')"
for call in living dead_since watch cancel next_message wake_all wake_for_death glock gunlock settle expire grant drop_ref elsewhere \
  break_lease acknowledge valid_entries violates add_entry remove_entry lock unlock check_io reconnect scavenge shares files_page ranges_page; do
  row="| \`$call\` |"
  for size in $sizes; do
    # the records are made anew for each call: what that takes cancels out
    bare=$(echo "$call $size 20 bare" | instructions 0)
    done=$(echo "$call $size 20" | instructions 0)
    row="$row $(((done - bare) / 20)) |"
  done
  echo "$row"
done
