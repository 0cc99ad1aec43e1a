#!/usr/bin/env bash
# Instructions that closing an open takes, of a file that has 5,000 opens under 5,000 leases, beside so many leases of other
# files. Run by hand on the program that the gate built; the gate doesn't.
set -eu
cd "$(dirname "$0")/.."
program=crates/bench/out/bench
. bench/counting.sh

echo '| leases of other files | instructions |'
echo '|---|---|'
for others in ${*:-0 50 500 5000}; do
  # what is done once, as making the table, cancels out
  once=$(echo "close $others 2" | instructions 0)
  twice=$(echo "close $others 4" | instructions 0)
  echo "| $others | $(((twice - once) / 2)) |"
done
