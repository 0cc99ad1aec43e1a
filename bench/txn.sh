#!/usr/bin/env bash
# Instructions that a transaction takes which changes one record, and one that changes six, each in a chain of its own, over plain
# cells with 8 chains a database and 18 pairs a chain: holding, fetching, storing, committing, giving back. Run by hand on the program
# that the gate built; the gate doesn't.
set -eu
cd "$(dirname "$0")/.."
program=crates/bench/out/bench
. bench/counting.sh

echo '| records that are changed | instructions |'
echo '|---|---|'
for records in 1 6; do
  # what is done once, as filling the chains, cancels out
  once=$(echo "txn $records 200" | instructions 0)
  twice=$(echo "txn $records 400" | instructions 0)
  echo "| $records | $(((twice - once) / 200)) |"
done
