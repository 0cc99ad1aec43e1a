#!/usr/bin/env bash
# Instructions that packing and unpacking a share mode record take, and judging it in place, at records of several lengths
# in both versions, and of packing and unpacking also for each byte. Run by hand on the program that the gate built; the
# gate doesn't.
set -eu
cd "$(dirname "$0")/.."
program=crates/bench/out/bench
. bench/counting.sh

echo '| version | entries | bytes | pack | unpack | judge | pack, a byte | unpack, a byte |'
echo '|---|---|---|---|---|---|---|---|'
for entries in ${*:-1 10 1000}; do
  for version in 1 2; do
    case $version in
      1) old=_old bytes=$((36 + 54 * entries)) ;;
      2) old= bytes=$((37 + 55 * entries)) ;;
    esac
    row="| $version | $entries | $bytes |"
    rates=""
    for work in pack unpack judge; do
      # what is done once, as making the bytes, cancels out
      once=$(echo "$work$old $entries 100" | instructions 0)
      twice=$(echo "$work$old $entries 200" | instructions 0)
      cost=$(((twice - once) / 100))
      row="$row $cost |"
      [ "$work" = judge ] || rates="$rates $((cost / bytes)).$((10 * (cost % bytes) / bytes)) |"
    done
    echo "$row$rates"
  done
done
