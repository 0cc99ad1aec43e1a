#!/usr/bin/env bash
# How many instructions the program takes: for each byte of comment lines and of call lines, and for each call of one worker.
# Run by hand on the program that the gate built; the gate doesn't. Prints the rows of bench/RESULTS.md.
set -eu
cd "$(dirname "$0")/.."
program=crates/opendb/out/opendb
. bench/counting.sh

# row WHAT COUNT WITHOUT [STATUS]: what the script in $room takes, of so many bytes or calls, less what one with none takes
row() {
  local used
  used=$(instructions "${4:-0}" run <"$room/script")
  used=$((used - $3))
  echo "| $1 | $2 | $used | $(awk -v all="$used" -v count="$2" 'BEGIN { printf "%.1f", all / count }') |"
}

declare_one() {
  printf '%s\n' 'worker 1 101 1000 1 hostA data' 'file 1 1 11 /srv/data a.txt' 'phase 0'
}

# closed_at_once CALLS: half of them opens, each closed by the next call
closed_at_once() {
  declare_one
  awk -v calls="$1" 'BEGIN { for (k = 1; k < calls; k += 2) printf "1 open 1 0x3 rwd\n1 close %d\n", k }'
}

# closed_at_the_end CALLS: half of them opens, and then each is closed
closed_at_the_end() {
  declare_one
  awk -v calls="$1" 'BEGIN {
    for (k = 1; k <= calls / 2; k++) print "1 open 1 0x3 rwd"
    for (k = 1; k <= calls / 2; k++) print "1 close " k
  }'
}

# comments BYTES: comment lines of 64 bytes, the last one cut
comments() {
  awk 'BEGIN { line = "#"; while (length(line) < 63) line = line "."; while (1) print line }' 2>/dev/null | head -c "$1" || true
}

# mixed CALLS: calls of each word, by 64 workers on 10,000 files, in a phase for each thousand
mixed() {
  awk -v calls="$1" 'BEGIN {
    for (w = 1; w <= 64; w++) printf "worker %d %d %d %d host%d data\n", w, 100 + w, 1000 + w, w, w
    for (f = 1; f <= 10000; f++) printf "file %d 1 %d /srv/data file%d\n", f, f, f
    text = "open @ 0x3 rwd lease=@:RWH durable=60;open @ 0x1F01FF - overwrite;close 7;ack @ RH;lock 7 @ 100 x wait;" \
      "unlock 7 @ 100;read 7 @ 100;write 7 @ 100;glock @ r now;gunlock @;recv;disconnect;reconnect 9 7 @;scavenge;tidy"
    words = split(text, word, ";")
    for (k = 0; k < calls; k++) {
      if (k % 1000 == 0) print "phase " k
      line = word[k % words + 1]
      gsub(/@/, k % 10000 + 1, line)
      print k % 64 + 1, line
    }
  }'
}

# drawn CALLS: the calls of eight workers on sixteen files, so many for each of them in each of four phases, drawn by a congruential
# generator that begins with CALLS. Worker 8 dies in its last one. Then six workers disconnect, and at the end one scavenges.
drawn() {
  local calls=$1 x=$1 w f phase call a file handle span line
  local -a number=(0 0 0 0 0 0 0 0 0)
  for ((w = 1; w <= 8; w++)); do echo "worker $w $((100 + w)) $((1000 + w)) $w m$w data"; done
  for ((f = 1; f <= 16; f++)); do echo "file $f 1 $f /srv/data f$f"; done
  for ((phase = 0; phase < 4; phase++)); do
    echo "phase $((100 * phase))"
    for ((w = 1; w <= 8; w++)); do
      for ((call = 1; call <= calls; call++)); do
        x=$((x * 6364136223846793005 + 1442695040888963407))
        a=$(((x >> 33) & 0x7FFFFFFF))
        number[w]=$((number[w] + 1))
        file=$((a / 8 % 16 + 1)) handle=$((a / 8 % number[w] + 1)) span=$((a / 128 % 64))
        case $((a % 8)) in
          0) line="open $file 0x3 rwd lease=$((100 + file)):RWH durable=60" ;;
          1) line="open $file 0x1 r" ;;
          2) line="open $file 0x2 w" ;;
          3) line="close $handle" ;;
          4) line="ack $((100 + file)) R" ;;
          5) line="lock $handle $span 4 x now" ;;
          6) line=recv ;;
          7) if ((span % 2 == 0)); then line="glock $file r now"; else line="gunlock $file"; fi ;;
        esac
        if ((phase == 3 && w == 8 && call == calls)); then line="$line !commit"; fi
        echo "$w $line"
      done
    done
  done
  echo 'phase 1000000'
  for ((w = 2; w <= 7; w++)); do echo "$w disconnect"; done
  printf '%s\n' 'phase 2000000' '1 scavenge'
}

# leased: 10,000 opens with leases, each of its own file, by 64 workers; a quarter of the leases are then broken by another's open,
# which waits, the letter is taken, the break acknowledged, and the open made again: 20,000 calls
leased() {
  awk 'BEGIN {
    for (w = 1; w <= 64; w++) printf "worker %d %d %d %d host%d data\n", w, 100 + w, 1000 + w, w, w
    for (f = 1; f <= 10000; f++) printf "file %d 1 %d /srv/data file%d\n", f, f, f
    print "phase 0"
    for (f = 1; f <= 10000; f++) print f % 64 + 1, "open", f, "0x3 rwd lease=" f ":RWH durable=60"
    print "phase 1"
    for (f = 1; f <= 2500; f++) print (f + 1) % 64 + 1, "open", f, "0x1 rwd"
    print "phase 2"
    for (f = 1; f <= 2500; f++) print f % 64 + 1, "recv"
    print "phase 3"
    for (f = 1; f <= 2500; f++) print f % 64 + 1, "ack", f, "RH"
    print "phase 4"
    for (f = 1; f <= 2500; f++) print (f + 1) % 64 + 1, "open", f, "0x1 rwd"
  }'
}

echo '| input | bytes or calls | instructions | for each |'
echo '|---|---|---|---|'
script=examples/open_and_close.txt
alone=$(instructions 0 run <"$script")
size=$(wc -c <"$script")
for total in 1048576 4194304; do
  { cat "$script"; comments $((total - size)); } >"$room/script"
  [ "$(wc -c <"$room/script")" -eq "$total" ]
  row "comment lines, $((total / 1048576)) MiB with the first example" $((total - size)) "$alone"
done
{ mixed 20000; echo bad; } >"$room/script"
size=$(wc -c <"$room/script")
row '20,000 calls of all words, 64 workers, 10,000 files, and a bad last line: read and not run' "$size" "$(instructions 0 run </dev/null)" 2
closed_at_once 0 >"$room/script"
none=$(instructions 0 run <"$room/script")
for calls in 2000 20000; do
  closed_at_once "$calls" >"$room/script"
  row "$calls calls, each open closed at once" "$calls" "$none"
done
for calls in 500 1000 2000; do
  closed_at_the_end "$calls" >"$room/script"
  row "$calls calls, half of them opens that stay until the end" "$calls" "$none"
done
drawn 50 >"$room/script"
row 'drawn calls, 50 for each of 8 workers in each of 4 phases' 1607 "$none"
leased >"$room/script"
row '20,000 calls of 64 workers on 10,000 files with leases' 20000 "$none"
