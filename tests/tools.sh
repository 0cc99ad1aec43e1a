#!/usr/bin/env bash
# A case for each script of tools/, with the program that is built: tests/tools.sh PROGRAM. Says which fail, and ends with 1 where
# one does.
set -u
program=$(realpath "$1")
[ -x "$program" ] || { echo "tools: no program"; exit 1; }
cd "$(dirname "$0")/.." || exit 1
room=$(mktemp -d) || exit 1
trap 'rm -rf "$room"' EXIT
passed=0
failed=0

# is NAME WANTED FOUND: the two are the same
is() {
  if [ "$2" = "$3" ]; then
    passed=$((passed + 1))
  else
    echo "tools: $1: FAILED: '$3', and '$2' was wanted"
    failed=$((failed + 1))
  fi
}

# explains NAME SCRIPT STATUS LINE..: what explain tells on standard error of the script, as printf reads it, is these lines
explains() {
  local name=$1 wanted found
  printf "$2" >"$room/script.txt"
  found=$(tools/explain --program "$program" "$room/script.txt" 2>&1 >"$room/out"; echo "status $?")
  wanted=$(shift 2; status=$1; shift; printf '%s\n' "$@" "status $status")
  is "explain: $name" "$wanted" "$found"
}

# explain
explains 'a good script' 'worker 1 1 0 0 m s\nphase 0\n1 recv\n' 0 \
  'explain: status 0, Done: the script was read to its end and run to its end'
is 'explain: what is printed' '1.1 recv EMPTY' "$(cat "$room/out")"
explains 'a bad line' 'worker 1 1 0 0 m s\n\n\nworker 3 3 0 0 m s\n' 2 \
  'opendb: line 4: reason 6' \
  'explain: status 2, BadScript: line 4 is the first bad one, and 6 is the least reason that it has' \
  'explain: line 4: worker 3 3 0 0 m s' \
  "explain: reason 6, of worker and file lines: its number isn't the next one, which is one more than what is declared"
explains 'line ends of Windows' 'worker 1 1 0 0 m s\r\nphase 0\r\n' 2 \
  'opendb: line 1: reason 1' \
  'explain: status 2, BadScript: line 1 is the first bad one, and 1 is the least reason that it has' \
  'explain: line 1: worker 1 1 0 0 m s\r' \
  'explain: reason 1, of every line, skipped ones too: it has a byte outside 0x20 to 0x7E' \
  "explain: byte 19, its last, is a carriage return (0x0D): the line ends as on Windows. \`tr -d '\\r'\` takes them all out"
explains 'a tab and another byte' 'worker 1 1 0 0 m s\nphase\t0 \\ \200\n' 2 \
  'opendb: line 2: reason 1' \
  'explain: status 2, BadScript: line 2 is the first bad one, and 1 is the least reason that it has' \
  'explain: line 2: phase\t0 \\ \x80' \
  'explain: reason 1, of every line, skipped ones too: it has a byte outside 0x20 to 0x7E' \
  "explain: byte 6 is a tab (0x09): tokens are separated by spaces alone. \`tr '\\t' ' '\` makes them so" \
  'explain: byte 11 is 0x80'
is 'explain: words outside the set' 'explain: status 1, Usage: the words are outside the set' \
  "$(tools/explain --program "$program" examples/stat_open.txt fly 2>&1 | tail -n 1)"
# each reason and each status has a sentence, and its number once: there are as many as the last one's number says
sed -n '/^## Reasons/,/^## Where/s/^| \([0-9]*\) | [^|]* | [^|]* |$/\1/p' docs/SCRIPT.md >"$room/numbers"
is 'explain: the reasons of docs/SCRIPT.md' "$(seq 1 "$(($(wc -l <"$room/numbers") > 24 ? $(wc -l <"$room/numbers") : 24))")" "$(cat "$room/numbers")"
is 'explain: the statuses of docs/SCRIPT.md' "$(seq 0 6)" \
  "$(sed -n '/^## Statuses/,$s/^| \([0-9]*\) | [^|]* | [^|]* | [^|]* |$/\1/p' docs/SCRIPT.md)"

# compare: a copy of some examples, then one difference in each of what is compared
mkdir "$room/few"
for name in bad_script lease_break no_calls smbstatus_no_files working_day; do
  cp examples/$name.* "$room/few/"
done
# compares WANTED [OPTION..]: the last line of what compare tells of the copy, and its status
compares() {
  local name="compare: $1" wanted=$1 found
  shift
  found=$(tools/compare "$@" --program "$program" "$room/few" >"$room/told" 2>&1; echo "status $?")
  is "$name" "$wanted" "$(tail -n 1 "$room/told" | sed "s,^$room/,,"), $found"
}
compares 'few: 5 passed, 0 failed, status 0'
sed -i 's/GRANTED$/DENIED/' "$room/few/lease_break.out"
compares 'few: 4 passed, 1 failed, status 1'
is 'compare: which one' "$room/few/lease_break: FAILED" "$(grep FAILED "$room/told")"
is 'compare: the difference' '    -2.3 open DENIED+2.3 open GRANTED' "$(grep '^    [-+]2' "$room/told" | sed '2s/^ *//' | tr -d '\n')"
echo 3 >"$room/few/bad_script.status"
echo x >"$room/few/working_day.err"
rm "$room/few/smbstatus_no_files.words"
compares 'few: 1 passed, 4 failed, status 1'
cp examples/smbstatus_no_files.words "$room/few/"
compares 'few: 5 passed, 0 failed, status 0' --store
is 'compare: what is stored' '' "$(for file in "$room"/few/*; do cmp "examples/$(basename "$file")" "$file" 2>&1; done)"
is 'compare: nothing more' "$(cd examples && printf '%s\n' bad_script.* lease_break.* no_calls.* smbstatus_no_files.* working_day.*)" \
  "$(cd "$room/few" && printf '%s\n' *)"
# a program that shows the number of chains: it differs, and that can't be stored
printf '#!/bin/sh\n"%s" "$@"\nstatus=$?\ncase $* in *--chains*64) echo 64 ;; esac\nexit $status\n' "$program" >"$room/shows"
chmod +x "$room/shows"
is 'compare: the number of chains' "$room/few: 0 stored, $room/few: 0 passed, 5 failed" \
  "$(tools/compare --store --program "$room/shows" "$room/few" | tail -n 2 | paste -sd , | sed 's/,/, /')"
mkdir "$room/none"
is 'compare: no script' "compare: $room/none has no script" "$(tools/compare --program "$program" "$room/none" 2>&1)"

# timeline: a picture has as many of each as the history has lines of each
tools/timeline <examples/working_day.out >"$room/day.svg"
is 'timeline: status' 0 $?
is 'timeline: calls' "$(grep -c '^[0-9]*\.[0-9]* [a-z]' examples/working_day.out)" "$(grep -c 'class="call ' "$room/day.svg")"
is 'timeline: breaks' "$(grep -c '^  -> [0-9]* BREAK' examples/working_day.out)" "$(grep -c 'class="letter break"' "$room/day.svg")"
is 'timeline: wakes' "$(grep -c '^  -> [0-9]* WAKE' examples/working_day.out)" "$(grep -c 'class="letter wake"' "$room/day.svg")"
is 'timeline: deaths' "$(grep -c ' died$' examples/working_day.out)" "$(grep -c 'class="death"' "$room/day.svg")"
is 'timeline: lanes' 3 "$(grep -c 'class="lane"' "$room/day.svg")"
is 'timeline: tables' 1 "$(grep -c 'class="tables"' "$room/day.svg")"
tools/timeline --script examples/working_day.txt <examples/working_day.out >"$room/day.svg"
is 'timeline: moments' "$(grep -c '^phase' examples/working_day.txt)" "$(grep -c 'class="phase"' "$room/day.svg")"
is 'timeline: what was asked' 1 "$(grep -c '>2\.5 lock 3 512 512 x wait</text>' "$room/day.svg")"
tools/timeline --mermaid --script examples/lease_break.txt <examples/lease_break.out >"$room/break.mmd"
is 'timeline: Mermaid' 'sequenceDiagram
  participant W1 as worker 1, hostA
  participant W2 as worker 2, hostB
  Note over W1,W2: moment 0
  Note over W1: 1.1 open 1 0x3 rwd lease=7:RWH<br/>GRANTED lease=RWH
  Note over W1,W2: moment 1
  Note over W2: 2.1 open 1 0x1 rwd<br/>PENDING
  W2-)W1: BREAK file=1 key=7 RWH->RH ack
  Note over W1,W2: moment 2
  Note over W1: 1.2 recv<br/>BREAK file=1 key=7 RWH->RH ack
  Note over W1: 1.3 ack 7 RH<br/>OK
  W1--)W2: WAKE 1
  Note over W1,W2: moment 3
  Note over W2: 2.2 recv<br/>WAKE 1
  Note over W2: 2.3 open 1 0x1 rwd<br/>GRANTED
  Note over W1,W2: moment 4
  W1-xW1: died' "$(cat "$room/break.mmd")"
# names are escaped, and a history of some hundred lines has a picture
printf '%s\n' 'worker 1 1 0 0 <&">#; s' 'phase 0' >"$room/names.txt"
for number in $(seq 400); do echo '1 recv'; done >>"$room/names.txt"
for number in $(seq 400); do echo "1.$number recv EMPTY"; done >"$room/names.out"
tools/timeline --script "$room/names.txt" <"$room/names.out" >"$room/names.svg"
is 'timeline: escaped' "$(grep -c 'class="head"' "$room/names.svg")" "$(grep -c 'worker 1, &lt;&amp;"&gt;#;</text>' "$room/names.svg")"
is 'timeline: 400 calls' 400 "$(grep -c 'class="call ' "$room/names.svg")"
is 'timeline: escaped for Mermaid' '  participant W1 as worker 1, #60;#38;#34;>#35;#59;' \
  "$(tools/timeline --mermaid --script "$room/names.txt" <"$room/names.out" | grep participant)"
is 'timeline: no history' "timeline: line 1 isn't a line of a history: Service      Pid    Machine      Connected, status 2" \
  "$(tools/timeline <examples/smbstatus.out 2>&1 >/dev/null), status $(tools/timeline <examples/smbstatus.out >/dev/null 2>&1; echo $?)"

# opendb.vim: the examples have no wrong word; each of these lines has one, or is of one kind alone
if ! vim --version 2>/dev/null | grep -q '+syntax'; then
  echo "tools: opendb.vim: not tried, since a vim with its syntax isn't here"
else
  cat >"$room/groups.vim" <<'END'
source tools/opendb.vim
let found = []
for number in range(1, line('$'))
  let groups = []
  for column in range(1, col([number, '$']) - 1)
    let group = synIDattr(synID(number, column, 1), 'name')
    if group != '' && index(groups, group) < 0
      call add(groups, group)
    endif
  endfor
  call add(found, join(groups))
endfor
call writefile(found, $FOUND)
qall!
END
  # groups FILE: the kinds of words in each line, as vim has them
  groups() {
    rm -f "$room/found"
    FOUND=$room/found timeout 20 vim -es -N -u NONE -i NONE -S "$room/groups.vim" "$1" </dev/null >/dev/null 2>&1
    cat "$room/found" 2>&1
  }
  for script in examples/*.txt; do
    case $script in */bad_script.txt) continue ;; esac
    is "opendb.vim: $script" '' "$(groups "$script" | grep -E 'Error|Byte')"
  done
  cat >"$room/good.txt" <<'END'
# a comment
worker 1 101 1000 1 hostA data old
phase 7
1 open 1 0x10003 rw lease=7:RH delete !take
1 ack 7 -
1 lock 1 0 10 x wait
1 delete 4 off
1 status -L -B
1 tidy
END
  is 'opendb.vim: kinds' 'opendbComment
opendbDeclares opendbWorker opendbOld
opendbDeclares opendbPhase opendbNumber
opendbCall opendbWord opendbNumber opendbAccess opendbShare opendbOption opendbState opendbStop
opendbCall opendbWord opendbNumber opendbState
opendbCall opendbWord opendbNumber opendbMode
opendbCall opendbWord opendbNumber opendbMode
opendbCall opendbWord opendbFlag
opendbCall opendbWord' "$(groups "$room/good.txt")"
  cat >"$room/wrong.txt" <<'END'
fly
worker 1 101 1000 1 hostA
worker 1 101 1000 1 hostA data new
phase x
1 fly
1 open 1 3 rwd
1 open 1 0x3 dwr
1 open 1 0x3 rwd lease=7:WH
1 open 1 0x3 rwd lease=7
1 ack 7 H
1 lock 1 0 10 r now
1 glock 9 w later
1 close
1 recv !fall
1 status -X
1 delete 4
END
  is 'opendb.vim: wrong words' 16 "$(groups "$room/wrong.txt" | grep -c '^opendbError$')"
fi

echo "tools: $passed passed, $failed failed"
[ "$failed" -eq 0 ]
