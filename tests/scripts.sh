#!/usr/bin/env bash
# What the built program tells of scripts and of words: of the rows of lines.tsv, of scripts at the limits, of further ways in which
# examples go, and of words, which are listed here.
# A row has what is told, a tab, and the script, with \n and \x7f as printf reads them. @ at its start stands for $good.
# Called as tests/scripts.sh PROGRAM. Says which scripts fail, and ends with 1 where one does.
set -u
shopt -s lastpipe
program=$(realpath "$1")
[ -x "$program" ] || { echo "tests: no program"; exit 1; }
cd "$(dirname "$0")/.." || exit 1
room=$(mktemp -d) || exit 1
trap 'rm -rf "$room"' EXIT
words=(run)
good='worker 1 1 0 0 m s\nfile 1 1 1 p n\nphase 0\n'
passed=0
failed=0

# is WANTED NAME [OUTPUT]: runs the script on standard input, by these words. OUTPUT is the file with what it prints
is() {
  local status=0 ended found
  case $1 in
    *reason*) status=2 ;;
    *large) status=3 ;;
    usage*) status=1 ;;
  esac
  timeout 60 "$program" "${words[@]}" >"$room/out" 2>"$room/err"
  ended=$?
  found=$(cat "$room/err")
  if [ "$ended" -eq "$status" ] && [ "${found:-opendb: fine}" = "opendb: $1" ] &&
    { [ "$status" -eq 0 ] || [ ! -s "$room/out" ]; } &&
    { [ -z "${3:-}" ] || cmp -s "$3" "$room/out"; }; then
    passed=$((passed + 1))
  else
    echo "tests: $2: FAILED: status $ended, '$found', and '$1' was wanted"
    failed=$((failed + 1))
  fi
}

# lines COUNT FORMAT: so many lines, each with its number for N
lines() {
  awk -v count="$1" -v format="$2" 'BEGIN { for (k = 1; k <= count; k++) { line = format; gsub(/N/, k, line); print line } }'
}

# full WANTED COUNT FORMAT LAST: the lines of COUNT and FORMAT and behind them LAST, after $begin
full() {
  { printf '%b' "$begin"; lines "$2" "$3"; printf '%b\n' "$4"; } | is "$1" "$2 lines '$3', then '$4'"
}

# padded BYTES: the first example with a comment line under it, so many bytes in all
padded() {
  local example=examples/open_and_close.txt
  cat $example
  head -c $(($1 - $(wc -c <$example))) /dev/zero | tr '\0' '#'
}

# as EXAMPLE FROM TO: the example's script with TO in the place of FROM prints what the example prints
as() {
  sed "s/$2/$3/" "examples/$1.txt" | is fine "$1 with $3" "examples/$1.out"
}

# by WANTED: runs the first example by the words of each line of standard input
by() {
  while read -ra words; do
    is "$1" "the words '${words[*]}'" <examples/open_and_close.txt
  done
  words=(run)
}

while IFS=$'\t' read -r wanted script; do
  case $wanted in '#'*) continue ;; esac
  printf '%b' "${script/#@/$good}" | is "$wanted" "'$script'"
done <tests/lines.tsv

long=$(head -c 256 /dev/zero | tr '\0' 'm')
begin=
full fine 63 'worker N N 0 0 m s' 'worker 64 64 0 0 m s'
full 'line 65: reason 7' 64 'worker N N 0 0 m s' 'worker 65 65 0 0 m s'
full 'line 65: reason 7' 64 'worker N N 0 0 m s' 'worker 65 1 0 0 m s'
full 'line 65: reason 7' 64 'worker N N 0 0 m s' "worker 65 65 0 0 $long s"
full 'line 65: reason 6' 64 'worker N N 0 0 m s' 'worker 66 66 0 0 m s'
full 'line 66: reason 5' 64 'worker N N 0 0 m s' 'phase 0\nworker 65 65 0 0 m s'
full fine 9999 'file N 1 N p n' 'file 10000 2 1 p n'
full 'line 10001: reason 8' 10000 'file N 1 N p n' 'file 10001 2 1 p n'
full 'line 10001: reason 8' 10000 'file N 1 N p n' 'file 10001 1 1 p n'
full 'line 10001: reason 8' 10000 'file N 1 N p n' "file 10001 2 1 p $long"
full 'line 10001: reason 6' 10000 'file N 1 N p n' 'file 10002 2 1 p n'
full 'line 10000: reason 13' 9999 'file N 1 N p n' 'file 10000 1 7777 p n'
full fine 9999 'phase N' 'phase 9999'
full 'line 10001: reason 9' 10000 'phase N' 'phase 10000'
full 'line 10001: reason 9' 10000 'phase N' 'phase 0'
full 'line 10001: reason 9' 10000 'phase N' 'phase 9999999999'
full 'line 10001: reason 4' 10000 'phase N' 'phase 10000000000'
begin=$good
full fine 19999 '1 close N' '1 close 20000'
full fine 20000 '1 close N' '# more\nphase 0'
full 'line 20004: reason 10' 20000 '1 close N' '1 close 1'
full 'line 20004: reason 10' 20000 '1 close N' '9 fly'
full 'line 20005: reason 10' 20000 '1 close N' 'phase 0\n9 status -X'
full 'line 20004: reason 3' 20000 '1 close N' '1 close'
full 'line 20004: reason 4' 20000 '1 close N' '1 close x'
full fine 99 '1 status' '1 status -S'
full 'line 104: reason 11' 100 '1 status' '1 status'
full 'line 104: reason 11' 100 '1 status' '9 status'
full 'line 104: reason 11' 100 '1 status' '1 status -X !fall'
full 'line 104: reason 3' 100 '1 status' '1 status -S -S -S -S'
full 'line 104: reason 18' 100 '1 status' '1 Status'

padded 4194304 | is fine '4,194,304 bytes' examples/open_and_close.out
padded 4194305 | is 'script too large' '4,194,305 bytes'
head -c 4194304 /dev/zero | tr '\0' ' ' | is fine '4,194,304 spaces'
head -c 4194304 /dev/zero | tr '\0' '\n' | is fine '4,194,304 empty lines'
head -c 4194304 /dev/zero | is 'line 1: reason 1' '4,194,304 bytes 0'

as stat_open 0x3 0x12019F
as death_before_commit '!take' '!intent'
as death_after_commit '!commit' '!store'
as death_after_commit '!commit' '!release'

by fine <<'END'
run --chains 1
run --chains 64
run --chains=00064
smbstatus
smbstatus -S
smbstatus -L -B
smbstatus -B -S
smbstatus --chains 8 -B
smbstatus -L --chains=8
END
by 'usage: run, smbstatus or stress' <<'END'

Run
--help
--chains 8 run
run run
run -S
run --
run --chains
run --chains 0
run --chains 65
run --chains x
run --chains=
run --chains=000064
run --chains 1 --chains=1
smbstatus --
smbstatus -S -L
smbstatus -S -S
smbstatus -B -B
smbstatus -SL
smbstatus -b
smbstatus --chains 65 -S
smbstatus -S --chains
END

echo "tests: $passed passed, $failed failed"
[ "$failed" -eq 0 ]
