#!/usr/bin/env bash
# What the built program tells of each script in docs/ and README.md, and whether the pictures in docs/pictures/ are those that
# tools/timeline makes of the examples. Called as tests/docs.sh PROGRAM. Ends with 1 where something differs.
# A script is a block between fences that has a phase line. Where it has no worker line, it stands behind the block of its page
# that has worker lines and no phase line. The block behind a script is what the program tells of it, on standard output or,
# where that is nothing, on standard error. A block that begins with a path behind its fence, as ```examples/NAME.txt, has what
# that file has. One that begins with ```later needs what the program lacks so far, and isn't run.
set -u
program=$(realpath "$1")
[ -x "$program" ] || { echo "docs: no program"; exit 1; }
cd "$(dirname "$0")/.." || exit 1
room=$(mktemp -d) || exit 1
trap 'rm -rf "$room"' EXIT
passed=0
failed=0

# good: one more has passed
good() { passed=$((passed + 1)); }

# bad NAME WHY: one more has failed
bad() {
  echo "docs: $1: FAILED: $2"
  failed=$((failed + 1))
}

# blocks PAGE: each script of the page becomes $room/N.txt, N.wanted where there is one, N.place and, where it is to be a file's,
# N.file; a script that isn't run becomes N.later in place of N.txt. Ends with 1 where a fence isn't closed
blocks() {
  awk -v room="$room" -v page="$1" '
    function end_of_block() {
      is_script = text ~ /(^|\n)phase [0-9]/
      if (is_script) {
        count++
        name = room "/" count
        if (kind == "later") printf "%s", text >(name ".later")
        else if (text ~ /(^|\n)worker /) printf "%s", text >(name ".txt")
        else printf "%s%s", setup, text >(name ".txt")
        print page ":" began >(name ".place")
        if (kind ~ /\//) { print kind >(name ".file"); close(name ".file") }
        close(name ".txt"); close(name ".later"); close(name ".place")
      } else if (text ~ /^worker /) setup = text
      else if (after_script) { printf "%s", text >(name ".wanted"); close(name ".wanted") }
      after_script = is_script
    }
    /^```/ {
      if (inside) end_of_block()
      else { kind = substr($0, 4); began = NR; text = "" }
      inside = !inside
      next
    }
    inside { text = text $0 "\n" }
    END { exit inside }' "$1"
}

later=0
for page in README.md docs/*.md; do
  rm -f "$room"/*
  blocks "$page" || bad "$page" "a fence isn't closed"
  for place in "$room"/*.place; do
    [ -f "$place" ] || continue
    one=${place%.place}
    where=$(cat "$place")
    if [ -f "$one.later" ]; then
      later=$((later + 1))
      continue
    fi
    timeout 60 "$program" run <"$one.txt" >"$one.out" 2>"$one.err"
    [ -s "$one.out" ] || mv "$one.err" "$one.out"
    if [ -f "$one.file" ] && ! cmp -s "$(cat "$one.file")" "$one.txt"; then
      bad "$where" "isn't $(cat "$one.file")"
    elif [ ! -f "$one.wanted" ]; then
      bad "$where" "the page doesn't say what it prints"
    elif cmp -s "$one.wanted" "$one.out"; then
      good
    else
      bad "$where" "the program tells something else"
      diff -u --label "$page" --label told "$one.wanted" "$one.out" | head -n 20
    fi
  done
done

# A picture is that of the example with its name, and a page shows it
for picture in docs/pictures/*.svg; do
  name=$(basename "$picture" .svg)
  if ! tools/timeline --script "examples/$name.txt" <"examples/$name.out" >"$room/picture" 2>"$room/err"; then
    bad "$picture" "$(cat "$room/err")"
  elif ! cmp -s "$picture" "$room/picture"; then
    bad "$picture" "tools/timeline makes another one: tools/timeline --script examples/$name.txt <examples/$name.out >$picture"
  elif ! grep -q "(pictures/$name.svg)" docs/*.md; then
    bad "$picture" "no page shows it"
  else
    good
  fi
done

# The manual page is shown without a warning
if ! command -v man >/dev/null || ! command -v groff >/dev/null; then
  echo "docs: opendb.1: not looked at, since man and groff aren't here"
elif [ -n "$(man --warnings -l docs/opendb.1 2>&1 >/dev/null)" ]; then
  bad docs/opendb.1 "$(man --warnings -l docs/opendb.1 2>&1 >/dev/null | head -n 1)"
else
  good
fi

[ "$later" -eq 0 ] || echo "docs: $later scripts for later, not run"
echo "docs: $passed passed, $failed failed"
[ "$failed" -eq 0 ]
