# Document 01's program on what it refuses: "above 2,048 of either, or short input, it prints "refused 1" ... a refusal as "refused"
# and number". Good inputs stand between them, so that a program that turns every sheet away does not pass. What it says where it
# can't read or write is tried at the end.
#
# It prints 1, 2 and 4 to 8. Work is lent with 2,048 words, as many as a sheet may have, so 3 does not occur; the other buffers
# suffice for every sheet, so 9, 10 and 11 do not.
saw "tools/prove listing" tools/prove listing
here=$work/listing
mkdir -p "$here"

# numbers SIZE NUMBER..: each in so many bytes, the lowest first.
numbers() {
  size=$1
  shift
  for number; do
    left=$size
    while [ "$left" -gt 0 ]; do
      # shellcheck disable=SC2059
      printf "\\$(printf %03o $((number & 255)))"
      number=$((number >> 8)) left=$((left - 1))
    done
  done
}
# words WORD..: a sheet's words, hexadecimal.
words() {
  for word; do
    numbers 4 "0x$word"
  done
}
# units TEXT: its letters (ASCII), a unit each.
units() {
  # shellcheck disable=SC2046
  numbers 2 $(printf %s "$1" | od -An -v -tu1)
}
# form TEXT WORD..: an input of a text and a sheet.
form() {
  text=$1
  shift
  numbers 4 $# ${#text}
  words "$@"
  units "$text"
}
# zeros COUNT: so many bytes of 0, for words and units that nobody looks at.
zeros() {
  head -c "$1" /dev/zero
}
on_input() {
  crates/listing/out/listing <"$1"
}
# prints NAME WANTED: the whole output for the input at hand, with status 0.
prints() {
  printf '%s\n' "$2" >"$work/wanted"
  ends "listing of $1" 0 - '' on_input "$here/input"
  same "listing of $1: what it prints" "$work/out" "$work/wanted"
}

# Document 01's example, 10 GOTO 10: ten words, ten units, 68 bytes.
good='0 0 20 0 0 0
1 0 2 17 0 0'
head='0F000001 1000000A 01000002 0300000A 04000001'
goto='20000018 0100300A 05000001 0100800A 0300000A'
# shellcheck disable=SC2086
form '10 GOTO 10' $head $goto >"$here/good"
# as_good: the input at hand is that example again, which no earlier input may have changed.
as_good() {
  cp "$here/good" "$here/input"
  prints "10 GOTO 10, after $1" "$good"
}
as_good "nothing"

# 1: cut off in the word count, before the unit count, in it, before the words, in them, before the units, in them.
for at in 0 3 4 7 8 9 47 48 49 67; do
  head -c "$at" "$here/good" >"$here/input"
  prints "the first $at bytes of 68" 'refused 1'
done
as_good "short input"
# Bytes behind the end are not looked at.
{ cat "$here/good" && zeros 3; } >"$here/input"
prints "10 GOTO 10 and three bytes" "$good"
{ cat "$here/good" "$here/good"; } >"$here/input"
prints "10 GOTO 10 twice" "$good"
# 1: more than 2,048. With just so many the sheet is looked at: no line, so the second word is left over, or the units are too many.
{ numbers 4 2049 0 && words 0F000000 && zeros 8192; } >"$here/input"
prints "2,049 words" 'refused 1'
{ numbers 4 2048 0 && words 0F000000 && zeros 8188; } >"$here/input"
prints "2,048 words" 'refused 4'
{ numbers 4 1 2049 && words 0F000000 && zeros 4098; } >"$here/input"
prints "2,049 units" 'refused 1'
{ numbers 4 1 2048 && words 0F000000 && zeros 4096; } >"$here/input"
prints "2,048 units" 'refused 6'
# 1: counts whose low 16 bits are below 2,048, and the largest.
{ numbers 4 65537 0 && words 0F000000; } >"$here/input"
prints "65,537 words" 'refused 1'
{ numbers 4 1 4294967295 && words 0F000000; } >"$here/input"
prints "4,294,967,295 units" 'refused 1'
as_good "too long input"

# 2: REM and one unit, the first and the last that are refused and those beside them. 1 goes before it, it before 4.
for unit in D7FF D800 DFFF E000; do
  { numbers 4 7 1 && words 0F000001 10000001 02000000 04000001 20000032 01000001 01000001 && numbers 2 "0x$unit"; } >"$here/input"
  case $unit in
    D8* | DF*) prints "the unit $unit" 'refused 2' ;;
    *) prints "the unit $unit" '0 0 1 0 0 0
1 0 2 17 0 0' ;;
  esac
done
{ numbers 4 0 1 && numbers 2 0xD800; } >"$here/input"
prints "the unit D800 and no word" 'refused 2'
{ numbers 4 0 2 && numbers 2 0xD800; } >"$here/input"
prints "the unit D800 and a unit missing" 'refused 1'

# 4: a kind and a payload that the form doesn't take there, a word left over, words missing.
numbers 4 0 0 >"$here/input"
prints "no word and no unit" 'refused 4'
# shellcheck disable=SC2086
{
  form '10 GOTO 10' $head 21000018 0100300A 05000001 0100800A 0300000A >"$here/input"
  prints "an expression in a statement's place" 'refused 4'
  form '10 GOTO 10' $head 20000048 0100300A 05000001 0100800A 0300000A >"$here/input"
  prints "statement 72" 'refused 4'
  form '10 GOTO 10' $head $goto 02000000 >"$here/input"
  prints "a word left over" 'refused 4'
  form '10 GOTO 10' $head >"$here/input"
  prints "a statement missing" 'refused 4'
  { form '10 GOTO 10' $head && words $goto; } >"$here/input"
  prints "a statement missing, that stands behind the units" 'refused 4'
}
as_good "refusals 2 and 4"

# 5: CALL of signs in front of a missing part, so many that this is at depth 64 and 65.
# signs COUNT DEPTH
signs() {
  signs=
  left=$1
  while [ "$left" -gt 0 ]; do
    signs="$signs 21000006 01000000 01000000 09000001"
    left=$((left - 1))
  done
  # shellcheck disable=SC2086
  form '' 0F000001 10000000 02000000 04000001 20000003 01000000 $signs 21000009 01000000 >"$here/input"
}
signs 63
prints "depth 65" 'refused 5'
signs 62
ends "listing of depth 64" 0 '^0 0 13 1 0 0$' '' on_input "$here/input"
ends "listing of depth 64: its end" 0 '^63 0 2 17 0 0$' '' on_input "$here/input"

# 6: a line longer than the text, and a text longer than its lines.
# shellcheck disable=SC2086
{
  form '10 GOTO 1' $head $goto >"$here/input"
  prints "a line of 10 units, of 9" 'refused 6'
  form '10 GOTO 100' $head $goto >"$here/input"
  prints "a line of 10 units, of 11" 'refused 6'
}
# 7: a range that ends before it starts, and behind its line; a name that begins with a digit; a string without a unit.
line='0F000001 10000001 02000000 04000001'
# shellcheck disable=SC2086
{
  form A $line 20000007 01001000 >"$here/input"
  prints "a range from 1 to 0" 'refused 7'
  form A $line 20000007 01000002 >"$here/input"
  prints "a range to 2 in a line of 1 unit" 'refused 7'
  form A $line 20000007 01000001 >"$here/input"
  prints "a range to 1 in it" '0 0 2 7 0 0
1 0 2 17 0 0'
  form 1 $line 2000002C 01000001 21000000 01000001 >"$here/input"
  prints "the name 1" 'refused 7'
  form A $line 2000002C 01000001 21000001 01000000 >"$here/input"
  prints "a string without a unit" 'refused 7'
}
# 8: FSEEK of two missing parts; the first offence decides.
# shellcheck disable=SC2086
{
  form A $line 20000045 01000001 21000009 01000000 21000009 01000000 >"$here/input"
  prints "FSEEK" 'refused 8'
  form A $line 20000045 01000002 21000009 01000000 21000009 01000000 >"$here/input"
  prints "FSEEK with a range to 2" 'refused 8'
  form A $line 20000044 01000001 21000009 01000000 21000009 01000000 21000009 01000000 >"$here/input"
  prints "FWRITE" '0 0 2 68 3 0
1 0 2 17 0 0'
}
as_good "all refusals"

# What fails is told, with status 1.
no_output() {
  on_input examples/volume.bin >&-
}
no_input() {
  crates/listing/out/listing <&-
}
gone() {
  { sleep 1; on_input examples/volume.bin; echo $? >"$work/status"; } | true
  return "$(cat "$work/status")"
}
ends "listing" 0 '^0 ' '' on_input examples/volume.bin
ends "listing of a folder" 1 '' . on_input examples
ends "listing with a closed output" 1 '' . no_output
ends "listing with a closed input" 1 '' . no_input
ends "listing in a closed pipe" 1 '' . gone
if [ -c /dev/full ]; then
  full() {
    on_input examples/volume.bin >/dev/full
  }
  ends "listing to a full disk" 1 '' . full
fi
