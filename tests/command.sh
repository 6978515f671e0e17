# plotform and run as a person calls them: exit statuses, what is said where, output that cannot be written.
need_plotform "part command" || return 0
here=$work/command
mkdir -p "$here/folder"
cp examples/volume.bas "$here/good.bas"
printf '10 GOTO 20\n' >"$here/bad.bas"
printf '\377\3761\0000\000 \000C\000L\000S\000\n\000' >"$here/utf16.bas"
printf '10 PRINT "caf\351"\n' >"$here/latin1.bas"
printf '10 PRINT "\312\367\304\276"\n' >"$here/gbk.bas"
: >"$here/empty.bas"
awk 'BEGIN { for (i = 1; i <= 2500; i++) printf "%d PRINT A%d;B*2\n", i, i }' >"$here/big.bas"

# in_here WORD..: plotform with these words, in that folder.
in_here() {
  (cd "$here" && exec "$plotform" "$@")
}
# plot NAME STATUS OUT ERR WORD..: what it ends with and says there.
plot() {
  name="plotform $1" wanted=$2 out=$3 err=$4
  shift 4
  ends "$name" "$wanted" "$out" "$err" in_here "$@"
}

plot "alone" 2 '' 'check'
plot "--help" 0 'check' '' --help
plot "--version" 0 '^plotform [0-9]' '' --version
plot "with an unknown command" 2 '' 'nix' nix good.bas
plot "with an unknown option" 2 '' '--nix' check --nix good.bas
plot "check with no file" 2 '' . check
for it in check list names sheet; do
  # check ends with its counts.
  counts=
  [ "$it" != check ] || counts='1 file not read'
  plot "$it --help" 0 "$it" '' "$it" --help
  plot "$it of a form without a fault" 0 . '' "$it" good.bas
  plot "$it of a missing file" 2 "$counts" 'missing.bas: no such file' "$it" missing.bas
  plot "$it of a folder" 2 "$counts" 'folder: a directory' "$it" folder
  plot "$it of UTF-16" 2 "$counts" 'utf16.bas: UTF-16' "$it" utf16.bas
  plot "$it of Latin-1" 2 "$counts" 'latin1.bas: not UTF-8' "$it" latin1.bas
  plot "$it of GBK" 2 "$counts" 'gbk.bas: not UTF-8.*GBK' "$it" gbk.bas
done
no_line='^bad\.bas:1:9: error\[2\]'
plot "check of a form with an error" 1 "$no_line" - check bad.bas
plot "check of an empty form" 0 'no errors' '' check empty.bas
plot "check of several files" 1 "$no_line" - check good.bas bad.bas good.bas
plot "check of several files, one missing" 2 - 'missing.bas' check missing.bas good.bas

from_input() {
  in_here "$@" <"$here/good.bas"
}
ends "plotform list -" 0 . '' from_input list -
cp "$work/out" "$work/by_input"
ends "plotform list good.bas" 0 . '' in_here list good.bas
same "plotform list: from standard input the same" "$work/by_input" "$work/out"

# A reader that ends early: what was not written is a failure, told by the status, and no panic.
closed_pipe() {
  { in_here "$1" big.bas; echo $? >"$work/status"; } | head -n 1 >"$work/first"
  return "$(cat "$work/status")"
}
for it in list names; do
  ends "plotform $it in a closed pipe" 141 - '' closed_pipe "$it"
done
to_closed() {
  in_here "$@" >&-
}
from_closed() {
  in_here "$@" <&-
}
if [ -e /proc/self/fdinfo/1 ]; then
  for it in check list names sheet; do
    ends "plotform $it to a closed output" 2 '' 'is closed' to_closed "$it" good.bas
  done
  ends "plotform --help to a closed output" 2 '' 'is closed' to_closed --help
  ends "plotform check of a closed input" 2 - 'is closed' from_closed check -
fi
to_null() {
  in_here "$@" >/dev/null </dev/null
}
ends "plotform check to /dev/null" 0 '' '' to_null check good.bas
ends "plotform check of an empty input" 0 '' '' to_null check -
to_full() {
  in_here "$@" >/dev/full
}
if [ -c /dev/full ]; then
  for it in check list names sheet; do
    ends "plotform $it to a full disk" 2 '' 'written' to_full "$it" good.bas
  done
fi

plot "build" 0 '' '' build -o form good.bas
cp "$here/form" "$work/kept" 2>/dev/null
plot "names of what was built" 0 . '' names form
cp "$work/out" "$work/of_built"
plot "names of its form" 0 . '' names good.bas
same "plotform names: of what was built the same" "$work/of_built" "$work/out"
plot "list of what was built" 0 . '' list form
same "plotform list: of what was built the same" "$work/out" "$work/by_input"
plot "build of a form with an error" 1 '' "$no_line" build -o bad bad.bas
ends "plotform build: nothing for a form with an error" 1 - - test -e "$here/bad"
plot "build to a folder that is missing" 2 '' 'missing/form' build -o missing/form good.bas
plot "build over its own form" 2 '' 'the form itself' build -o good.bas good.bas
same "plotform build: its own form stays" "$here/good.bas" examples/volume.bas
ends "plotform build over its standard input" 2 '' 'the form itself' from_input build - -o good.bas
same "plotform build: its standard input stays" "$here/good.bas" examples/volume.bas
plot "build to no name" 2 '' 'name a file behind -o' build good.bas -o ''
ln -s behind "$here/link"
plot "build behind a link to what is not there" 0 '' '' build -o link good.bas
same "plotform build: behind the link stands what was built" "$here/behind" "$work/kept"
ends "plotform build: the link stays" 0 - - test -L "$here/link"
echo old >"$here/locked"
chmod a-w "$here/locked"
# Some users may write to it all the same.
if [ ! -w "$here/locked" ]; then
  plot "build to a file without a right to write" 2 '' 'no right to write' build -o locked good.bas
  echo old >"$work/old"
  same "plotform build: that file stays" "$here/locked" "$work/old"
fi
# A byte less, and one byte changed at each of some places.
size=$(wc -c <"$work/kept")
head -c $((size - 1)) "$work/kept" >"$here/piece"
plot "names of a file cut short" 2 '' 'ends after' names piece
for at in 0 $((size / 4)) $((size / 2)) $((size - 1)); do
  {
    head -c "$at" "$work/kept"
    tail -c +$((at + 1)) "$work/kept" | head -c 1 | tr '\000-\377' '\001-\377\000'
    tail -c +$((at + 2)) "$work/kept"
  } >"$here/other"
  said='its checksum is'
  [ "$at" -ne 0 ] || said='no built form'
  plot "names of a file with byte $at changed" 2 '' "$said" names other
done

# What begins as a built form does, and is a text; texts that are not whole.
echo 'PLOTFORM$="OAK"' >"$here/PLOTFORM\$.bas"
plot "check of a text that begins with PLOTFORM" 1 '^PLOTFORM\$\.bas:1:6: error' '' check 'PLOTFORM$.bas'
printf '10 CLS\n20 PRINT "\000"\n' >"$here/zero.bas"
plot "check of a text with a zero byte" 2 - 'zero\.bas: a zero byte in line 2' check zero.bas
printf '10 PRINT "\346\235' >"$here/inside.bas"
plot "check of UTF-8 that ends inside a letter" 2 - 'inside\.bas: UTF-8 that ends inside a letter' check inside.bas

# No control letter of an argument reaches standard error as it is.
escape=$(printf 'a\033[31m\177\302\233')
controls=$(printf '[\001-\037\177]|\302[\200-\237]')
for words in "$escape" "-$escape" "help $escape" "check --$escape good.bas" "list $escape" "names no/$escape" \
  "check $escape/no" "build -o $escape/form good.bas" "sheet $escape"; do
  # shellcheck disable=SC2086
  ends "plotform with a control letter" 2 - . in_here $words
  tr -d '\n' <"$work/err" >"$work/line"
  ends "plotform with a control letter: standard error" 1 '' '' env LC_ALL=C grep -E "$controls" "$work/line"
done

# What is far too long ends soon.
soon() {
  begun=$(date +%s)
  in_here "$@"
  got=$?
  [ $(($(date +%s) - begun)) -le 10 ] || return 99
  return "$got"
}
awk 'BEGIN { for (i = 0; i < 20000; i++) printf "10 PRINT 1\r" }' >"$here/returns.bas"
ends "plotform check of 200 KB of carriage returns" 1 '^[12] errors?, no warnings$' '' soon check returns.bas
awk 'BEGIN { for (i = 0; i < 150000; i++) printf "\303\251:" }' >"$here/wide.bas"
ends "plotform check of a line of 300,000 letters" 1 '^wide\.bas:1:1: error: line longer than 4095 units' '' soon check wide.bas

# check --json: names as they are given, and what a strict reader takes.
strict='
import json, sys
def pairs(pairs):
    names = [name for name, _ in pairs]
    assert len(names) == len(set(names)), names
    return dict(pairs)
def refuse(word):
    raise ValueError(word)
told = json.loads(sys.stdin.buffer.read().decode("utf-8"), object_pairs_hook=pairs, parse_constant=refuse)
assert [file["file"] for file in told["files"]] == sys.argv[1:], told
for file in told["files"]:
    assert file["error"] is None and file["findings"] != [], file
    assert all(finding["file"] == file["file"] for finding in file["findings"]), file
'
odd=$(printf 'a\nb\tc".bas')
cp "$here/bad.bas" "$here/$odd"
printf '10 A$="\001\033\177\302\233\342\200\250\\":GOTO 20\n' >"$here/controls.bas"
plot "check --json" 1 '"file":"a\\nb\\tc\\".bas"' '' check --json "$odd" controls.bas bad.bas
if can_try "check --json with a strict reader" python3; then
  cp "$work/out" "$work/json"
  read_strictly() {
    python3 -c "$strict" "$@" <"$work/json"
  }
  ends "plotform check --json: read by a strict reader" 0 '' '' read_strictly "$odd" controls.bas bad.bas
fi

# run itself, also where plotform is another one: it builds its own.
[ -z "${PLOTFORM:-}" ] || return 0
saw "tools/prove listing" tools/prove listing
mkdir -p "$work/links"
ln -s "$root/run" "$work/links/first"
ln -s first "$work/links/run"
by_link() {
  (cd "$here" && exec "$work/links/run" "$@")
}
ends "run alone" 2 '' 'run COMMAND' by_link
ends "run --help" 0 'run COMMAND' '' by_link --help
ends "run of a missing file" 2 '' 'no such file' by_link missing.bas
ends "run of a folder" 2 '' 'a folder' by_link folder
ends "run through links, from another folder" 0 - '' by_link list good.bas
same "run list is plotform list" "$work/out" "$work/by_input"
closed_output() {
  by_link "$@" >&-
}
ends "run with a closed output" 2 '' 'is closed' closed_output list good.bas
for form in examples/*.bas; do
  base=${form%.bas}
  ends "run $form" 0 . '' ./run "$form"
  same "run $form: the listing" "$work/out" "$base.listing"
  ends "run $base.bin" 0 . '' ./run "$base.bin"
  same "run $base.bin: the listing" "$work/out" "$base.listing"
  # The status of a form whose listing tells an error.
  status=0
  ! grep -q '^error' "$base.names" || status=1
  ends "run --names $form" "$status" . '' ./run --names "$form"
  same "run --names $form: the listing" "$work/out" "$base.names"
done
printf 'short' >"$here/short.bin"
ends "run of short input" 0 '^refused 1$' 'shorter' by_link short.bin
if [ -c /dev/full ]; then
  run_to_full() {
    ./run examples/volume.bin >/dev/full
  }
  ends "run to a full disk" 2 '' . run_to_full
fi
