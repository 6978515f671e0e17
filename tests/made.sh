# tools/prove in a repository of three small crates, with a stand-in for rt: no change may leave an old library in use.
small=$work/small
mkdir -p "$small/tools" "$small/bin" "$small/none"
cp tools/prove "$small/tools/"
cat >"$small/bin/rt" <<'END'
#!/bin/sh
case $1 in
  version) echo "kit ${MADE_KIT:-1}" ;;
  lib)
    [ -z "${MADE_SLOW:-}" ] || exec sleep 60
    cat ../*/src/*.rt >out.part
    [ -z "${MADE_CHANGES:-}" ] || echo changed >>../low/src/lib.rt
    ! grep -q wrong out.part || { echo "fn low::f: not proved"; rm out.part; exit 1; }
    mkdir -p out && mv out.part out/libtop.a
    ;;
  run) mkdir -p out && : >out/shown ;;
esac
END
chmod +x "$small/bin/rt"
for it in "$small"/crates/low "$small"/crates/high "$small"/crates/top "$small"/crates/other "$small"/crates/shown; do
  mkdir -p "$it/src" "$it/specs" "$it/must-fail"
  echo "// $it" >"$it/src/lib.rt"
  echo "spec" >"$it/specs/Lib.antt"
  echo "edit" >"$it/must-fail/one.edit"
done
mv "$small/crates/shown/src/lib.rt" "$small/crates/shown/src/main.rt"
printf '%s\n' '# crates' 'top staticlib: high' 'high: low' 'low:' 'other: low' 'shown: high' >"$small/crates.txt"

prove() {
  PATH=$small/bin:$PATH "$small/tools/prove" "$@"
}
# changed WHAT: what went before is seen, the library is made anew, and then it is current.
changed() {
  ends "made: $1: seen" 1 '' 'prove: ' prove --is-current top
  ends "made: $1: made anew" 0 '' 'made in' prove top
  ends "made: $1: then current" 0 '' '' prove --is-current top
}
unchanged() {
  ends "made: $1: still current" 0 '' '' prove --is-current top
}
in_low=$small/crates/low

changed "nothing made yet"
ends "made: quiet where current" 0 '' '' prove top
echo more >>"$in_low/src/lib.rt"
touch -t 200101010000 "$in_low/src/lib.rt"
changed "a source that looks older"
touch "$in_low/src/lib.rt"
unchanged "a source that was touched"
echo spec >"$in_low/specs/New.antt"
changed "a file more"
mv "$in_low/specs/New.antt" "$in_low/specs/Newer.antt"
changed "another name"
rm "$in_low/specs/Newer.antt"
changed "a file less"
sed 's/^high: low/high: low other/' "$small/crates.txt" >"$small/crates.new"
mv "$small/crates.new" "$small/crates.txt"
changed "a crate more below"
sed 's/^high: low other/high: other low/' "$small/crates.txt" >"$small/crates.new"
mv "$small/crates.new" "$small/crates.txt"
changed "another line in crates.txt"
sed 's/--cpu x86-64/--cpu x86-64-v2/' "$small/tools/prove" >"$work/prove"
cp "$work/prove" "$small/tools/prove"
changed "other words for rt"
echo more >>"$small/crates/top/out/libtop.a"
changed "a library that was written to"
rm "$small/crates/top/out/libtop.a"
changed "a library that was taken away"
echo more >>"$in_low/must-fail/one.edit"
echo more >"$in_low/stdin"
unchanged "an edit that must fail, and input"
MADE_KIT=2
export MADE_KIT
changed "another toolchain"
echo wrong >>"$in_low/src/lib.rt"
ends "made: what is not proved" 1 '' 'not proved' prove top
ends "made: no library after a failure" 1 '' 'is missing' prove --is-current top
grep -v wrong "$in_low/src/lib.rt" >"$work/right"
cp "$work/right" "$in_low/src/lib.rt"
changed "mended"
echo more >>"$in_low/src/lib.rt"
MADE_CHANGES=yes
export MADE_CHANGES
ends "made: a change while it is made" 1 '' 'files changed' prove top
unset MADE_CHANGES
changed "once more"
echo more >>"$in_low/src/lib.rt"
: >"$work/slow"
MADE_SLOW=yes PATH=$small/bin:$PATH "$small/tools/prove" top >"$work/slow" 2>&1 &
slow=$!
for _ in 1 2 3 4 5 6 7 8 9; do
  ! grep -q 'making it' "$work/slow" || break
  sleep 1
done
kill "$slow"
ends "made: a run that is broken off" 143 '' '' wait "$slow"
ends "made: no library after that" 1 '' 'is missing' prove --is-current top
changed "after that"
unset MADE_KIT
ends "made: a program" 0 '' 'made in' prove shown
ends "made: a program that is current" 0 '' '' prove --is-current shown
ends "made: no such crate" 2 '' 'no crate nix' prove nix
rm "$small/crates/top/out/libtop.a"
for it in sh dirname awk sed grep find sort uniq head tail cmp mkdir rm cat sha256sum cksum flock date; do
  at=$(command -v "$it") && ln -s "$at" "$small/none/$it"
done
ends "made: no toolchain" 1 '' 'takes rt' env PATH="$small/none" "$small/tools/prove" top
