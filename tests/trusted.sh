# tools/trusted in a copy of what it reads: docs/PROOF.md lists what has to be believed, and each change of that is seen.
can_try "part trusted" python3 || return 0
copy=$work/trusted
mkdir -p "$copy/tools" "$copy/docs"
cp tools/trusted "$copy/tools/"
cp docs/PROOF.md "$copy/docs/"
for it in crates/*/specs/*.antt crates/*/src/*.rt crates/*/proofs/*.antt; do
  mkdir -p "$copy/${it%/*}"
  cp "$it" "$copy/$it"
done

# change FILE SCRIPT: what sed makes of it.
change() {
  sed "$2" "$copy/$1" >"$work/changed"
  ! cmp -s "$work/changed" "$copy/$1" || fail "trusted: $1" "'$2' changes nothing"
  cp "$work/changed" "$copy/$1"
}
# differs WHAT LINE: the check sees it, with such a line; once written, the list is as it should be.
differs() {
  ends "trusted: $1: seen" 1 "$2" 'tools/trusted --write' "$copy/tools/trusted" --check
  ends "trusted: $1: written" 0 '' '' "$copy/tools/trusted" --write
  ends "trusted: $1: then as listed" 0 '' '' "$copy/tools/trusted" --check
}
outcome=crates/rules/specs/Outcome.antt

ends "trusted: docs/PROOF.md lists what has to be believed" 0 '' '' "$copy/tools/trusted" --check
cp "$copy/docs/PROOF.md" "$work/listed"
"$copy/tools/trusted" --write
same "trusted: written where nothing changed" "$copy/docs/PROOF.md" "$work/listed"
echo '-- outcome: no more than a comment' >>"$copy/$outcome"
ends "trusted: a comment" 0 '' '' "$copy/tools/trusted" --check
printf 'abbrev pub other_place : ℕ\nother_place = 0\n' >>"$copy/$outcome"
differs "a definition that nothing mentions" '^\+ - crates/rules/specs/Outcome.antt: other_place$'
change "$outcome" 's/^  answer = record { refusal = k; place = p;/  answer = record { refusal = k; place = other_place;/'
differs "a definition that a promise mentions" '^\+ .*, other_place'
printf 'abbrev pub more : ℕ\nmore = 0\n' >"$copy/crates/rules/specs/More.antt"
differs "a file more" '^\+ - crates/rules/specs: .*More'
change "$outcome" 's/^use Rattle.rules.specs.Program.*/&\nuse Rattle.rules.specs.More.{more}/'
change "$outcome" 's/^other_place = 0/other_place = more/'
differs "a file more that a promise mentions" '^\+ - crates/rules/specs/More.antt: more$'
change crates/compiler/src/lib.rt 's/^    pub notes: usize,/    pub notes: Notes,/'
echo 'pub struct Notes(pub usize);' >>"$copy/crates/compiler/src/lib.rt"
differs "a type of the code" '^\+ - crates/compiler/src/lib.rt: Answer, Notes, Sizes'
change crates/compiler/src/lib.rt 's/length work.old)) }$/length work.old)) × (more ≡ more) }/'
change crates/compiler/src/lib.rt 's/^ghost use Rattle.rules.specs.MemAnswer.*/&\nghost use Rattle.rules.specs.Pairs.{pairs as more};/'
differs "a contract that says more" '^\+ - crates/rules/specs/Pairs.antt: .*pairs'
change "$outcome" 's/^use Rattle.rules.specs.More.*//'
ends "trusted: a file less that a promise mentions" 1 . 'tools/trusted --write' "$copy/tools/trusted" --check
change "$outcome" 's/^use Rattle.rules.specs.Program.*/&\nuse Rattle.rules.specs.More.{less}/'
change "$outcome" 's/^other_place = more/other_place = less/'
ends "trusted: a name that is not there" 1 '' 'no definition less in crates/rules/specs/More.antt' "$copy/tools/trusted" --check
change crates/rules/specs/More.antt 's/more/less/'
change crates/rules/proofs/Third.antt 's/^pub third :/pub the_third :/'
ends "trusted: a theorem under another name" 1 '' 'no theorem third' "$copy/tools/trusted" --check
change crates/rules/proofs/Third.antt 's/^pub the_third :/pub third :/'
change crates/compiler/src/lib.rt 's/^pub fn compile(/pub fn compiles(/'
ends "trusted: a function under another name" 1 '' 'no public compile' "$copy/tools/trusted" --check
change crates/compiler/src/lib.rt 's/^pub fn compiles(/pub fn compile(/'
change docs/PROOF.md '/made by tools.trusted/d'
ends "trusted: docs/PROOF.md without its place for the list" 1 '' 'has no lines' "$copy/tools/trusted" --check
