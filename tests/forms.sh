# For each tests/forms/NAME.bas each NAME.COMMAND beside it, NAME.check at least, is what `plotform COMMAND NAME.bas` says there:
# a line with its status, standard output, and behind a line '-- standard error' what stands there, if anything.
need_plotform "part forms" || return 0

# spoken COMMAND FORM: all that in one text.
spoken() {
  got=0
  (cd tests/forms && exec "$plotform" "$1" "$2") >"$work/out" 2>"$work/err" || got=$?
  echo "status $got"
  cat "$work/out"
  [ ! -s "$work/err" ] || { echo "-- standard error" && cat "$work/err"; }
}

# Fewer forms than these are not all of them.
least=45
forms=0
for form in tests/forms/*.bas; do
  [ -f "$form" ] || continue
  forms=$((forms + 1))
  base=${form%.bas}
  file=${form##*/}
  [ -z "$accept" ] || [ -e "$base.check" ] || : >"$base.check"
  [ -e "$base.check" ] || fail "$form" "there is no $base.check: tests/run --accept writes it"
  for wanted in "$base".*; do
    command=${wanted##*.}
    [ "$command" != bas ] || continue
    spoken "$command" "$file" >"$work/spoken"
    if [ -n "$accept" ] && ! cmp -s "$work/spoken" "$wanted"; then
      cp "$work/spoken" "$wanted"
      echo "written: $wanted"
    fi
    same "$wanted" "$work/spoken" "$wanted"
    ! grep -q panicked "$work/err" || fail "$wanted" "a panic" "$work/err"
  done
done
for wanted in tests/forms/*; do
  [ -f "${wanted%.*}.bas" ] || fail "$wanted" "there is no form ${wanted%.*}.bas"
done
if [ "$forms" -ge "$least" ]; then
  pass
else
  fail "tests/forms" "$forms forms, and there are $least at least"
fi
