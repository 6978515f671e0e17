# Counts checks: read in by tests/run. A check that passes prints nothing, one that fails a line and what it saw.
passed=0
failed=0
untried=

# can_try WHAT TOOL..: whether the tools are here; where one is not, the last line but one tells that WHAT was not tried.
can_try() {
  what=$1
  shift
  for tool; do
    command -v "$tool" >/dev/null 2>&1 && continue
    untried="$untried${untried:+, }$what (no $tool)"
    return 1
  done
}

pass() {
  passed=$((passed + 1))
}

# fail NAME WHY [FILE]: the file's first lines are shown.
fail() {
  failed=$((failed + 1))
  echo "failed: $1: $2"
  [ -z "${3:-}" ] || head -n 20 "$3" | sed 's/^/  /'
}

# saw NAME COMMAND..: passes where the command's status is 0.
saw() {
  name=$1
  shift
  if "$@" >"$work/said" 2>&1; then
    pass
  else
    fail "$name" "status $?" "$work/said"
  fi
}

# same NAME GOT WANTED: the differences, if there are any.
same() {
  if diff "$3" "$2" >"$work/diff" 2>&1; then
    pass
  else
    fail "$1" "not what is wanted (<), but (>)" "$work/diff"
  fi
}

# fits WANTED FILE: whether a file is as wanted: '-' anything, '' nothing, else it has a line with this pattern.
fits() {
  case $1 in
    -) true ;;
    '') [ ! -s "$2" ] ;;
    *) grep -Eq -e "$1" "$2" ;;
  esac
}

# ends NAME STATUS OUT ERR COMMAND..: its status, and what it writes to standard output and standard error, as of `fits`.
# STATUS may be a list: '1 2'. No command of this project ever panics.
ends() {
  name=$1 wanted=$2 out=$3 err=$4
  shift 4
  got=0
  "$@" >"$work/out" 2>"$work/err" || got=$?
  judge
}

judge() {
  case " $wanted " in
    *" $got "*)
      if ! fits "$out" "$work/out"; then
        fail "$name" "standard output has no '$out', but" "$work/out"
      elif ! fits "$err" "$work/err"; then
        fail "$name" "standard error has no '$err', but" "$work/err"
      elif grep -q panicked "$work/err"; then
        fail "$name" "a panic" "$work/err"
      else
        pass
      fi
      ;;
    *) fail "$name" "status $got and not $wanted" "$work/err" ;;
  esac
}
