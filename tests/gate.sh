# .ci/run in a folder of its own, with stand-ins for all that it calls: what it ends with, and its last line.
gate=$work/gate
for it in .ci tools tests oracle bin python none home/.cargo/bin src/gvb_interp/src; do
  mkdir -p "$gate/$it"
done
cp .ci/run "$gate/.ci/run"
cp tools/cargo.sh "$gate/tools/cargo.sh"
: >"$gate/src/gvb_interp/src/compiler.rs"
echo "what went in" >"$gate/went_in"

# stand_in FILE: a program of these lines.
stand_in() {
  { echo '#!/bin/sh' && cat; } >"$gate/$1"
  chmod +x "$gate/$1"
}
stand_in bin/rt <<'END_OF_RT'
[ "$1" = ci ] || { echo "kit 1" && exit; }
[ -z "${GATE_CHANGES:-}" ] || echo changed >>went_in
printf '%s\n' "rt: ok: 5 edits, ${GATE_BAD:-0} bad" "${GATE_SAYS:-7 passed, 0 failed}"
exit "${GATE_CI:-0}"
END_OF_RT
stand_in tools/trusted <<'END_OF_TRUSTED'
echo "believed $1" >>tried
exit "${GATE_TRUSTED:-0}"
END_OF_TRUSTED
stand_in python/python3 </dev/null
stand_in tools/prove <<'END_OF_PROVE'
case $1 in
  --sources) cat went_in ;;
  --after-ci) echo "put together: $2" >>tried && exit "${GATE_AFTER_CI:-0}" ;;
  *) echo "proved: $1" >>tried && exit "${GATE_PROVE:-0}" ;;
esac
END_OF_PROVE
stand_in tests/run <<'END_OF_RUN'
echo "tests/run${PLOTFORM:+ with PLOTFORM}" >>tried
echo "5 passed, 0 failed"
exit "${GATE_TESTS:-0}"
END_OF_RUN
stand_in oracle/test <<'END_OF_TEST'
echo "oracle" >>tried
exit "${GATE_ORACLE:-0}"
END_OF_TEST
stand_in home/.cargo/bin/cargo </dev/null
for it in sh bash env dirname cat sed tail tee mktemp rm; do
  at=$(command -v "$it") && ln -s "$at" "$gate/none/$it"
done

# gate_says NAME STATUS LAST TRIED [SETTING..]: the status, the last line, and all that was tried, joined by commas.
gate_says() {
  name="gate: $1" wanted=$2 last=$3 all=$4
  shift 4
  : >"$gate/tried"
  got=0
  env PATH="$gate/bin:$gate/python:$gate/none" HOME="$gate/home" CARGO_HOME= PLOTFORM_SRC="$gate/src" "$@" \
    "$gate/.ci/run" >"$work/said" 2>&1 || got=$?
  if [ "$got" -ne "$wanted" ] || [ "$(tail -n 1 "$work/said")" != "$last" ]; then
    fail "$name" "status $got and not $wanted, or the last line is not '$last'" "$work/said"
  elif [ "$(paste -s -d , "$gate/tried")" != "$all" ]; then
    fail "$name" "tried: $(paste -s -d , "$gate/tried") and not $all" "$work/said"
  else
    pass
  fi
}
believed="believed --check"
oracle="$believed,oracle"
good="7 passed, 0 failed"
put="put together: hollupsa,put together: listing"
again="put together: hollupsa,proved: hollupsa"
by_tests="0 passed, 1 failed: tests/run, or the library for it, as said above"
no_verdict="0 passed, 1 failed: rt ci's last line does not say that all passed"
gate_says "all good" 0 "$good" "$oracle,$put,tests/run"
gate_says "without python3" 0 "$good" "oracle,$put,tests/run" PATH="$gate/bin:$gate/none"
gate_says "what has to be believed is not what is listed" 1 \
  "0 passed, 1 failed: docs/PROOF.md's list of what has to be believed, as said above" "$believed" GATE_TRUSTED=1
gate_says "without cargo" 0 "$good" "$believed,$put,tests/run" HOME="$gate"
gate_says "cargo in its own folder" 0 "$good" "$oracle,$put,tests/run" HOME="$gate" CARGO_HOME="$gate/home/.cargo"
gate_says "without the oracle's sources" 0 "$good" "$believed,$put,tests/run" PLOTFORM_SRC="$gate/none"
gate_says "another plotform is not tried" 0 "$good" "$oracle,$put,tests/run" PLOTFORM=other
gate_says "the oracle fails" 1 "0 passed, 1 failed: the oracle's own tests, as said above" "$oracle" GATE_ORACLE=3
gate_says "rt ci fails" 1 "6 passed, 1 failed" "$oracle" GATE_CI=1 GATE_SAYS="6 passed, 1 failed"
gate_says "rt ci fails without a verdict" 3 "0 passed, 1 failed: rt ci ended with status 3" "$oracle" GATE_CI=3 GATE_SAYS="no more memory"
gate_says "rt ci fails and says that all passed" 4 "0 passed, 1 failed: rt ci ended with status 4" "$oracle" GATE_CI=4
for it in "7 proved" "0 passed, 0 failed" "6 passed, 1 failed" "7 passed, 0 failed, 1 left" "as 7 passed, 0 failed"; do
  gate_says "rt ci's last line is '$it'" 1 "$no_verdict" "$oracle" GATE_SAYS="$it"
done
gate_says "bad must-fail edits" 1 "0 passed, 2 failed: must-fail edits that are bad, as rt ci says above" "$oracle" GATE_BAD=2
gate_says "the library is proved once more" 0 "$good" "$oracle,$again,put together: listing,proved: listing,tests/run" GATE_AFTER_CI=1
gate_says "the library is not made" 1 "$by_tests" "$oracle,$again" GATE_AFTER_CI=1 GATE_PROVE=1
gate_says "tests/run fails" 1 "$by_tests" "$oracle,$put,tests/run" GATE_TESTS=1
gate_says "files change meanwhile" 1 \
  "0 passed, 1 failed: files changed while rt ci ran, so it is not known what it proved; run this once more" "$oracle" GATE_CHANGES=yes
