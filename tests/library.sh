# The library from outside: C programs that link it, and the Rust wrapper's own tests.
saw "tools/library" tools/library

# links PROGRAM: compiles tests/c/PROGRAM.c with the library.
links() {
  ${CC:-cc} -std=c11 -Wall -Wextra -Werror -O2 -pthread -Iinclude "tests/c/$1.c" "$library" -o "$work/$1"
}

# built.c reads what `plotform build` wrote, and prints the listing that plotform prints, and each word of a small form. A form with an
# error, as delay.bas, is not built.
built_in_c() {
  saw "tests/c/built.c: compiled" links built
  for name in diameters tally volume; do
    form=examples/$name.bas
    ends "tests/c/built.c: build $form" 0 '' - "$plotform" build -o "$work/form" "$form"
    ends "tests/c/built.c: list $form" 0 . '' "$plotform" list "$form"
    cp "$work/out" "$work/wanted"
    ends "tests/c/built.c: $form" 0 . '' "$work/built" "$work/form"
    same "tests/c/built.c: the listing of $form" "$work/out" "$work/wanted"
  done
  echo '10 READ DIA ONE$,A B:DATA "X"' >"$work/cut.bas"
  ends "tests/c/built.c: build cut.bas" 0 '' - "$plotform" build -o "$work/form" "$work/cut.bas"
  ends "tests/c/built.c: cut.bas" 0 . '' "$work/built" "$work/form" --whole
  cat >"$work/wanted" <<'END'
record 7 line 0 from 8 to 16 arguments 0 0 0
record 30 line 0 from 8 to 16 arguments 0 0 0
record 7 line 0 from 17 to 20 arguments 1 0 0
record 30 line 0 from 17 to 20 arguments 0 0 0
record 2 line 0 from 0 to 0 arguments 17 0 0
note 10 line 0 from 8 to 16 severity 2 lost 4
note 10 line 0 from 17 to 20 severity 2 lost 2
entry 50 number 0 from 8 length 3 extra 36
entry 50 number 1 from 17 length 1 extra 0
entry 51 number 0 from 27 length 1 extra 1
END
  same "tests/c/built.c: all that cut.bas says" "$work/out" "$work/wanted"
}

compiler=${CC:-cc}
if can_try "the C programs of part library" "${compiler%% *}"; then
  for it in example stack; do
    saw "tests/c/$it.c: compiled" links "$it"
    saw "tests/c/$it.c" "$work/$it"
  done
  if need_plotform "tests/c/built.c"; then
    built_in_c
  fi
fi

rust_tests() {
  (cd bindings/rust && cargo test --offline --quiet --target-dir "$root/target/rust")
}
if can_try "the Rust wrapper's tests" cargo cc; then
  saw "the Rust wrapper's tests" rust_tests
fi
