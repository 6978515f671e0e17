# Read in by .ci/run, run and tests/run: where cargo is not on PATH it is looked for where its installer puts it.
cargo_home=${CARGO_HOME:-${HOME:-}/.cargo}
if ! command -v cargo >/dev/null 2>&1 && [ -x "$cargo_home/bin/cargo" ]; then
  PATH=$PATH:$cargo_home/bin
  export PATH
fi
