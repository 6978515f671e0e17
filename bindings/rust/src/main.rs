//! The command `plotform`: `plotform --help` says what it does.

mod command;

use std::process::ExitCode;

fn main() -> ExitCode {
  command::main()
}
