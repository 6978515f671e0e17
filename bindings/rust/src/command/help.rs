//! What `--help` and `--version` print.

use super::args::{COMMANDS, Command};

pub const VERSION: &str = concat!("plotform ", env!("CARGO_PKG_VERSION"), "\n");

const GENERAL: &str = "\
plotform: the compiler of plot forms

  plotform check [--json] FORM..   tell every error and warning
  plotform names FORM..            a listing for people
  plotform list FORM..             document 01's listing
  plotform build FORM -o OUT       compile a form into a file
  plotform sheet FORM              the input of document 01's program
  plotform COMMAND --help          more on a command
  plotform --version               the version

A FORM is BASIC text in UTF-8; - is standard input; -- ends the options.
names and list also read what build wrote, and inputs of document 01's program.

Exit status: 0 no errors (there may be warnings); 1 errors in a form;
2 a wrong command line, a file that can't be read, output that can't be written;
141 what read the output went away.
";

const CHECK: &str = "\
plotform check [--json] FORM..

Tells every error and warning of the forms, as

  tally.bas:5:17: error[2]: no line has this label
    label 50
    | 50 PRINT A:GOTO 305
    |                 ^^^
    hint: lines 300 and 310 are there

The number in brackets is document 01's class; `refusal` and a number is a form
that the compiler does not take; without a number it is told in reading.
FILE:LINE:COLUMN count from 1, the column in letters; a byte order mark does not
count. The source line is shown with wide letters as two columns, a tab as the
one sign \u{21e5}, other control letters as signs such as \u{241b}; a long line is cut around
the place, with .. where it is cut. The last line has the counts.

  --json   one object for editors, with the same: files, each with its findings
           (file, line, column, endLine, endColumn, severity, class, refusal,
           message, label, expected, hint, source), and counts. endColumn is the
           column behind the last letter.

Exit status: 0 no errors, 1 errors, 2 a file that can't be read.
";

const NAMES: &str = "\
plotform names FORM..

Lists the compiled form for people: the form's lines, under each its
instructions with names, texts and numbers, and the notes at the end. A FORM is
BASIC text, a file that `plotform build` wrote, or an input of document 01's
program. With several forms each has a line `== FORM` before it.

A form with errors of reading, or one that the compiler refuses, is not listed:
its errors go to standard error. Exit status: 0 no errors, 1 errors, 2 a file
that can't be read.
";

const LIST: &str = "\
plotform list FORM..

Lists the compiled form as document 01 says: a line an instruction (address,
line, call, three arguments), then a line a note (`note`, class, line, start,
end). FORM and exit status are as of `plotform names`.
";

const BUILD: &str = "\
plotform build FORM -o OUT

Compiles a form's text and writes OUT, which `plotform names` reads. OUT is
written only if the form has no errors; else it stays as it was. Errors and
warnings go to standard error. -o - writes to standard output.

Exit status: 0 built, 1 errors, 2 a file that can't be read or written.
";

const SHEET: &str = "\
plotform sheet FORM

Writes the input of document 01's program for a form's text: the number of words
of its tree and of units of its text, the words, the units.

Exit status: 0 written, 1 errors, 2 a file that can't be read.
";

pub fn of(command: Option<Command>) -> &'static str {
  match command {
    None => GENERAL,
    Some(Command::Check) => CHECK,
    Some(Command::List) => LIST,
    Some(Command::Names) => NAMES,
    Some(Command::Build) => BUILD,
    Some(Command::Sheet) => SHEET,
  }
}

/// A command's line: the first of its help.
pub fn line(command: Command) -> &'static str {
  of(Some(command)).lines().next().unwrap_or("")
}

/// The lines of all commands.
pub fn usage() -> String {
  let lines = COMMANDS.map(|(_, command)| format!("  {}", line(command)));
  format!("{}\n  plotform --help", lines.join("\n"))
}
