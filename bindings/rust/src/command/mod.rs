//! What `plotform` does. Nothing here panics on what is read or written: a
//! file that can't be read, a form that is wrong and a write that fails are
//! told, and the exit status says so.

mod args;
mod build;
mod help;
mod input;
mod json;
mod report;

use args::{Command, Request, Run};
use hollupsa::built::Built;
use hollupsa::check::{Checked, Code, check};
use hollupsa::{Compiled, compile, display, names};
use input::Content;
use report::Told;
use std::ffi::OsStr;
use std::io::{self, ErrorKind, Write};
use std::process::ExitCode;

/// Errors in a form.
const ERRORS: u8 = 1;
/// Usage, a file that can't be read, or output that can't be written.
const UNUSABLE: u8 = 2;
/// What reads the output went away: as of a program that SIGPIPE ends.
const GONE: u8 = 141;

pub fn main() -> ExitCode {
  let status = match args::parse(std::env::args_os().skip(1)) {
    Ok(Request::Help(command)) => print(help::of(command)).map(|()| 0),
    Ok(Request::Version) => print(help::VERSION).map(|()| 0),
    Ok(Request::Run(run)) => run_command(&run),
    Err(message) => tell(&message).map(|()| UNUSABLE),
  };
  ExitCode::from(status.unwrap_or_else(|error| lost(&error)))
}

/// The status when output is lost.
fn lost(error: &io::Error) -> u8 {
  if error.kind() == ErrorKind::BrokenPipe {
    return GONE;
  }
  // Where this can't be told either the status alone says it.
  let _ = tell(&format!("the output can't be written: {error}"));
  UNUSABLE
}

fn print(text: &str) -> io::Result<()> {
  print_bytes(text.as_bytes())
}

fn print_bytes(bytes: &[u8]) -> io::Result<()> {
  if input::is_closed(1) {
    return Err(io::Error::other("standard output is closed"));
  }
  let mut out = io::stdout().lock();
  out.write_all(bytes)?;
  out.flush()
}

/// A message on standard error. Nothing that was given reaches the terminal as
/// a command.
fn tell(message: &str) -> io::Result<()> {
  let lines: Vec<String> = message.lines().map(display::clean).collect();
  print_error(&format!("plotform: {}\n", lines.join("\n")))
}

fn print_error(text: &str) -> io::Result<()> {
  io::stderr().lock().write_all(text.as_bytes())
}

fn run_command(run: &Run) -> io::Result<u8> {
  match run.command {
    Command::Check => check_all(run),
    Command::List => list_all(run, &list),
    Command::Names => list_all(run, &names),
    Command::Build => build(run),
    Command::Sheet => sheet(&run.files[0]),
  }
}

// ------------------------------------------------------------------- check

fn check_all(run: &Run) -> io::Result<u8> {
  let told: Vec<Told> = run.files.iter().map(|file| tell_file(file)).collect();
  if run.json {
    print(&json::report(&told))?;
  } else {
    for file in &told {
      match &file.findings {
        Ok(_) => print(&report::text(file))?,
        Err(why) => tell(&format!("{}: {why}", file.name))?,
      }
    }
    print(&report::counts(&told))?;
  }
  Ok(report::status(&told))
}

fn tell_file(file: &OsStr) -> Told {
  match text_of(file) {
    Ok(text) => Told::of(file, &text, check(&text).findings),
    Err(why) => Told::unread(file, why),
  }
}

/// The text of a form; what is no text is told.
fn text_of(file: &OsStr) -> Result<String, String> {
  match input::read(file)? {
    Content::Text(text) => Ok(text),
    Content::Built(_) => Err(
      "a built form: `plotform names` shows it; name the text that it was built from"
        .to_string(),
    ),
    Content::Sheet(..) => Err(
      "a form as document 01's program takes it: `plotform names` shows it; name a form's text"
        .to_string(),
    ),
  }
}

/// Tells on standard error what is wrong with a form, with the counts.
fn tell_findings(told: Told) -> io::Result<()> {
  let told = [told];
  let shown = report::text(&told[0]) + &report::counts(&told);
  if told[0].findings.as_ref().is_ok_and(|findings| !findings.is_empty()) {
    print_error(&shown)?;
  }
  Ok(())
}

// ------------------------------------------------------------ list and names

/// A compiled form with its text, and the lengths of its lines.
struct Shown<'a> {
  compiled: &'a Compiled,
  lines: &'a [usize],
  text: &'a [u16],
}

fn list(shown: &Shown) -> String {
  shown.compiled.listing()
}

fn names(shown: &Shown) -> String {
  names::listing(shown.lines, shown.text, shown.compiled)
}

fn list_all(run: &Run, show: &dyn Fn(&Shown) -> String) -> io::Result<u8> {
  let mut status = 0;
  for file in &run.files {
    let print_shown = |shown: &Shown| {
      if run.files.len() > 1 {
        print(&format!("== {}\n", input::name(file)))?;
      }
      print(&show(shown))?;
      let has_errors = shown.compiled.notes().any(|note| !note.warning);
      Ok(if has_errors { ERRORS } else { 0 })
    };
    let of_file = match input::read(file) {
      Ok(Content::Text(text)) => list_text(file, &text, &print_shown),
      Ok(Content::Built(built)) => {
        let Built { compiled, lines, text } = &built;
        print_shown(&Shown { compiled, lines, text })
      }
      Ok(Content::Sheet(sheet, text)) => {
        list_sheet(file, &sheet, &text, &print_shown)
      }
      Err(why) => unusable(file, &why),
    };
    status = status.max(of_file?);
  }
  Ok(status)
}

/// Lists a form's text, if it could be compiled; the listing shows the notes.
fn list_text(
  file: &OsStr,
  text: &str,
  print_shown: &dyn Fn(&Shown) -> io::Result<u8>,
) -> io::Result<u8> {
  let Checked { form, compiled, mut findings } = check(text);
  let Some(compiled) = compiled else {
    tell_findings(Told::of(file, text, findings))?;
    return Ok(ERRORS);
  };
  findings.retain(|finding| finding.code == Code::Reading);
  tell_findings(Told::of(file, text, findings))?;
  let lines = line_lengths(&form);
  let (compiled, text) = (&compiled, form.units.as_slice());
  print_shown(&Shown { compiled, lines: &lines, text })
}

fn line_lengths(form: &hollupsa::basic::Form) -> Vec<usize> {
  form.program.lines.iter().map(|line| line.len).collect()
}

fn list_sheet(
  file: &OsStr,
  sheet: &[u32],
  text: &[u16],
  print_shown: &dyn Fn(&Shown) -> io::Result<u8>,
) -> io::Result<u8> {
  match compile(sheet, text) {
    Ok(compiled) => {
      let lines = names::line_lengths(sheet);
      print_shown(&Shown { compiled: &compiled, lines: &lines, text })
    }
    Err(refusal) => {
      let (name, number) = (input::name(file), refusal.number());
      tell(&format!("{name}: refusal {number}: {refusal}"))?;
      Ok(ERRORS)
    }
  }
}

// --------------------------------------------------------- build and sheet

fn build(run: &Run) -> io::Result<u8> {
  let file = &run.files[0];
  let Some(out) = &run.out else {
    unreachable!("args asks for -o");
  };
  let text = match text_of(file) {
    Ok(text) => text,
    Err(why) => return unusable(file, &why),
  };
  let checked = check(&text);
  let has_errors = checked.has_errors();
  let Checked { form, compiled, findings } = checked;
  tell_findings(Told::of(file, &text, findings))?;
  let Some(compiled) = compiled.filter(|_| !has_errors) else {
    return Ok(ERRORS);
  };
  let lines = line_lengths(&form);
  let bytes = Built { compiled, lines, text: form.units }.write();
  if out == "-" {
    print_bytes(&bytes)?;
    return Ok(0);
  }
  match build::write(file, out, &bytes) {
    Ok(()) => Ok(0),
    Err(why) => unusable(out, &why),
  }
}

/// Tells why a file can't be read or written.
fn unusable(file: &OsStr, why: &str) -> io::Result<u8> {
  tell(&format!("{}: {why}", input::name(file)))?;
  Ok(UNUSABLE)
}

/// The input of document 01's program: what was read of a text, or the input
/// itself.
fn sheet(file: &OsStr) -> io::Result<u8> {
  match input::read(file) {
    Ok(Content::Text(text)) => {
      let checked = check(&text);
      let is_sheet = checked.compiled.is_some();
      let Checked { form, mut findings, .. } = checked;
      if is_sheet {
        findings.retain(|finding| finding.code == Code::Reading);
      }
      tell_findings(Told::of(file, &text, findings))?;
      if !is_sheet {
        return Ok(ERRORS);
      }
      print_bytes(&input::to_bytes(&form.program.encode(), &form.units))?;
      Ok(0)
    }
    Ok(Content::Sheet(sheet, text)) => {
      print_bytes(&input::to_bytes(&sheet, &text))?;
      Ok(0)
    }
    Ok(Content::Built(_)) => unusable(
      file,
      "a built form has no tree: name the text it was built from",
    ),
    Err(why) => unusable(file, &why),
  }
}
