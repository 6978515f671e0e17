//! What the command line asks for.

use super::help;
use hollupsa::spelling::distance;
use std::ffi::{OsStr, OsString};
use std::path::Path;

#[derive(Clone, Copy, PartialEq, Eq)]
pub enum Command {
  Check,
  List,
  Names,
  Build,
  Sheet,
}

/// The commands by name.
pub const COMMANDS: [(&str, Command); 5] = [
  ("check", Command::Check),
  ("list", Command::List),
  ("names", Command::Names),
  ("build", Command::Build),
  ("sheet", Command::Sheet),
];

impl Command {
  pub fn name(self) -> &'static str {
    COMMANDS.iter().find(|(_, it)| *it == self).map_or("", |(name, _)| name)
  }

  /// The options beside --help and --version.
  fn options(self) -> &'static [&'static str] {
    match self {
      Self::Check => &["--json"],
      Self::Build => &["-o"],
      Self::List | Self::Names | Self::Sheet => &[],
    }
  }

  fn takes_one_form(self) -> bool {
    matches!(self, Self::Build | Self::Sheet)
  }
}

pub enum Request {
  Help(Option<Command>),
  Version,
  Run(Run),
}

pub struct Run {
  pub command: Command,
  /// One at least.
  pub files: Vec<OsString>,
  pub json: bool,
  /// Of build.
  pub out: Option<OsString>,
}

/// What is asked for, or what is wrong with the line.
pub fn parse(
  mut args: impl Iterator<Item = OsString>,
) -> Result<Request, String> {
  let Some(first) = args.next() else {
    return Err(format!("say what to do\n{}", help::usage()));
  };
  let word = first.to_string_lossy();
  match word.as_ref() {
    "-h" | "--help" => return Ok(Request::Help(None)),
    "-V" | "--version" => return Ok(Request::Version),
    "help" => return help_of(args.next()),
    _ => {}
  }
  let Some(&(_, command)) = COMMANDS.iter().find(|(name, _)| *name == word)
  else {
    return Err(unknown_command(&first));
  };
  parse_run(command, args)
}

fn help_of(word: Option<OsString>) -> Result<Request, String> {
  let Some(word) = word else {
    return Ok(Request::Help(None));
  };
  match COMMANDS.iter().find(|(name, _)| word == *name) {
    Some(&(_, command)) => Ok(Request::Help(Some(command))),
    None => Err(unknown_command(&word)),
  }
}

fn unknown_command(word: &OsStr) -> String {
  let shown = word.to_string_lossy();
  if shown.starts_with('-') {
    let known = ["--help", "--version"];
    let hint = did_you_mean(&shown, &known);
    return format!("there is no option {shown}{hint}\n{}", help::usage());
  }
  if Path::new(word).exists() {
    return format!("say what to do with {shown}: plotform check {shown}");
  }
  let names = COMMANDS.map(|(name, _)| name);
  let hint = did_you_mean(&shown, &names);
  format!("there is no command {shown}{hint}\n{}", help::usage())
}

fn parse_run(
  command: Command,
  mut args: impl Iterator<Item = OsString>,
) -> Result<Request, String> {
  let mut run = Run { command, files: vec![], json: false, out: None };
  let mut options_end = false;
  while let Some(arg) = args.next() {
    let word = arg.to_string_lossy().into_owned();
    if options_end || word == "-" || !word.starts_with('-') {
      run.files.push(arg);
      continue;
    }
    match word.as_str() {
      "--" => options_end = true,
      "-h" | "--help" => return Ok(Request::Help(Some(command))),
      "-V" | "--version" => return Ok(Request::Version),
      "--json" if command == Command::Check => run.json = true,
      "-o" if command == Command::Build => {
        let Some(out) = args.next() else {
          return Err("name a file behind -o".to_string());
        };
        if out.is_empty() {
          return Err("name a file behind -o".to_string());
        }
        if run.out.replace(out).is_some() {
          return Err("say -o once".to_string());
        }
      }
      _ => return Err(unknown_option(command, &word)),
    }
  }
  is_complete(&run)?;
  Ok(Request::Run(run))
}

fn unknown_option(command: Command, word: &str) -> String {
  let name = command.name();
  let all = || COMMANDS.iter().flat_map(|(_, command)| command.options());
  if all().any(|option| *option == word) {
    return format!("{name} takes no {word}: see plotform {name} --help");
  }
  let mut known = vec!["--help", "--version"];
  known.extend(command.options());
  let hint = did_you_mean(word, &known);
  format!("there is no option {word}{hint}\nA file of that name: ./{word}")
}

fn is_complete(run: &Run) -> Result<(), String> {
  let name = run.command.name();
  let line = help::line(run.command);
  if run.files.is_empty() {
    return Err(format!("name a form: {line}"));
  }
  if run.command.takes_one_form() && run.files.len() > 1 {
    return Err(format!("{name} takes one form: {line}"));
  }
  if run.command == Command::Build && run.out.is_none() {
    return Err(format!("say with -o where the built form goes: {line}"));
  }
  if run.files.iter().filter(|file| *file == "-").count() > 1 {
    return Err("standard input (-) can be read once".to_string());
  }
  Ok(())
}

fn did_you_mean(word: &str, known: &[&str]) -> String {
  match known.iter().find(|known| is_near(word, known)) {
    Some(known) => format!(": did you mean {known}?"),
    None => String::new(),
  }
}

/// Whether a word is the begin of the other, or one letter is wrong, left out,
/// added or swapped with its neighbour.
fn is_near(word: &str, known: &str) -> bool {
  let word = word.to_ascii_lowercase();
  let letters = word.trim_start_matches('-').len();
  letters > 1 && known.starts_with(&word) || distance(&word, known) <= 1
}
