//! Writes a built form: whole or not at all.

use super::input::{self, name};
use std::ffi::{OsStr, OsString};
use std::fs::{self, File, Metadata, OpenOptions};
use std::io::{self, ErrorKind, Write};
use std::path::{Path, PathBuf};
use std::process;

/// Writes the bytes beside OUT, then renames; says what is wrong if it can't.
pub fn write(form: &OsStr, out: &OsStr, bytes: &[u8]) -> Result<(), String> {
  let path = behind_links(PathBuf::from(out));
  let there = fs::metadata(&path).ok();
  if there.as_ref().is_some_and(Metadata::is_dir) {
    return Err("a directory: name a file behind -o".to_string());
  }
  if there.as_ref().is_some_and(|out| input::is_same_file(form, out)) {
    return Err("the form itself: name another file behind -o".to_string());
  }
  let done = match there {
    // A device or a pipe is written to, not replaced.
    Some(it) if !it.is_file() => write_into(&path, bytes),
    Some(it) => replace_old(&path, it, bytes),
    None => replace(&path, None, bytes),
  };
  done.map_err(|error| unwritable(&path, &error))
}

/// The file that is meant: behind a link it is the file that the link names,
/// also one that is not there yet.
fn behind_links(mut path: PathBuf) -> PathBuf {
  const MOST: usize = 40;
  for _ in 0..MOST {
    let Ok(target) = fs::read_link(&path) else {
      return path;
    };
    let folder = path.parent().unwrap_or(Path::new(""));
    path = folder.join(target);
  }
  path
}

fn write_into(path: &Path, bytes: &[u8]) -> io::Result<()> {
  OpenOptions::new().write(true).open(path)?.write_all(bytes)
}

/// Replaces a file that may be written; where its folder takes no new file it
/// is written in its place.
fn replace_old(path: &Path, there: Metadata, bytes: &[u8]) -> io::Result<()> {
  // Told before anything is changed.
  let old = OpenOptions::new().write(true).open(path)?;
  let done = replace(path, Some(there.permissions()), bytes);
  let is_kept = |error: &io::Error| {
    matches!(
      error.kind(),
      ErrorKind::PermissionDenied | ErrorKind::ResourceBusy
    )
  };
  if !done.as_ref().is_err_and(is_kept) {
    return done;
  }
  old.set_len(0)?;
  (&old).write_all(bytes)
}

fn replace(
  path: &Path,
  permissions: Option<fs::Permissions>,
  bytes: &[u8],
) -> io::Result<()> {
  let (beside, file) = new_beside(path)?;
  let done =
    fill(file, permissions, bytes).and_then(|()| fs::rename(&beside, path));
  if done.is_err() {
    // What was written in part goes; the first error is the one to be told.
    let _ = fs::remove_file(&beside);
  }
  done
}

fn fill(
  mut file: File,
  permissions: Option<fs::Permissions>,
  bytes: &[u8],
) -> io::Result<()> {
  if let Some(permissions) = permissions {
    file.set_permissions(permissions)?;
  }
  file.write_all(bytes)?;
  file.sync_all()
}

/// A new file in the same directory, and its name.
fn new_beside(path: &Path) -> io::Result<(PathBuf, File)> {
  const MOST: u32 = 100;
  let mut number = 0;
  loop {
    let name = format!(".plotform.{}.{number}", process::id());
    let beside = path.with_file_name(OsString::from(name));
    match File::create_new(&beside) {
      Ok(file) => return Ok((beside, file)),
      Err(error)
        if error.kind() == ErrorKind::AlreadyExists && number < MOST =>
      {
        number += 1;
      }
      Err(error) => return Err(error),
    }
  }
}

fn unwritable(path: &Path, error: &io::Error) -> String {
  let folder = path.parent().filter(|folder| !folder.as_os_str().is_empty());
  match (error.kind(), folder) {
    (ErrorKind::NotFound, Some(folder)) => {
      format!("no such directory as {}", name(folder.as_os_str()))
    }
    (ErrorKind::PermissionDenied, _) => {
      "no right to write there: name another file behind -o".to_string()
    }
    _ => format!("it can't be written: {error}"),
  }
}
