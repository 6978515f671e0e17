//! Links libhollupsa.a: HOLLUPSA_LIB names its folder, else it is the
//! repository's crates/hollupsa/out, and has to be what its sources make.

use std::env;
use std::path::{Path, PathBuf};
use std::process::{self, Command};

fn main() {
  println!("cargo:rerun-if-env-changed=HOLLUPSA_LIB");
  if env::var_os("CARGO_FEATURE_LIBRARY").is_none() {
    return;
  }
  let root =
    PathBuf::from(env::var("CARGO_MANIFEST_DIR").unwrap()).join("../..");
  let folder = match env::var("HOLLUPSA_LIB") {
    Ok(given) if !given.is_empty() => PathBuf::from(given),
    _ => {
      stop_if_old(&root);
      root.join("crates/hollupsa/out")
    }
  };
  let library = folder.join("libhollupsa.a");
  if !library.exists() {
    stop(&format!("{} is missing", library.display()));
  }
  println!("cargo:rerun-if-changed={}", library.display());
  println!("cargo:rustc-link-search=native={}", folder.display());
  println!("cargo:rustc-link-lib=static=hollupsa");
}

/// The repository's library is asked of tools/prove, which knows what it was
/// made of.
fn stop_if_old(root: &Path) {
  for file in ["crates.txt", "crates", "tools/prove", "target/proved"] {
    println!("cargo:rerun-if-changed={}", root.join(file).display());
  }
  let mut prove = Command::new(root.join("tools/prove"));
  let asked = prove.args(["--is-current", "hollupsa"]).output();
  match asked {
    Ok(answer) if answer.status.success() => {}
    Ok(answer) => stop(String::from_utf8_lossy(&answer.stderr).trim()),
    Err(error) => stop(&format!("tools/prove: {error}")),
  }
}

fn stop(why: &str) {
  eprintln!(
    "{why}: run tools/library, or set HOLLUPSA_LIB to a library's folder"
  );
  process::exit(1);
}
