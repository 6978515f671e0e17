//! Writes the `mod` lines for the unchanged Rust sources. `#[path]` wants a
//! literal, and the folder is only known when building: PLOTFORM_SRC, or
//! ../../shared/docs/src seen from this folder.

use std::env;
use std::fs;
use std::path::{Path, PathBuf};

fn main() {
  println!("cargo:rerun-if-env-changed=PLOTFORM_SRC");
  println!("cargo:rerun-if-changed=build.rs");

  let here = PathBuf::from(env::var("CARGO_MANIFEST_DIR").unwrap());
  let given = env::var("PLOTFORM_SRC").unwrap_or_default();
  let folder = if given.is_empty() {
    here.join("../../shared/docs/src")
  } else {
    here.join(given)
  };
  let src = folder.join("gvb_interp/src");
  let Ok(src) = src.canonicalize() else {
    panic!(
      "the Rust sources are not at {}: set PLOTFORM_SRC to the folder that holds gvb_interp",
      src.display()
    );
  };

  let out = PathBuf::from(env::var("OUT_DIR").unwrap());
  let quiet =
    "#[allow(dead_code, unused_imports, unused_variables, clippy::all)]\n";

  let root = module(&src, "compiler.rs", "compiler", quiet, "pub ");
  fs::write(out.join("root.rs"), root).unwrap();

  let mut ast = String::new();
  for name in ["stmt", "expr", "label"] {
    ast += &module(&src, &format!("ast/{name}.rs"), name, quiet, "pub ");
  }
  fs::write(out.join("ast.rs"), ast).unwrap();

  let vm = module(&src, "vm/codegen.rs", "codegen", quiet, "pub ");
  fs::write(out.join("vm.rs"), vm).unwrap();

  // The texts that the tables here and the project's are compared with.
  let mut texts = String::new();
  for (name, file) in [
    ("STMT_RS", "ast/stmt.rs"),
    ("EXPR_RS", "ast/expr.rs"),
    ("LABEL_RS", "ast/label.rs"),
    ("COMPILER_RS", "compiler.rs"),
  ] {
    let path = src.join(file);
    texts += &format!("pub const {name}: &str = include_str!({path:?});\n");
  }
  fs::write(out.join("texts.rs"), texts).unwrap();

  library(&here);
}

/// Links the proved compiler's static library if it is there: HOLLUPSA_LIB
/// names its folder, else it is the repository's crates/hollupsa/out.
fn library(here: &Path) {
  println!("cargo:rerun-if-env-changed=HOLLUPSA_LIB");
  println!("cargo:rustc-check-cfg=cfg(library)");
  let given = env::var("HOLLUPSA_LIB").unwrap_or_default();
  let folder = if given.is_empty() {
    here.join("../crates/hollupsa/out")
  } else {
    here.join(given)
  };
  let library = folder.join("libhollupsa.a");
  println!("cargo:rerun-if-changed={}", library.display());
  if library.exists() {
    println!("cargo:rustc-cfg=library");
    println!("cargo:rustc-link-search=native={}", folder.display());
    println!("cargo:rustc-link-lib=static=hollupsa");
  }
}

fn module(
  src: &Path,
  file: &str,
  name: &str,
  quiet: &str,
  vis: &str,
) -> String {
  let path = src.join(file);
  println!("cargo:rerun-if-changed={}", path.display());
  format!("{quiet}#[path = {path:?}]\n{vis}mod {name};\n")
}
