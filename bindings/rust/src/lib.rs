//! The plot-form compiler: a safe function over the proved static library.
//!
//! [`compile`] takes a sheet (the form's tree in words) and its text and
//! gives records, notes and book entries, or the reason why there are none.
//! [`tree::Program::encode`] makes a sheet of a tree and
//! [`tree::Program::decode`] a tree of a sheet; [`basic::read`] makes a tree of
//! a form's BASIC text and [`print::print`] BASIC text of a tree.
//! [`check::check`] tells all that is wrong with a text, and
//! [`built::Built`] is a compiled form as a file.
//!
//! Without the feature `library` nothing is linked, and only what needs no
//! compiling is there.

pub mod basic;
pub mod built;
#[cfg(feature = "library")]
pub mod check;
mod compiled;
mod decode;
pub mod display;
mod encode;
pub mod explain;
#[cfg(feature = "library")]
mod library;
#[cfg(feature = "library")]
mod linked;
pub mod names;
pub mod print;
pub mod spelling;
pub mod tree;
pub mod walk;
mod word;

pub use compiled::{Answer, Compiled, Entry, EntryKind, Note, Record, Refusal};
#[cfg(feature = "library")]
pub use library::{compile, compile_into};
