//! Restoring a text by the library, written in Rattle, against the model.

#[macro_use]
mod common;
mod library;

use library::Library;

restore_suite!(Library);
