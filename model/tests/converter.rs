//! Converting and counting by the library, written in Rattle, against the model.

#[macro_use]
mod common;
mod library;

use library::Library;

converter_suite!(Library);
