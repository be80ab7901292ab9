//! Pricing by the library, written in Rattle, against the model.

#[macro_use]
mod common;
mod library;

use library::Library;

price_suite!(Library);
