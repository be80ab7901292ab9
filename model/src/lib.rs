//! A plain model of document 01 and of document 02's requests U1, U2, U3 and U5 to U12, written
//! from these documents alone; U4 changes no answer.
//!
//! It follows the definitions word by word and takes no short cuts: the tables by their sets, a byte
//! of the ring by its number modulo n, the occurrences by their meaning, the search by its steps with
//! every comparison written down, a mirrored byte by its bits, frames put back by converting again, a
//! price byte by byte over the frames, an explanation by all alignments and comparisons of the search,
//! two rules that claim one byte by all holds of both, what a role may do by the sentence about it.
//! It shares no code and no table with the library that it is compared with.
//!
//! The documents have trade words for the things of this field. Here they go by the field's names:
//!
//! | documents       | here                        |
//! |-----------------|-----------------------------|
//! | card            | byte                        |
//! | motif w         | pattern                     |
//! | chain t, a ring | text                        |
//! | hold place q    | hold offset                 |
//! | find            | occurrence                  |
//! | look            | comparison                  |
//! | holes           | ones                        |
//! | turned away     | refused                     |
//! | lent buffer     | the caller's buffer         |
//! | swatch          | worked example              |
//! | as drawn        | as it is                    |
//! | put back        | restored                    |
//! | job, of a role  | task                        |
//!
//! Frame, move, hold, job and SEEK keep their names, and so do the roles.
//!
//! # Commands
//!
//! In this folder. Those of the library and of SEEK need, at the repository's root and first,
//! `tools/build`.
//!
//! - `cargo test --release --lib --test worked_examples --test rule_examples --test role_examples
//!   --test consistency --test shifts`: the model's own tests.
//! - `cargo test --release`: also the tests of the library and of SEEK against the model.
//! - `cargo run --release --example bench`: their speed beside plain Rust versions.

pub mod answers;
pub mod calls;
pub mod convert;
pub mod explain;
pub mod gen;
pub mod job;
pub mod price;
pub mod restore;
pub mod ring;
pub mod role_calls;
pub mod roles;
pub mod rule_calls;
pub mod rules;
pub mod seek;
pub mod steps;
pub mod tables;
pub mod turn;

/// The most bytes that a pattern has.
pub const MAX_PATTERN: usize = 128;

/// The most bytes that a text has.
pub const MAX_TEXT: usize = 16_384;

/// The most rules that a table has.
pub const MAX_RULES: usize = 16;
