//! Plain Rust versions of the library's calls, each with the same contract, written for speed: the
//! benchmark runs them beside the library, and the library's own tests are run on them too. Of the
//! model they use only the answers, the limits, the number of a hold and the layout of a table of rules.

pub mod converter;
pub mod explain;
pub mod job;
pub mod matcher;
pub mod price;
pub mod report;
pub mod restore;
pub mod roles;
pub mod rules;
pub mod tables;
pub mod turn;
