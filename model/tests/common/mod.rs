//! What the test programs share: what is asked of an implementation of each call, with the cases
//! and the buffers for it.

// A test program uses only what it tests.
#![allow(dead_code, unused_macros)]

#[macro_use]
pub mod harness;

pub mod bounds;
pub mod examples;
pub mod explanations;
pub mod facts;
pub mod files;
pub mod lengths;
pub mod repeats;
pub mod rings;
pub mod rule_tables;
pub mod searches;
pub mod table_buffers;
pub mod words;

#[macro_use]
pub mod searching;

#[macro_use]
pub mod converter_suite;
#[macro_use]
pub mod edit_rule_suite;
#[macro_use]
pub mod explain_rule_suite;
#[macro_use]
pub mod explain_suite;
#[macro_use]
pub mod job_suite;
#[macro_use]
pub mod matcher_suite;
#[macro_use]
pub mod prepare_suite;
#[macro_use]
pub mod price_suite;
#[macro_use]
pub mod report_suite;
#[macro_use]
pub mod restore_rules_suite;
#[macro_use]
pub mod restore_suite;
#[macro_use]
pub mod roles_suite;
#[macro_use]
pub mod rules_suite;
#[macro_use]
pub mod turn_suite;
