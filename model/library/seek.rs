//! The program SEEK, as `tools/build` builds it.

#[cfg(not(program = "seek"))]
compile_error!("target/bin/seek is missing. Run `tools/build` at the repository's root first.");

/// Where the program is.
pub const PROGRAM: &str = concat!(env!("CARGO_MANIFEST_DIR"), "/../target/bin/seek");
