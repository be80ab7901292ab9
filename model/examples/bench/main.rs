//! The speed of the Rattle library and of SEEK, beside plain Rust versions with the same contracts
//! and beside other ways to the same end; and the number of comparisons beside document 002's.
//!
//!     tools/build                                (at the repository's root)
//!     cargo run --release --example bench        (in this folder; all of it)
//!     cargo run --release --example bench -- search program    (only these parts)
//!
//! All that is set side by side is timed in the same run, turn by turn, so that a machine that is
//! slow for a while is slow for all. Medians are printed, and their ratios; of two calls that
//! hardly differ, the difference. Times are those of the thread's processor; for programs, of the
//! clock. Buffers are the caller's, used again from call to call and not cleared between. Before
//! anything is timed, it is seen to give the same result as what it is compared with.

#[path = "../../library/ruffarmoire.rs"]
mod library;
#[path = "../../library/seek.rs"]
mod seek_program;

mod baseline;
mod calls;
mod comparisons;
mod explain;
mod prepare;
mod price;
mod program;
mod restore;
mod roles;
mod rules;
mod search;
mod table_buffers;
mod timing;
mod turn;

/// The parts, in the order in which they run.
const PARTS: [(&str, fn()); 11] = [
    ("calls", calls::run),
    ("turn", turn::run),
    ("restore", restore::run),
    ("price", price::run),
    ("prepare", prepare::run),
    ("search", search::run),
    ("explain", explain::run),
    ("rules", rules::run),
    ("roles", roles::run),
    ("program", program::run),
    ("comparisons", comparisons::run),
];

fn main() {
    let asked: Vec<String> = std::env::args().skip(1).collect();
    if asked == [program::AS_SEEK] {
        program::be_seek();
        return;
    }
    for name in &asked {
        let known = PARTS.iter().any(|(part, _)| part == name);
        assert!(
            known,
            "{name} is none of the parts {:?}",
            PARTS.map(|(part, _)| part)
        );
    }
    for (name, run) in PARTS {
        if asked.is_empty() || asked.iter().any(|part| part == name) {
            run();
            println!();
        }
    }
}
