//! The twenty-two calls of the Rattle library, as `tools/build` builds it. The calls
//! take any arguments, so the safe functions here only turn slices into pointers and lengths;
//! `explained`, `explained_by_rule` and `explained_as` also read the answers of `explain`,
//! `explain_rule` and `explain_as`. `Rules` is a table of rules, for the calls that take one.
//!
//! Five calls ask who calls: `convert_as`, `restore_as`, `explain_as`, `price_as` and `edit_as`
//! take the number of a role first, as `Role::Mender.number()`. A call that the role may not make
//! is refused by 13 and changes nothing; any other is the call without roles.
//!
//! **What a host must do.** The library decides what a role may do, not who has it: it believes the
//! number. A host has to make sure who says which role he has. And it keeps the calls without
//! roles, `edit_rule` above all, and the bytes of the table to itself.

// A test program calls only what it tests.
#![allow(dead_code)]

#[cfg(not(archive = "ruffarmoire"))]
compile_error!(
    "target/staticlib/libruffarmoire.a is missing. Run `tools/build` at the repository's root first."
);

use std::ops::Deref;

use ruffarmoire_model::answers::{
    Answer, ExplainAnswer, PriceAnswer, ReadAnswer, Refusal, ReportAnswer, RulesAnswer, TurnAnswer,
    WriteAnswer,
};
use ruffarmoire_model::explain::{Explained, Unexplained};
pub use ruffarmoire_model::roles::Role;
use ruffarmoire_model::rules::{slot, TableBytes, TABLE};
use ruffarmoire_model::MAX_RULES;

/// The stack, in bytes, that a thread needs to call `seek_report`. For every other call 8 KiB are
/// enough.
pub const REPORT_STACK: usize = 192 * 1024;

mod foreign {
    use super::{
        Answer, ExplainAnswer, PriceAnswer, ReadAnswer, ReportAnswer, RulesAnswer, TableBytes,
        TurnAnswer, WriteAnswer,
    };

    #[link(name = "ruffarmoire", kind = "static")]
    extern "C" {
        pub fn read_job(
            file: *const u8,
            file_length: usize,
            pattern: *mut u8,
            pattern_length: usize,
            text: *mut u8,
            text_length: usize,
        ) -> ReadAnswer;

        pub fn write_job(
            hold_offset: u32,
            pattern: *const u8,
            pattern_length: usize,
            text: *const u8,
            text_length: usize,
            file: *mut u8,
            file_length: usize,
        ) -> WriteAnswer;

        pub fn prepare(
            pattern: *const u8,
            pattern_length: usize,
            order: *mut i16,
            order_length: usize,
            delta2: *mut u16,
            delta2_length: usize,
            delta1: *mut u16,
            delta1_length: usize,
            delta3: *mut u16,
            delta3_length: usize,
        ) -> Answer;

        pub fn search(
            pattern: *const u8,
            pattern_length: usize,
            text: *const u8,
            text_length: usize,
            order: *mut i16,
            order_length: usize,
            delta2: *mut u16,
            delta2_length: usize,
            delta1: *mut u16,
            delta1_length: usize,
            delta3: *mut u16,
            delta3_length: usize,
            found: *mut u16,
            found_length: usize,
        ) -> Answer;

        pub fn convert(
            hold_offset: u32,
            pattern: *const u8,
            pattern_length: usize,
            text: *const u8,
            text_length: usize,
            order: *mut i16,
            order_length: usize,
            delta2: *mut u16,
            delta2_length: usize,
            delta1: *mut u16,
            delta1_length: usize,
            delta3: *mut u16,
            delta3_length: usize,
            found: *mut u16,
            found_length: usize,
            frames: *mut u16,
            frames_length: usize,
        ) -> Answer;

        pub fn count_ones(text: *const u8, text_length: usize) -> Answer;

        pub fn seek_report(
            file: *const u8,
            file_length: usize,
            out: *mut u8,
            out_length: usize,
        ) -> ReportAnswer;

        pub fn turn(
            way: u32,
            hold_offset: u32,
            pattern: *const u8,
            pattern_length: usize,
            text: *const u8,
            text_length: usize,
            turned_pattern: *mut u8,
            turned_pattern_length: usize,
            turned_text: *mut u8,
            turned_text_length: usize,
        ) -> TurnAnswer;

        pub fn restore(
            hold_offset: u32,
            pattern: *const u8,
            pattern_length: usize,
            frames: *const u16,
            frames_length: usize,
            text: *mut u8,
            text_length: usize,
        ) -> Answer;

        pub fn price(
            hold_offset: u32,
            pattern: *const u8,
            pattern_length: usize,
            text: *const u8,
            text_length: usize,
            order: *mut i16,
            order_length: usize,
            delta2: *mut u16,
            delta2_length: usize,
            delta1: *mut u16,
            delta1_length: usize,
            delta3: *mut u16,
            delta3_length: usize,
            found: *mut u16,
            found_length: usize,
        ) -> PriceAnswer;

        pub fn explain(
            position: u32,
            pattern: *const u8,
            pattern_length: usize,
            text: *const u8,
            text_length: usize,
            order: *mut i16,
            order_length: usize,
            delta2: *mut u16,
            delta2_length: usize,
            delta1: *mut u16,
            delta1_length: usize,
            delta3: *mut u16,
            delta3_length: usize,
        ) -> ExplainAnswer;

        pub fn search_rules(
            rules: *const TableBytes,
            text: *const u8,
            text_length: usize,
            order: *mut i16,
            order_length: usize,
            delta2: *mut u16,
            delta2_length: usize,
            delta1: *mut u16,
            delta1_length: usize,
            delta3: *mut u16,
            delta3_length: usize,
            found: *mut u16,
            found_length: usize,
        ) -> RulesAnswer;

        pub fn convert_rules(
            rules: *const TableBytes,
            text: *const u8,
            text_length: usize,
            order: *mut i16,
            order_length: usize,
            delta2: *mut u16,
            delta2_length: usize,
            delta1: *mut u16,
            delta1_length: usize,
            delta3: *mut u16,
            delta3_length: usize,
            found: *mut u16,
            found_length: usize,
            frames: *mut u16,
            frames_length: usize,
        ) -> RulesAnswer;

        pub fn price_rules(
            rules: *const TableBytes,
            text: *const u8,
            text_length: usize,
            order: *mut i16,
            order_length: usize,
            delta2: *mut u16,
            delta2_length: usize,
            delta1: *mut u16,
            delta1_length: usize,
            delta3: *mut u16,
            delta3_length: usize,
            found: *mut u16,
            found_length: usize,
        ) -> PriceAnswer;

        pub fn restore_rules(
            rules: *const TableBytes,
            frames: *const u16,
            frames_length: usize,
            text: *mut u8,
            text_length: usize,
        ) -> Answer;

        pub fn explain_rule(
            number: u32,
            position: u32,
            rules: *const TableBytes,
            text: *const u8,
            text_length: usize,
            order: *mut i16,
            order_length: usize,
            delta2: *mut u16,
            delta2_length: usize,
            delta1: *mut u16,
            delta1_length: usize,
            delta3: *mut u16,
            delta3_length: usize,
        ) -> ExplainAnswer;

        pub fn edit_rule(
            number: u32,
            hold_offset: u32,
            pattern: *const u8,
            pattern_length: usize,
            rules: *mut TableBytes,
        ) -> Answer;

        pub fn convert_as(
            role: u32,
            rules: *const TableBytes,
            text: *const u8,
            text_length: usize,
            order: *mut i16,
            order_length: usize,
            delta2: *mut u16,
            delta2_length: usize,
            delta1: *mut u16,
            delta1_length: usize,
            delta3: *mut u16,
            delta3_length: usize,
            found: *mut u16,
            found_length: usize,
            frames: *mut u16,
            frames_length: usize,
        ) -> RulesAnswer;

        pub fn restore_as(
            role: u32,
            rules: *const TableBytes,
            frames: *const u16,
            frames_length: usize,
            text: *mut u8,
            text_length: usize,
        ) -> Answer;

        pub fn explain_as(
            role: u32,
            number: u32,
            position: u32,
            rules: *const TableBytes,
            text: *const u8,
            text_length: usize,
            order: *mut i16,
            order_length: usize,
            delta2: *mut u16,
            delta2_length: usize,
            delta1: *mut u16,
            delta1_length: usize,
            delta3: *mut u16,
            delta3_length: usize,
        ) -> ExplainAnswer;

        pub fn price_as(
            role: u32,
            rules: *const TableBytes,
            text: *const u8,
            text_length: usize,
            order: *mut i16,
            order_length: usize,
            delta2: *mut u16,
            delta2_length: usize,
            delta1: *mut u16,
            delta1_length: usize,
            delta3: *mut u16,
            delta3_length: usize,
            found: *mut u16,
            found_length: usize,
        ) -> PriceAnswer;

        pub fn edit_as(
            role: u32,
            number: u32,
            hold_offset: u32,
            pattern: *const u8,
            pattern_length: usize,
            rules: *mut TableBytes,
        ) -> Answer;
    }
}

pub fn read_job(file: &[u8], pattern: &mut [u8], text: &mut [u8]) -> ReadAnswer {
    // SAFETY: each pointer and length is that of a slice that stays borrowed during the call.
    unsafe {
        foreign::read_job(
            file.as_ptr(),
            file.len(),
            pattern.as_mut_ptr(),
            pattern.len(),
            text.as_mut_ptr(),
            text.len(),
        )
    }
}

pub fn write_job(hold_offset: u32, pattern: &[u8], text: &[u8], file: &mut [u8]) -> WriteAnswer {
    // SAFETY: each pointer and length is that of a slice that stays borrowed during the call.
    unsafe {
        foreign::write_job(
            hold_offset,
            pattern.as_ptr(),
            pattern.len(),
            text.as_ptr(),
            text.len(),
            file.as_mut_ptr(),
            file.len(),
        )
    }
}

pub fn prepare(
    pattern: &[u8],
    order: &mut [i16],
    delta2: &mut [u16],
    delta1: &mut [u16],
    delta3: &mut [u16],
) -> Answer {
    // SAFETY: each pointer and length is that of a slice that stays borrowed during the call.
    unsafe {
        foreign::prepare(
            pattern.as_ptr(),
            pattern.len(),
            order.as_mut_ptr(),
            order.len(),
            delta2.as_mut_ptr(),
            delta2.len(),
            delta1.as_mut_ptr(),
            delta1.len(),
            delta3.as_mut_ptr(),
            delta3.len(),
        )
    }
}

pub fn search(
    pattern: &[u8],
    text: &[u8],
    order: &mut [i16],
    delta2: &mut [u16],
    delta1: &mut [u16],
    delta3: &mut [u16],
    found: &mut [u16],
) -> Answer {
    // SAFETY: each pointer and length is that of a slice that stays borrowed during the call.
    unsafe {
        foreign::search(
            pattern.as_ptr(),
            pattern.len(),
            text.as_ptr(),
            text.len(),
            order.as_mut_ptr(),
            order.len(),
            delta2.as_mut_ptr(),
            delta2.len(),
            delta1.as_mut_ptr(),
            delta1.len(),
            delta3.as_mut_ptr(),
            delta3.len(),
            found.as_mut_ptr(),
            found.len(),
        )
    }
}

#[allow(clippy::too_many_arguments)]
pub fn convert(
    hold_offset: u32,
    pattern: &[u8],
    text: &[u8],
    order: &mut [i16],
    delta2: &mut [u16],
    delta1: &mut [u16],
    delta3: &mut [u16],
    found: &mut [u16],
    frames: &mut [u16],
) -> Answer {
    // SAFETY: each pointer and length is that of a slice that stays borrowed during the call.
    unsafe {
        foreign::convert(
            hold_offset,
            pattern.as_ptr(),
            pattern.len(),
            text.as_ptr(),
            text.len(),
            order.as_mut_ptr(),
            order.len(),
            delta2.as_mut_ptr(),
            delta2.len(),
            delta1.as_mut_ptr(),
            delta1.len(),
            delta3.as_mut_ptr(),
            delta3.len(),
            found.as_mut_ptr(),
            found.len(),
            frames.as_mut_ptr(),
            frames.len(),
        )
    }
}

pub fn count_ones(text: &[u8]) -> Answer {
    // SAFETY: the pointer and length are those of a slice that stays borrowed during the call.
    unsafe { foreign::count_ones(text.as_ptr(), text.len()) }
}

/// Keeps the job, its tables and its buffers on the stack: the thread needs `REPORT_STACK` bytes.
pub fn seek_report(file: &[u8], out: &mut [u8]) -> ReportAnswer {
    // SAFETY: each pointer and length is that of a slice that stays borrowed during the call.
    unsafe { foreign::seek_report(file.as_ptr(), file.len(), out.as_mut_ptr(), out.len()) }
}

pub fn turn(
    way: u32,
    hold_offset: u32,
    pattern: &[u8],
    text: &[u8],
    turned_pattern: &mut [u8],
    turned_text: &mut [u8],
) -> TurnAnswer {
    // SAFETY: each pointer and length is that of a slice that stays borrowed during the call.
    unsafe {
        foreign::turn(
            way,
            hold_offset,
            pattern.as_ptr(),
            pattern.len(),
            text.as_ptr(),
            text.len(),
            turned_pattern.as_mut_ptr(),
            turned_pattern.len(),
            turned_text.as_mut_ptr(),
            turned_text.len(),
        )
    }
}

pub fn restore(hold_offset: u32, pattern: &[u8], frames: &[u16], text: &mut [u8]) -> Answer {
    // SAFETY: each pointer and length is that of a slice that stays borrowed during the call.
    unsafe {
        foreign::restore(
            hold_offset,
            pattern.as_ptr(),
            pattern.len(),
            frames.as_ptr(),
            frames.len(),
            text.as_mut_ptr(),
            text.len(),
        )
    }
}

#[allow(clippy::too_many_arguments)]
pub fn price(
    hold_offset: u32,
    pattern: &[u8],
    text: &[u8],
    order: &mut [i16],
    delta2: &mut [u16],
    delta1: &mut [u16],
    delta3: &mut [u16],
    found: &mut [u16],
) -> PriceAnswer {
    // SAFETY: each pointer and length is that of a slice that stays borrowed during the call.
    unsafe {
        foreign::price(
            hold_offset,
            pattern.as_ptr(),
            pattern.len(),
            text.as_ptr(),
            text.len(),
            order.as_mut_ptr(),
            order.len(),
            delta2.as_mut_ptr(),
            delta2.len(),
            delta1.as_mut_ptr(),
            delta1.len(),
            delta3.as_mut_ptr(),
            delta3.len(),
            found.as_mut_ptr(),
            found.len(),
        )
    }
}

/// Explains a position of the text, which may be any below n, in numbers. The buffers are for the
/// tables of the pattern, as in `prepare`: for m bytes at least m + 1 entries each of `order` and
/// `delta2`, 256 m of `delta1` and m of `delta3`.
pub fn explain(
    position: u32,
    pattern: &[u8],
    text: &[u8],
    order: &mut [i16],
    delta2: &mut [u16],
    delta1: &mut [u16],
    delta3: &mut [u16],
) -> ExplainAnswer {
    // SAFETY: each pointer and length is that of a slice that stays borrowed during the call.
    unsafe {
        foreign::explain(
            position,
            pattern.as_ptr(),
            pattern.len(),
            text.as_ptr(),
            text.len(),
            order.as_mut_ptr(),
            order.len(),
            delta2.as_mut_ptr(),
            delta2.len(),
            delta1.as_mut_ptr(),
            delta1.len(),
            delta3.as_mut_ptr(),
            delta3.len(),
        )
    }
}

/// Explains a position of the text as `explain` does, with the same buffers. The explanation comes
/// as an enum beside its position and the length of the text, or else the refusal. `to_string` of
/// either is for a minder to read; a position over the seam stands there with the number of its card.
pub fn explained(
    position: u32,
    pattern: &[u8],
    text: &[u8],
    order: &mut [i16],
    delta2: &mut [u16],
    delta1: &mut [u16],
    delta3: &mut [u16],
) -> Result<Explained, Unexplained> {
    let answer = explain(position, pattern, text, order, delta2, delta1, delta3);
    Explained::told(position, text.len(), answer)
}

/// Searches with a table of rules. For b bytes of all its patterns in sum and k rules the buffers need
/// b + k entries each of `order` and `delta2`, 256 b of `delta1`, b of `delta3` and n of `found`, as in
/// the other calls that search with a table; what they hold afterwards stands rule after rule.
pub fn search_rules(
    rules: &TableBytes,
    text: &[u8],
    order: &mut [i16],
    delta2: &mut [u16],
    delta1: &mut [u16],
    delta3: &mut [u16],
    found: &mut [u16],
) -> RulesAnswer {
    // SAFETY: each pointer and length is that of a slice that stays borrowed during the call, and the
    // table is borrowed too.
    unsafe {
        foreign::search_rules(
            rules,
            text.as_ptr(),
            text.len(),
            order.as_mut_ptr(),
            order.len(),
            delta2.as_mut_ptr(),
            delta2.len(),
            delta1.as_mut_ptr(),
            delta1.len(),
            delta3.as_mut_ptr(),
            delta3.len(),
            found.as_mut_ptr(),
            found.len(),
        )
    }
}

#[allow(clippy::too_many_arguments)]
pub fn convert_rules(
    rules: &TableBytes,
    text: &[u8],
    order: &mut [i16],
    delta2: &mut [u16],
    delta1: &mut [u16],
    delta3: &mut [u16],
    found: &mut [u16],
    frames: &mut [u16],
) -> RulesAnswer {
    // SAFETY: each pointer and length is that of a slice that stays borrowed during the call, and the
    // table is borrowed too.
    unsafe {
        foreign::convert_rules(
            rules,
            text.as_ptr(),
            text.len(),
            order.as_mut_ptr(),
            order.len(),
            delta2.as_mut_ptr(),
            delta2.len(),
            delta1.as_mut_ptr(),
            delta1.len(),
            delta3.as_mut_ptr(),
            delta3.len(),
            found.as_mut_ptr(),
            found.len(),
            frames.as_mut_ptr(),
            frames.len(),
        )
    }
}

pub fn price_rules(
    rules: &TableBytes,
    text: &[u8],
    order: &mut [i16],
    delta2: &mut [u16],
    delta1: &mut [u16],
    delta3: &mut [u16],
    found: &mut [u16],
) -> PriceAnswer {
    // SAFETY: each pointer and length is that of a slice that stays borrowed during the call, and the
    // table is borrowed too.
    unsafe {
        foreign::price_rules(
            rules,
            text.as_ptr(),
            text.len(),
            order.as_mut_ptr(),
            order.len(),
            delta2.as_mut_ptr(),
            delta2.len(),
            delta1.as_mut_ptr(),
            delta1.len(),
            delta3.as_mut_ptr(),
            delta3.len(),
            found.as_mut_ptr(),
            found.len(),
        )
    }
}

pub fn restore_rules(rules: &TableBytes, frames: &[u16], text: &mut [u8]) -> Answer {
    // SAFETY: each pointer and length is that of a slice that stays borrowed during the call, and the
    // table is borrowed too.
    unsafe {
        foreign::restore_rules(
            rules,
            frames.as_ptr(),
            frames.len(),
            text.as_mut_ptr(),
            text.len(),
        )
    }
}

/// Explains a position of the text for the rule with this number, from 1, as `explain` does for its
/// pattern and with the buffers that this needs.
#[allow(clippy::too_many_arguments)]
pub fn explain_rule(
    number: u32,
    position: u32,
    rules: &TableBytes,
    text: &[u8],
    order: &mut [i16],
    delta2: &mut [u16],
    delta1: &mut [u16],
    delta3: &mut [u16],
) -> ExplainAnswer {
    // SAFETY: each pointer and length is that of a slice that stays borrowed during the call, and the
    // table is borrowed too.
    unsafe {
        foreign::explain_rule(
            number,
            position,
            rules,
            text.as_ptr(),
            text.len(),
            order.as_mut_ptr(),
            order.len(),
            delta2.as_mut_ptr(),
            delta2.len(),
            delta1.as_mut_ptr(),
            delta1.len(),
            delta3.as_mut_ptr(),
            delta3.len(),
        )
    }
}

/// Explains a position of the text as `explain_rule` does, told as `explained` tells it.
#[allow(clippy::too_many_arguments)]
pub fn explained_by_rule(
    number: u32,
    position: u32,
    rules: &TableBytes,
    text: &[u8],
    order: &mut [i16],
    delta2: &mut [u16],
    delta1: &mut [u16],
    delta3: &mut [u16],
) -> Result<Explained, Unexplained> {
    let answer = explain_rule(number, position, rules, text, order, delta2, delta1, delta3);
    Explained::told(position, text.len(), answer)
}

/// Puts a new pattern and hold offset in the rule with this number, from 1. `Rules::edit` does the same.
pub fn edit_rule(number: u32, hold_offset: u32, pattern: &[u8], rules: &mut TableBytes) -> Answer {
    // SAFETY: each pointer and length is that of a slice that stays borrowed during the call, and the
    // table is borrowed too.
    unsafe { foreign::edit_rule(number, hold_offset, pattern.as_ptr(), pattern.len(), rules) }
}

/// Converts by a table as `convert_rules` does, for a role by its number; or is refused by 13.
#[allow(clippy::too_many_arguments)]
pub fn convert_as(
    role: u32,
    rules: &TableBytes,
    text: &[u8],
    order: &mut [i16],
    delta2: &mut [u16],
    delta1: &mut [u16],
    delta3: &mut [u16],
    found: &mut [u16],
    frames: &mut [u16],
) -> RulesAnswer {
    // SAFETY: each pointer and length is that of a slice that stays borrowed during the call, and
    // the table is borrowed too.
    unsafe {
        foreign::convert_as(
            role,
            rules,
            text.as_ptr(),
            text.len(),
            order.as_mut_ptr(),
            order.len(),
            delta2.as_mut_ptr(),
            delta2.len(),
            delta1.as_mut_ptr(),
            delta1.len(),
            delta3.as_mut_ptr(),
            delta3.len(),
            found.as_mut_ptr(),
            found.len(),
            frames.as_mut_ptr(),
            frames.len(),
        )
    }
}

/// Restores by a table as `restore_rules` does, for a role by its number; or is refused by 13.
pub fn restore_as(role: u32, rules: &TableBytes, frames: &[u16], text: &mut [u8]) -> Answer {
    // SAFETY: each pointer and length is that of a slice that stays borrowed during the call, and
    // the table is borrowed too.
    unsafe {
        foreign::restore_as(
            role,
            rules,
            frames.as_ptr(),
            frames.len(),
            text.as_mut_ptr(),
            text.len(),
        )
    }
}

/// Explains a position as `explain_rule` does, for a role by its number; or is refused by 13.
#[allow(clippy::too_many_arguments)]
pub fn explain_as(
    role: u32,
    number: u32,
    position: u32,
    rules: &TableBytes,
    text: &[u8],
    order: &mut [i16],
    delta2: &mut [u16],
    delta1: &mut [u16],
    delta3: &mut [u16],
) -> ExplainAnswer {
    // SAFETY: each pointer and length is that of a slice that stays borrowed during the call, and
    // the table is borrowed too.
    unsafe {
        foreign::explain_as(
            role,
            number,
            position,
            rules,
            text.as_ptr(),
            text.len(),
            order.as_mut_ptr(),
            order.len(),
            delta2.as_mut_ptr(),
            delta2.len(),
            delta1.as_mut_ptr(),
            delta1.len(),
            delta3.as_mut_ptr(),
            delta3.len(),
        )
    }
}

/// Explains a position as `explain_as` does, told as `explained` tells it.
#[allow(clippy::too_many_arguments)]
pub fn explained_as(
    role: Role,
    number: u32,
    position: u32,
    rules: &TableBytes,
    text: &[u8],
    order: &mut [i16],
    delta2: &mut [u16],
    delta1: &mut [u16],
    delta3: &mut [u16],
) -> Result<Explained, Unexplained> {
    let answer = explain_as(
        role.number(),
        number,
        position,
        rules,
        text,
        order,
        delta2,
        delta1,
        delta3,
    );
    Explained::told(position, text.len(), answer)
}

/// Prices by a table as `price_rules` does, for a role by its number; or is refused by 13.
#[allow(clippy::too_many_arguments)]
pub fn price_as(
    role: u32,
    rules: &TableBytes,
    text: &[u8],
    order: &mut [i16],
    delta2: &mut [u16],
    delta1: &mut [u16],
    delta3: &mut [u16],
    found: &mut [u16],
) -> PriceAnswer {
    // SAFETY: each pointer and length is that of a slice that stays borrowed during the call, and
    // the table is borrowed too.
    unsafe {
        foreign::price_as(
            role,
            rules,
            text.as_ptr(),
            text.len(),
            order.as_mut_ptr(),
            order.len(),
            delta2.as_mut_ptr(),
            delta2.len(),
            delta1.as_mut_ptr(),
            delta1.len(),
            delta3.as_mut_ptr(),
            delta3.len(),
            found.as_mut_ptr(),
            found.len(),
        )
    }
}

/// Edits a rule as `edit_rule` does, for a role by its number; or is refused by 13.
/// `Rules::edit_as` does the same.
pub fn edit_as(
    role: u32,
    number: u32,
    hold_offset: u32,
    pattern: &[u8],
    rules: &mut TableBytes,
) -> Answer {
    // SAFETY: each pointer and length is that of a slice that stays borrowed during the call, and
    // the table is borrowed too.
    unsafe {
        foreign::edit_as(
            role,
            number,
            hold_offset,
            pattern.as_ptr(),
            pattern.len(),
            rules,
        )
    }
}

/// A table of 1 to 16 rules (each a motif and a hold place). `&rules` goes wherever a call takes a table.
#[derive(Clone, Copy, Debug, PartialEq, Eq)]
pub struct Rules(TableBytes);

impl Rules {
    /// A table of these rules, each a pattern and a hold offset, numbered from 1 in this order; or the
    /// number by which a call would refuse it.
    pub fn new(rules: &[(&[u8], u32)]) -> Result<Rules, u32> {
        if rules.is_empty() || rules.len() > MAX_RULES {
            return Err(Refusal::RuleNumber.status());
        }
        let mut table = Rules([0; TABLE]);
        table.0[0] = rules.len() as u8;
        // Until it is edited, a rule is one byte, which has the hold.
        for number in 1..=rules.len() {
            table.0[slot(number)] = 1;
        }
        for (number, (pattern, hold_offset)) in (1..).zip(rules) {
            table.edit(number, *hold_offset, pattern)?;
        }
        Ok(table)
    }

    /// Puts a new pattern and hold offset in one rule, or gives the number by which that is refused. Then
    /// the table is as it was.
    pub fn edit(&mut self, number: u32, hold_offset: u32, pattern: &[u8]) -> Result<(), u32> {
        match edit_rule(number, hold_offset, pattern, &mut self.0).status {
            0 => Ok(()),
            status => Err(status),
        }
    }

    /// Puts a new pattern and hold offset in one rule as `edit` does, for a role; or gives 13 where
    /// the role may not.
    pub fn edit_as(
        &mut self,
        role: Role,
        number: u32,
        hold_offset: u32,
        pattern: &[u8],
    ) -> Result<(), u32> {
        match edit_as(role.number(), number, hold_offset, pattern, &mut self.0).status {
            0 => Ok(()),
            status => Err(status),
        }
    }

    /// The rules, each a pattern and a hold offset, rule 1 first.
    pub fn rules(&self) -> impl Iterator<Item = (&[u8], u32)> {
        let count = usize::from(self.0[0]);
        (1..=count).map(|number| {
            let bytes = &self.0[slot(number)..];
            (&bytes[2..2 + usize::from(bytes[0])], u32::from(bytes[1]))
        })
    }
}

/// The bytes of the table.
impl Deref for Rules {
    type Target = TableBytes;

    fn deref(&self) -> &TableBytes {
        &self.0
    }
}
