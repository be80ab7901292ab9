//! The calls behind a role: what they take beyond the calls without roles, what a refused call
//! takes, and both beside the same test in front of the plain Rust calls.

use std::cell::RefCell;
use std::fmt::Debug;
use std::hint::black_box;

use ruffarmoire_model::gen::Random;
use ruffarmoire_model::roles::{Role, ROLES};
use ruffarmoire_model::rules::{self, edited, Rule, TableBytes, TABLE};

use crate::baseline;
use crate::library;
use crate::table_buffers::TableBuffers;
use crate::timing::{median_difference, medians, Timed};

pub fn run() {
    println!(
        "Calls behind a role, with a table of one rule of {M} bytes. ns a call. \"Beyond\" is"
    );
    println!("what a permitted call takes beyond the call without roles.");
    println!(
        "{:15} {:^43} {:^20} {:^19}",
        "", "Rattle", "plain Rust", "Rattle/Rust"
    );
    println!(
        "{:8} {:>6} {:>10} {:>11} {:>9} {:>10} {:>10} {:>9} {:>10} {:>8}",
        "",
        "n",
        "permitted",
        "no roles",
        "beyond",
        "refused",
        "permitted",
        "refused",
        "permitted",
        "refused"
    );
    let mut random = Random::seeded(50);
    for n in [8, 16_384] {
        print_calls(&Job::new(&mut random, n));
    }
}

/// A table of one rule and a text in which it is found, with its frames and a new rule.
struct Job {
    table: TableBytes,
    text: Vec<u8>,
    frames: Vec<u16>,
    new: Rule,
}

/// The bytes of the rule.
const M: usize = 3;

impl Job {
    fn new(random: &mut Random, n: usize) -> Job {
        let text = random.bytes(n);
        let rule = |from: usize| Rule {
            pattern: text[from..from + M].to_vec(),
            hold: 1,
        };
        let (own, new) = (rule(2), rule(5));
        let mut table = [0; TABLE];
        table[0] = 1;
        Job {
            table: edited(&table, 1, &own),
            frames: rules::frames(&[own], &text),
            text,
            new,
        }
    }
}

/// All that a call may write to.
#[derive(Clone, PartialEq)]
struct Lent {
    table: TableBytes,
    tables: TableBuffers,
    found: Vec<u16>,
    frames: Vec<u16>,
    text: Vec<u8>,
}

impl Lent {
    fn new(job: &Job) -> Lent {
        let n = job.text.len();
        Lent {
            table: job.table,
            tables: TableBuffers::needed(M),
            found: vec![0; n],
            frames: vec![0; n],
            text: vec![0; n],
        }
    }
}

/// A call with a job and buffers, behind a role or without.
macro_rules! converting {
    ($call:path $(, $role:expr)?) => {
        |job: &Job, lent: &mut Lent| {
            let TableBuffers { order, delta2, delta1, delta3 } = &mut lent.tables;
            let (found, frames) = (&mut lent.found, &mut lent.frames);
            $call($($role,)? &job.table, &job.text, order, delta2, delta1, delta3, found, frames)
        }
    };
}

macro_rules! restoring {
    ($call:path $(, $role:expr)?) => {
        |job: &Job, lent: &mut Lent| $call($($role,)? &job.table, &job.frames, &mut lent.text)
    };
}

macro_rules! explaining {
    ($call:path $(, $role:expr)?) => {
        |job: &Job, lent: &mut Lent| {
            let TableBuffers { order, delta2, delta1, delta3 } = &mut lent.tables;
            let position = job.text.len() as u32 - 1;
            $call($($role,)? 1, position, &job.table, &job.text, order, delta2, delta1, delta3)
        }
    };
}

macro_rules! pricing {
    ($call:path $(, $role:expr)?) => {
        |job: &Job, lent: &mut Lent| {
            let TableBuffers { order, delta2, delta1, delta3 } = &mut lent.tables;
            let found = &mut lent.found;
            $call($($role,)? &job.table, &job.text, order, delta2, delta1, delta3, found)
        }
    };
}

macro_rules! editing {
    ($call:path $(, $role:expr)?) => {
        |job: &Job, lent: &mut Lent| {
            $call($($role,)? 1, job.new.hold as u32, &job.new.pattern, &mut lent.table)
        }
    };
}

/// The row of a call: by a role that may make it and by one that may not, of the library and in
/// plain Rust, and the library's call without roles.
macro_rules! print_row {
    ($name:literal, $job:expr, $with:ident, $behind:ident, $without:ident, $may:expr, $not:expr) => {
        print_row(
            $name,
            $job,
            $with!(library::$behind, black_box($may)),
            $with!(library::$without),
            $with!(library::$behind, black_box($not)),
            $with!(baseline::roles::$behind, black_box($may)),
            $with!(baseline::roles::$behind, black_box($not)),
        )
    };
}

fn print_calls(job: &Job) {
    // Every role may convert and explain, so there one that is none is refused.
    let none = 3;
    let [draughtswoman, mender, minder] = ROLES.map(Role::number);
    print_row!(
        "convert",
        job,
        converting,
        convert_as,
        convert_rules,
        minder,
        none
    );
    print_row!(
        "restore",
        job,
        restoring,
        restore_as,
        restore_rules,
        mender,
        minder
    );
    print_row!(
        "explain",
        job,
        explaining,
        explain_as,
        explain_rule,
        minder,
        none
    );
    print_row!("price", job, pricing, price_as, price_rules, mender, minder);
    print_row!(
        "edit",
        job,
        editing,
        edit_as,
        edit_rule,
        draughtswoman,
        mender
    );
}

fn print_row<A: Debug + PartialEq>(
    name: &str,
    job: &Job,
    permitted: impl Fn(&Job, &mut Lent) -> A,
    without: impl Fn(&Job, &mut Lent) -> A,
    refused: impl Fn(&Job, &mut Lent) -> A,
    rust: impl Fn(&Job, &mut Lent) -> A,
    rust_refused: impl Fn(&Job, &mut Lent) -> A,
) {
    let before = Lent::new(job);
    let left = |call: &dyn Fn(&Job, &mut Lent) -> A| {
        let mut lent = before.clone();
        (call(job, &mut lent), lent)
    };
    let ((answer, changed), (other, same)) = (left(&without), left(&refused));
    assert!(same == before && changed != before);
    for (call, expected, lent) in [
        (
            &permitted as &dyn Fn(&Job, &mut Lent) -> A,
            &answer,
            &changed,
        ),
        (&rust, &answer, &changed),
        (&rust_refused, &other, &before),
    ] {
        let (told, after) = left(call);
        assert_eq!(told, *expected);
        assert!(after == *lent);
    }
    let lent = &RefCell::new(before);
    let beyond = median_difference([timed(job, lent, &permitted), timed(job, lent, &without)]);
    let [permitted, without, refused, rust, rust_refused] = medians([
        timed(job, lent, permitted),
        timed(job, lent, without),
        timed(job, lent, refused),
        timed(job, lent, rust),
        timed(job, lent, rust_refused),
    ])
    .map(|microseconds| 1_000.0 * microseconds);
    println!(
        "{name:8} {:6} {permitted:10.1} {without:11.1} {:9.1} {refused:10.1} {rust:10.1} \
         {rust_refused:9.1} {:10.2} {:8.2}",
        job.text.len(),
        1_000.0 * beyond,
        permitted / rust,
        refused / rust_refused
    );
}

fn timed<'a, A: 'a>(
    job: &'a Job,
    lent: &'a RefCell<Lent>,
    call: impl Fn(&Job, &mut Lent) -> A + 'a,
) -> Timed<'a> {
    Timed::new(1, move || {
        let mut lent = lent.borrow_mut();
        black_box(call(black_box(job), black_box(&mut lent)));
    })
}
