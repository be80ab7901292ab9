//! The calls that take a table of rules, beside the same in plain Rust and beside the calls for one
//! pattern made for each rule; and what refusal 12 takes: what a search takes beyond the searches for
//! its rules.

use std::cell::RefCell;
use std::hint::black_box;

use ruffarmoire_model::answers::{Answer, ExplainAnswer, PriceAnswer, RulesAnswer};
use ruffarmoire_model::gen::Random;
use ruffarmoire_model::rule_calls::{self, needed};
use ruffarmoire_model::rules::{self, edited, Rule, TableBytes, TABLE};
use ruffarmoire_model::MAX_RULES;

use crate::baseline;
use crate::library;
use crate::table_buffers::TableBuffers;
use crate::timing::{differences, medians, Timed};

/// The bytes of each text.
const N: usize = 16_384;

pub fn run() {
    let mut random = Random::seeded(40);
    let jobs = KINDS.map(|kind| (kind, kind.job(&mut random)));
    println!("Tables of {MAX_RULES} rules, n {N}. µs a call. \"Singly\" are the calls for one pattern, for each rule;");
    println!("beside convert_rules and price_rules, the searches.");
    println!(
        "{:14} {:34} {:>9} {:>9} {:>9} {:>12} {:>14}",
        "", "rules and text", "Rattle", "Rust", "singly", "Rattle/Rust", "Rattle/singly"
    );
    for (kind, job) in &jobs {
        print_calls(kind.name(), job);
    }
    println!("\nWhat search_rules takes beyond the searches for its rules: refusal 12. µs a call.");
    for (kind, job) in &jobs {
        print_refusal(kind.name(), job);
    }
    print_edits(&jobs[0].1);
}

/// How rules and a text are chosen.
#[derive(Clone, Copy)]
enum Kind {
    /// Random bytes, 128 in each rule.
    Random,
    /// Random bytes, and rules that differ only in their last byte, so that no two can meet.
    LastDiffers,
    /// Rules of 113 to 128 equal bytes, each within the next, of which none is in a random text.
    AllCanMeet,
    /// Two bytes at random; half of the rules hold their first byte and half their last, which is the
    /// same, so that each can meet half of the others.
    HalfCanMeet,
    /// A ring of 127 equal bytes and another one, over and over, and 16 equal rules that differ from it
    /// in their last byte.
    NearlyNet,
    /// A net of period 16, of which each rule holds another byte.
    Net,
}

const KINDS: [Kind; 6] = [
    Kind::Random,
    Kind::LastDiffers,
    Kind::AllCanMeet,
    Kind::HalfCanMeet,
    Kind::NearlyNet,
    Kind::Net,
];

impl Kind {
    fn name(self) -> &'static str {
        match self {
            Kind::Random => "random",
            Kind::LastDiffers => "last byte differs, none can meet",
            Kind::AllCanMeet => "all can meet, random text",
            Kind::HalfCanMeet => "two bytes, half can meet",
            Kind::NearlyNet => "nearly a net, all can meet",
            Kind::Net => "net of period 16",
        }
    }

    fn job(self, random: &mut Random) -> Job {
        let root = random.bytes(128);
        let rules = (0..MAX_RULES).map(|index| match self {
            Kind::Random => (random.bytes(128), 64),
            Kind::LastDiffers => {
                let mut pattern = root.clone();
                pattern[127] = index as u8;
                (pattern, 64)
            }
            Kind::AllCanMeet => (vec![0x18; 113 + index], 64),
            Kind::HalfCanMeet => {
                let hold = if index % 2 == 0 { 0 } else { 127 };
                let mut pattern: Vec<u8> = random.bytes(128).iter().map(|byte| byte % 2).collect();
                pattern[hold] = 0;
                (pattern, hold)
            }
            Kind::NearlyNet => {
                let mut pattern = vec![0x18; 128];
                pattern[127] = 0x06;
                (pattern, 64)
            }
            Kind::Net => {
                let net = (0..128).map(|place| (place + index) as u8 % 16);
                (net.collect(), 0)
            }
        });
        let rules: Vec<Rule> = rules
            .map(|(pattern, hold)| Rule { pattern, hold })
            .collect();
        let text = match self {
            Kind::HalfCanMeet => random.bytes(N).iter().map(|byte| byte % 2).collect(),
            Kind::NearlyNet => (0..N)
                .map(|place| if place % 128 == 127 { 0x01 } else { 0x18 })
                .collect(),
            Kind::Net => (0..N).map(|place| place as u8 % 16).collect(),
            _ => random.bytes(N),
        };
        Job::new(rules, text)
    }
}

/// A table and a text, with the frames that it converts to.
struct Job {
    rules: Vec<Rule>,
    table: TableBytes,
    text: Vec<u8>,
    frames: Vec<u16>,
    searched: RulesAnswer,
}

impl Job {
    fn new(rules: Vec<Rule>, text: Vec<u8>) -> Job {
        let mut table = [0; TABLE];
        table[0] = rules.len() as u8;
        for (index, rule) in rules.iter().enumerate() {
            table = edited(&table, index + 1, rule);
        }
        let frames = rules::frames(&rules, &text);
        let searched = rule_calls::search_rules(&table, &text, needed(&rules), N).answer;
        assert_eq!(searched.status, 0);
        Job {
            rules,
            table,
            text,
            frames,
            searched,
        }
    }
}

/// The buffers of a call.
struct Buffers {
    tables: TableBuffers,
    found: Vec<u16>,
    frames: Vec<u16>,
}

impl Buffers {
    fn needed(rules: &[Rule]) -> RefCell<Buffers> {
        let lengths = needed(rules);
        RefCell::new(Buffers {
            tables: TableBuffers {
                order: vec![0; lengths.order],
                delta2: vec![0; lengths.delta2],
                delta1: vec![0; lengths.delta1],
                delta3: vec![0; lengths.delta3],
            },
            found: vec![0; N],
            frames: vec![0; N],
        })
    }
}

fn print_calls(kind: &str, job: &Job) {
    let buffers = Buffers::needed(&job.rules);
    let row = |name: &str, [rattle, rust, singly]: [f64; 3]| {
        println!(
            "{name:14} {kind:34} {rattle:9.2} {rust:9.2} {singly:9.2} {:12.2} {:14.2}",
            rattle / rust,
            rattle / singly
        );
    };
    let searching = |call| searching(job, call, &buffers);
    row(
        "search_rules",
        medians([
            searching(library::search_rules),
            searching(baseline::rules::search_rules),
            searching_singly(job, &buffers),
        ]),
    );
    let converting = |call| converting(job, call, &buffers);
    row(
        "convert_rules",
        medians([
            converting(library::convert_rules),
            converting(baseline::rules::convert_rules),
            searching_singly(job, &buffers),
        ]),
    );
    let pricing = |call| pricing(job, call, &buffers);
    row(
        "price_rules",
        medians([
            pricing(library::price_rules),
            pricing(baseline::rules::price_rules),
            searching_singly(job, &buffers),
        ]),
    );
    row(
        "restore_rules",
        medians([
            restoring(job, library::restore_rules),
            restoring(job, baseline::rules::restore_rules),
            restoring_singly(job),
        ]),
    );
    let explaining = |call| explaining(job, call, &buffers);
    row(
        "explain_rule",
        medians([
            explaining(library::explain_rule),
            explaining(baseline::rules::explain_rule),
            explaining_singly(job, &buffers),
        ]),
    );
}

fn print_refusal(kind: &str, job: &Job) {
    let buffers = Buffers::needed(&job.rules);
    let [rattle] = differences([[
        searching(job, library::search_rules, &buffers),
        searching_singly(job, &buffers),
    ]]);
    println!("{kind:34} {rattle:9.2}");
}

fn print_edits(job: &Job) {
    let [rattle, rust] = medians([
        editing(job, library::edit_rule),
        editing(job, baseline::rules::edit_rule),
    ]);
    println!(
        "\nedit_rule, a pattern of 128 bytes: {:.1} ns, plain Rust {:.1} ns, Rattle/Rust {:.2}",
        1_000.0 * rattle,
        1_000.0 * rust,
        rattle / rust
    );
}

type Search<Answer> =
    fn(&TableBytes, &[u8], &mut [i16], &mut [u16], &mut [u16], &mut [u16], &mut [u16]) -> Answer;

/// A call that searches with the whole table.
fn search<A>(call: Search<A>, job: &Job, buffers: &mut Buffers) -> A {
    let (table, text) = black_box((&job.table, &job.text));
    let Buffers { tables, found, .. } = buffers;
    let (order, delta2) = (&mut tables.order, &mut tables.delta2);
    let (delta1, delta3) = (&mut tables.delta1, &mut tables.delta3);
    let answer = call(table, text, order, delta2, delta1, delta3, found);
    black_box((answer, buffers)).0
}

fn searching<'a>(
    job: &'a Job,
    call: Search<RulesAnswer>,
    buffers: &'a RefCell<Buffers>,
) -> Timed<'a> {
    let answer = search(call, job, &mut buffers.borrow_mut());
    assert_eq!(answer, job.searched);
    Timed::new(1, move || {
        search(call, job, &mut buffers.borrow_mut());
    })
}

fn pricing<'a>(
    job: &'a Job,
    call: Search<PriceAnswer>,
    buffers: &'a RefCell<Buffers>,
) -> Timed<'a> {
    let expected = rule_calls::price_rules(&job.table, &job.text, needed(&job.rules), N).answer;
    assert_eq!(search(call, job, &mut buffers.borrow_mut()), expected);
    Timed::new(1, move || {
        search(call, job, &mut buffers.borrow_mut());
    })
}

/// The library's searches for each rule, into the front of the same buffers.
fn searching_singly<'a>(job: &'a Job, buffers: &'a RefCell<Buffers>) -> Timed<'a> {
    Timed::new(1, move || {
        let Buffers { tables, found, .. } = &mut *buffers.borrow_mut();
        for rule in black_box(&job.rules) {
            let (order, delta2) = (&mut tables.order, &mut tables.delta2);
            let (delta1, delta3) = (&mut tables.delta1, &mut tables.delta3);
            let (pattern, text) = (&rule.pattern, &job.text);
            black_box(library::search(
                pattern, text, order, delta2, delta1, delta3, found,
            ));
        }
        black_box((tables, found));
    })
}

type Convert = fn(
    &TableBytes,
    &[u8],
    &mut [i16],
    &mut [u16],
    &mut [u16],
    &mut [u16],
    &mut [u16],
    &mut [u16],
) -> RulesAnswer;

fn converting<'a>(job: &'a Job, call: Convert, buffers: &'a RefCell<Buffers>) -> Timed<'a> {
    let convert = move || {
        let (table, text) = black_box((&job.table, &job.text));
        let mut lent = buffers.borrow_mut();
        let Buffers {
            tables,
            found,
            frames,
        } = &mut *lent;
        let (order, delta2) = (&mut tables.order, &mut tables.delta2);
        let (delta1, delta3) = (&mut tables.delta1, &mut tables.delta3);
        let answer = call(table, text, order, delta2, delta1, delta3, found, frames);
        black_box(answer)
    };
    assert_eq!(convert().rules, job.searched.rules);
    assert_eq!(buffers.borrow().frames, job.frames);
    Timed::new(1, move || {
        convert();
    })
}

type Restore = fn(&TableBytes, &[u16], &mut [u8]) -> Answer;

fn restoring(job: &Job, call: Restore) -> Timed<'_> {
    let mut text = vec![0; N];
    let answer = call(&job.table, &job.frames, &mut text);
    assert_eq!(answer, Answer::default());
    assert!(text == job.text);
    Timed::new(1, move || {
        let (table, frames) = black_box((&job.table, &job.frames));
        black_box(call(table, frames, &mut text));
        black_box(&mut text);
    })
}

/// The library's restoring with each rule alone, of the frames that this rule alone gives.
fn restoring_singly(job: &Job) -> Timed<'_> {
    let alone = |rule: &Rule| rules::frames(std::slice::from_ref(rule), &job.text);
    let all: Vec<Vec<u16>> = job.rules.iter().map(alone).collect();
    let mut text = vec![0; N];
    Timed::new(1, move || {
        for (rule, frames) in black_box(&job.rules).iter().zip(&all) {
            let hold = rule.hold as u32;
            let answer = library::restore(hold, &rule.pattern, frames, &mut text);
            assert_eq!(answer.status, 0);
        }
        black_box(&mut text);
    })
}

type Explain = fn(
    u32,
    u32,
    &TableBytes,
    &[u8],
    &mut [i16],
    &mut [u16],
    &mut [u16],
    &mut [u16],
) -> ExplainAnswer;

/// The rule and the position that are explained: the last of each.
const NUMBER: u32 = MAX_RULES as u32;
const POSITION: u32 = N as u32 - 1;

fn explaining<'a>(job: &'a Job, call: Explain, buffers: &'a RefCell<Buffers>) -> Timed<'a> {
    let explain = move || {
        let (table, text) = black_box((&job.table, &job.text));
        let tables = &mut buffers.borrow_mut().tables;
        let (order, delta2) = (&mut tables.order, &mut tables.delta2);
        let (delta1, delta3) = (&mut tables.delta1, &mut tables.delta3);
        let answer = call(NUMBER, POSITION, table, text, order, delta2, delta1, delta3);
        black_box(answer)
    };
    let lengths = needed(&job.rules);
    let expected = rule_calls::explain_rule(NUMBER, POSITION, &job.table, &job.text, lengths);
    assert_eq!(explain(), expected.answer);
    Timed::new(1, move || {
        explain();
    })
}

/// The library's explanation for the last rule's pattern.
fn explaining_singly<'a>(job: &'a Job, buffers: &'a RefCell<Buffers>) -> Timed<'a> {
    Timed::new(1, move || {
        let tables = &mut buffers.borrow_mut().tables;
        let (order, delta2) = (&mut tables.order, &mut tables.delta2);
        let (delta1, delta3) = (&mut tables.delta1, &mut tables.delta3);
        let pattern = &black_box(&job.rules)[MAX_RULES - 1].pattern;
        black_box(library::explain(
            POSITION, pattern, &job.text, order, delta2, delta1, delta3,
        ));
    })
}

type Edit = fn(u32, u32, &[u8], &mut TableBytes) -> Answer;

fn editing(job: &Job, call: Edit) -> Timed<'_> {
    let mut table = job.table;
    let pattern = &job.rules[0].pattern;
    let answer = call(NUMBER, 64, pattern, &mut table);
    assert_eq!(answer, Answer::default());
    assert!(table == edited(&job.table, MAX_RULES, &job.rules[0]));
    Timed::new(1, move || {
        black_box(call(NUMBER, 64, black_box(pattern), &mut table));
        black_box(&mut table);
    })
}
