//! Everything that is asked of the calls behind a role, for any implementation of them. Each call
//! is held to the model, and where the role may make it also to the implementation's own call
//! without roles: its whole answer, every entry of every buffer, and every byte of the table.

use std::borrow::Cow;
use std::collections::BTreeSet;
use std::fmt::Debug;
use std::marker::PhantomData;

use ruffarmoire_model::answers::{Answer, ExplainAnswer, PriceAnswer, Refusal, RulesAnswer};
use ruffarmoire_model::calls::{Outcome, TableLengths};
use ruffarmoire_model::gen::Random;
use ruffarmoire_model::rules::{frames, Rule, TableBytes, TABLE};
use ruffarmoire_model::{role_calls, rule_calls};

use super::harness::{expect_front, reserved, shown, Buffer};
use super::lengths::BufferLengths;
use super::repeats::FOREIGN;
use super::rule_tables::{self, needed, rule, table_of, Job};
use super::rules_suite::RulesCalls;
use super::table_buffers::{entries, LentTables, TableBuffers};

const A: u8 = 0x06;
const C: u8 = 0x18;

/// What a call that is taken without roles answers to each role. The columns are convert, put back,
/// explain, price and edit the table.
const ANSWERED: [[u32; 5]; 3] = [
    [0, 0, 0, 0, 0],    // 0, the draughtswoman
    [0, 0, 0, 0, 13],   // 1, the mender
    [0, 13, 0, 13, 13], // 2, the minder
];

/// The roles, and two numbers that are none.
const SOME_ROLES: [u32; 5] = [0, 1, 2, 3, u32::MAX];

/// An implementation of the calls behind a role.
pub trait RoleCalls: RulesCalls {
    fn convert_as(
        role: u32,
        rules: &TableBytes,
        text: &[u8],
        tables: LentTables,
        found: &mut [u16],
        frames: &mut [u16],
    ) -> RulesAnswer;

    fn restore_as(role: u32, rules: &TableBytes, frames: &[u16], text: &mut [u8]) -> Answer;

    fn explain_as(
        role: u32,
        number: u32,
        position: u32,
        rules: &TableBytes,
        text: &[u8],
        tables: LentTables,
    ) -> ExplainAnswer;

    fn price_as(
        role: u32,
        rules: &TableBytes,
        text: &[u8],
        tables: LentTables,
        found: &mut [u16],
    ) -> PriceAnswer;

    fn edit_as(role: u32, number: u32, hold: u32, pattern: &[u8], rules: &mut TableBytes)
        -> Answer;
}

/// A test program's tests: all of this module on one implementation.
macro_rules! roles_suite {
    ($calls:ty) => {
        mod convert_as {
            role_tests!(crate::common::roles_suite::Convert<$calls>);
        }
        mod restore_as {
            role_tests!(crate::common::roles_suite::Restore<$calls>);
        }
        mod explain_as {
            role_tests!(crate::common::roles_suite::Explain<$calls>);
        }
        mod price_as {
            role_tests!(crate::common::roles_suite::Price<$calls>);
        }
        mod edit_as {
            role_tests!(crate::common::roles_suite::Edit<$calls>);
        }
        tests_of!(roles_suite, $calls:
            who_may_do_what,
            calls_by_changing_roles,
        );
    };
}

/// The tests of every call behind a role.
macro_rules! role_tests {
    ($call:ty) => {
        tests_of!(roles_suite, $call:
            numbers_of_roles,
            each_refusal_alone,
            several_faults_at_once,
            buffers_around_the_needed_lengths,
            short_tables,
            longer_tables,
            largest_tables,
            lengths_beyond_32_bits,
        );
    };
}

/// A call behind a role, and the same call without roles.
pub trait RoleCall {
    /// What it answers.
    type Answer: Copy + Debug + PartialEq + From<Refusal>;

    /// The column of its task.
    const COLUMN: usize;

    /// Makes the call as this role, or without roles.
    fn call(role: Option<u32>, given: &Given, lent: Lent) -> Self::Answer;

    /// What the model answers, and what it leaves in buffers of these lengths.
    fn model(role: Option<u32>, given: &Given, lengths: Lengths) -> Left<Self::Answer>;

    /// The lengths that the call needs with a table of these rules.
    fn needed(rules: &[Rule], given: &Given) -> Lengths;

    fn status(answer: Self::Answer) -> u32;
}

/// What the calls are handed beside their buffers. Each takes some of it.
#[derive(Clone)]
pub struct Given<'a> {
    table: TableBytes,
    text: Cow<'a, [u8]>,
    frames: Cow<'a, [u16]>,
    number: u32,
    position: u32,
    hold: u32,
    pattern: Cow<'a, [u8]>,
}

impl Given<'_> {
    /// For a message.
    fn shown(&self) -> String {
        let rules = &self.table[..130 * usize::from(self.table[0].min(4)) + 1];
        let (text, pattern) = (shown(&self.text), shown(&self.pattern));
        let frames = &self.frames[..self.frames.len().min(100)];
        format!(
            "{rules:X?}, text {text}, frames {frames:X?}, rule {}, b {}, q {}, pattern {pattern}",
            self.number, self.position, self.hold
        )
    }
}

/// All that a call may write to, as it is lent. Each takes some of it.
pub struct Lent<'a> {
    table: &'a mut TableBytes,
    tables: LentTables<'a>,
    found: &'a mut [u16],
    frames: &'a mut [u16],
    text: &'a mut [u8],
}

/// The lengths of the buffers that a call takes.
#[derive(Clone, Copy, Debug, Default)]
pub struct Lengths {
    tables: Option<TableLengths>,
    found: Option<usize>,
    frames: Option<usize>,
    text: Option<usize>,
}

impl BufferLengths for Lengths {
    fn each(&mut self) -> Vec<&mut usize> {
        let tables = self.tables.as_mut();
        let mut each = tables.map_or(Vec::new(), BufferLengths::each);
        each.extend(&mut self.found);
        each.extend(&mut self.frames);
        each.extend(&mut self.text);
        each
    }
}

/// Lengths that are longer, each by another number.
fn longer(mut lengths: Lengths) -> Lengths {
    for (more, length) in [1, 39, 300, 5, 9, 6].into_iter().zip(lengths.each()) {
        *length += more;
    }
    lengths
}

/// What a call answers and leaves.
#[derive(Clone, Debug, PartialEq)]
pub struct Left<Answer> {
    answer: Answer,
    buffers: Outcome,
    text: Vec<u8>,
    table: TableBytes,
}

impl<Answer> Left<Answer> {
    /// What a call leaves that changes no table and restores no text.
    fn new(answer: Answer, mut buffers: Outcome, given: &Given) -> Left<Answer> {
        buffers.answer = ruffarmoire_model::answers::Answer::default();
        Left {
            answer,
            buffers,
            text: Vec::new(),
            table: given.table,
        }
    }
}

/// The table and all buffers, each with a margin on either side. A buffer that a call does not take
/// is there too, and empty.
#[derive(Clone)]
struct Held {
    table: Buffer<u8>,
    tables: TableBuffers,
    found: Buffer<u16>,
    frames: Buffer<u16>,
    text: Buffer<u8>,
}

impl Held {
    /// Two fillings: an entry that is left by chance as it should be is seen in one of them.
    fn fillings(table: &TableBytes, lengths: Lengths) -> [Held; 2] {
        let none = TableLengths::needed(1).changed(|_| 0);
        let both = TableBuffers::fillings(3, lengths.tables.unwrap_or(none));
        let mut seed = 0;
        both.map(|tables| {
            seed += 101;
            Held {
                table: Buffer::junk(TABLE, seed).after(table),
                tables,
                found: Buffer::junk(lengths.found.unwrap_or(0), seed + 7),
                frames: Buffer::junk(lengths.frames.unwrap_or(0), seed + 14),
                text: Buffer::junk(lengths.text.unwrap_or(0), seed + 21),
            }
        })
    }

    fn lent(&mut self) -> Lent<'_> {
        let table = self.table.lent();
        Lent {
            table: table.try_into().expect("as long as a table"),
            tables: self.tables.lent(),
            found: self.found.lent(),
            frames: self.frames.lent(),
            text: self.text.lent(),
        }
    }

    /// The table and the buffers after a call that leaves this.
    fn after<Answer>(self, left: &Left<Answer>) -> Held {
        Held {
            table: self.table.after(&left.table),
            tables: self.tables.after(&left.buffers),
            found: self.found.after(&entries(&left.buffers.occurrences)),
            frames: self.frames.after(&left.buffers.frames),
            text: self.text.after(&left.text),
        }
    }

    fn expect(&self, expected: &Held, context: &dyn Fn() -> String) {
        self.table.expect(&expected.table, "table", context);
        self.tables.expect(&expected.tables, context);
        self.found.expect(&expected.found, "found", context);
        self.frames.expect(&expected.frames, "frames", context);
        self.text.expect(&expected.text, "text", context);
    }
}

/// Converting.
pub struct Convert<T>(PhantomData<T>);

impl<T: RoleCalls> RoleCall for Convert<T> {
    type Answer = RulesAnswer;

    const COLUMN: usize = 0;

    fn call(role: Option<u32>, given: &Given, lent: Lent) -> RulesAnswer {
        let Lent {
            table,
            tables,
            found,
            frames,
            ..
        } = lent;
        match role {
            Some(role) => T::convert_as(role, table, &given.text, tables, found, frames),
            None => T::convert_rules(table, &given.text, tables, found, frames),
        }
    }

    fn model(role: Option<u32>, given: &Given, lengths: Lengths) -> Left<RulesAnswer> {
        let Given { table, text, .. } = given;
        let tables = lengths.tables.expect("it takes tables");
        let found = lengths.found.expect("it takes occurrences");
        let frames = lengths.frames.expect("it takes frames");
        let left = match role {
            Some(role) => role_calls::convert_as(role, table, text, tables, found, frames),
            None => rule_calls::convert_rules(table, text, tables, found, frames),
        };
        Left::new(left.answer, left.left, given)
    }

    fn needed(rules: &[Rule], given: &Given) -> Lengths {
        Lengths {
            tables: Some(needed(rules)),
            found: Some(given.text.len()),
            frames: Some(given.text.len()),
            ..Lengths::default()
        }
    }

    fn status(answer: RulesAnswer) -> u32 {
        answer.status
    }
}

/// Restoring.
pub struct Restore<T>(PhantomData<T>);

impl<T: RoleCalls> RoleCall for Restore<T> {
    type Answer = Answer;

    const COLUMN: usize = 1;

    fn call(role: Option<u32>, given: &Given, lent: Lent) -> Answer {
        let Lent { table, text, .. } = lent;
        match role {
            Some(role) => T::restore_as(role, table, &given.frames, text),
            None => T::restore_rules(table, &given.frames, text),
        }
    }

    fn model(role: Option<u32>, given: &Given, lengths: Lengths) -> Left<Answer> {
        let Given { table, frames, .. } = given;
        let text = lengths.text.expect("it takes a text");
        let left = match role {
            Some(role) => role_calls::restore_as(role, table, frames, text),
            None => rule_calls::restore_rules(table, frames, text),
        };
        Left {
            text: left.text,
            ..Left::new(left.answer, Outcome::default(), given)
        }
    }

    fn needed(_: &[Rule], given: &Given) -> Lengths {
        Lengths {
            text: Some(given.frames.len()),
            ..Lengths::default()
        }
    }

    fn status(answer: Answer) -> u32 {
        answer.status
    }
}

/// Explaining.
pub struct Explain<T>(PhantomData<T>);

impl<T: RoleCalls> RoleCall for Explain<T> {
    type Answer = ExplainAnswer;

    const COLUMN: usize = 2;

    fn call(role: Option<u32>, given: &Given, lent: Lent) -> ExplainAnswer {
        let (number, position) = (given.number, given.position);
        let Lent { table, tables, .. } = lent;
        match role {
            Some(role) => T::explain_as(role, number, position, table, &given.text, tables),
            None => T::explain_rule(number, position, table, &given.text, tables),
        }
    }

    fn model(role: Option<u32>, given: &Given, lengths: Lengths) -> Left<ExplainAnswer> {
        let (number, position) = (given.number, given.position);
        let Given { table, text, .. } = given;
        let tables = lengths.tables.expect("it takes tables");
        let left = match role {
            Some(role) => role_calls::explain_as(role, number, position, table, text, tables),
            None => rule_calls::explain_rule(number, position, table, text, tables),
        };
        Left::new(left.answer, left.left, given)
    }

    /// Those of the named rule, or of the first where the number is none.
    fn needed(rules: &[Rule], given: &Given) -> Lengths {
        let index = (given.number as usize).wrapping_sub(1);
        let own = rules.get(index).unwrap_or(&rules[0]);
        Lengths {
            tables: Some(TableLengths::needed(own.pattern.len())),
            ..Lengths::default()
        }
    }

    fn status(answer: ExplainAnswer) -> u32 {
        answer.answer.status
    }
}

/// Pricing.
pub struct Price<T>(PhantomData<T>);

impl<T: RoleCalls> RoleCall for Price<T> {
    type Answer = PriceAnswer;

    const COLUMN: usize = 3;

    fn call(role: Option<u32>, given: &Given, lent: Lent) -> PriceAnswer {
        let Lent {
            table,
            tables,
            found,
            ..
        } = lent;
        match role {
            Some(role) => T::price_as(role, table, &given.text, tables, found),
            None => T::price_rules(table, &given.text, tables, found),
        }
    }

    fn model(role: Option<u32>, given: &Given, lengths: Lengths) -> Left<PriceAnswer> {
        let Given { table, text, .. } = given;
        let tables = lengths.tables.expect("it takes tables");
        let found = lengths.found.expect("it takes occurrences");
        let left = match role {
            Some(role) => role_calls::price_as(role, table, text, tables, found),
            None => rule_calls::price_rules(table, text, tables, found),
        };
        Left::new(left.answer, left.left, given)
    }

    fn needed(rules: &[Rule], given: &Given) -> Lengths {
        Lengths {
            tables: Some(needed(rules)),
            found: Some(given.text.len()),
            ..Lengths::default()
        }
    }

    fn status(answer: PriceAnswer) -> u32 {
        answer.answer.status
    }
}

/// Editing a rule.
pub struct Edit<T>(PhantomData<T>);

impl<T: RoleCalls> RoleCall for Edit<T> {
    type Answer = Answer;

    const COLUMN: usize = 4;

    fn call(role: Option<u32>, given: &Given, lent: Lent) -> Answer {
        let (number, hold, table) = (given.number, given.hold, lent.table);
        match role {
            Some(role) => T::edit_as(role, number, hold, &given.pattern, table),
            None => T::edit_rule(number, hold, &given.pattern, table),
        }
    }

    fn model(role: Option<u32>, given: &Given, _: Lengths) -> Left<Answer> {
        let (number, hold) = (given.number, given.hold);
        let Given { table, pattern, .. } = given;
        let left = match role {
            Some(role) => role_calls::edit_as(role, number, hold, pattern, table),
            None => rule_calls::edit_rule(number, hold, pattern, table),
        };
        Left {
            table: left.table,
            ..Left::new(left.answer, Outcome::default(), given)
        }
    }

    fn needed(_: &[Rule], _: &Given) -> Lengths {
        Lengths::default()
    }

    fn status(answer: Answer) -> u32 {
        answer.status
    }
}

/// Whether a role may make a call.
fn is_permitted<K: RoleCall>(role: u32) -> bool {
    let row = ANSWERED.get(role as usize);
    row.is_some_and(|row| row[K::COLUMN] == 0)
}

/// What is left of a call that is not permitted: the number and zeros, and everything as it was.
fn refused<K: RoleCall>(given: &Given) -> Left<K::Answer> {
    let left = Left::new(Refusal::NotPermitted.into(), Outcome::default(), given);
    assert_eq!(K::status(left.answer), 13);
    left
}

/// Makes a call without roles and as each of these roles, with buffers of these lengths, and holds
/// what comes of it to the model. Tells the status without roles.
fn check<K: RoleCall>(roles: &[u32], given: &Given, lengths: Lengths) -> u32 {
    let plain = K::model(None, given, lengths);
    let refused = refused::<K>(given);
    for &role in roles {
        let expected = [&refused, &plain][usize::from(is_permitted::<K>(role))];
        assert_eq!(K::model(Some(role), given, lengths), *expected);
    }
    for filled in Held::fillings(&given.table, lengths) {
        let context = || format!("without roles, {}, {lengths:?}", given.shown());
        let mut without = filled.clone();
        let answer = K::call(None, given, without.lent());
        assert_eq!(answer, plain.answer, "{}", context());
        without.expect(&filled.clone().after(&plain), &context);
        for &role in roles {
            let context = || format!("role {role}, {}, {lengths:?}", given.shown());
            let (expected, left) = if is_permitted::<K>(role) {
                (answer, &without)
            } else {
                (refused.answer, &filled)
            };
            let mut held = filled.clone();
            let told = K::call(Some(role), given, held.lent());
            assert_eq!(told, expected, "{}", context());
            held.expect(left, &context);
        }
    }
    K::status(plain.answer)
}

/// Three rules, of which the last is not in the listing; the first and the last are equally long.
fn three() -> [Rule; 3] {
    [
        rule(&[A, A, A], 1),
        rule(&[A, A, C, A, A], 2),
        rule(&[A, C, C], 0),
    ]
}

/// A call that is taken: document 01's listing with these rules, its frames, and a new rule 2.
fn good() -> Given<'static> {
    Given {
        table: table_of(&three(), 1),
        text: Cow::Borrowed(&[A, A, C, A, A, A, C, A, A]),
        frames: Cow::Borrowed(&[256, 6, 512, 6, 256, 6, 512, 6, 256]),
        number: 2,
        position: 1,
        hold: 1,
        pattern: Cow::Borrowed(&[C, A]),
    }
}

/// What may be wrong with a call.
#[derive(Clone, Copy, PartialEq)]
enum Fault {
    /// So many rules in the table.
    Rules(u8),
    /// A rule of this length.
    Length(u8),
    /// A rule whose hold offset is its length.
    HoldOffset,
    /// A text, and frames, of so many entries.
    TextOf(usize),
    /// One buffer, each in turn, an entry shorter than needed.
    ShortBuffer,
    /// Buffers of no entry.
    EmptyBuffers,
    /// The number of a rule.
    Number(u32),
    /// A position as much beyond the last one as this.
    PositionBeyond(u32),
    /// A last frame that is none.
    NoConversion,
    /// The first rule as the last one too.
    ClaimedTwice,
    /// A new pattern of this length.
    NewLength(usize),
    /// A new hold offset that is the length of the new pattern.
    NewHoldOffset,
}

/// Each fault, and what a call that has it alone answers without roles. The columns are convert,
/// put back, explain, price and edit the table.
const FAULTS: [(Fault, [u32; 5]); 19] = [
    (Fault::Rules(0), [11, 11, 11, 11, 11]),
    (Fault::Rules(17), [11, 11, 11, 11, 11]),
    (Fault::Rules(255), [11, 11, 11, 11, 11]),
    (Fault::Number(0), [0, 0, 11, 0, 11]),
    (Fault::Number(17), [0, 0, 11, 0, 11]),
    (Fault::Number(u32::MAX), [0, 0, 11, 0, 11]),
    (Fault::Length(0), [4, 4, 4, 4, 4]),
    (Fault::Length(129), [4, 4, 4, 4, 4]),
    (Fault::HoldOffset, [5, 5, 5, 5, 5]),
    (Fault::NewLength(0), [0, 0, 0, 0, 4]),
    (Fault::NewLength(129), [0, 0, 0, 0, 4]),
    (Fault::NewHoldOffset, [0, 0, 0, 0, 5]),
    (Fault::TextOf(16_385), [6, 6, 6, 6, 0]),
    (Fault::ShortBuffer, [7, 7, 7, 7, 0]),
    (Fault::EmptyBuffers, [7, 7, 7, 7, 0]),
    (Fault::NoConversion, [0, 9, 0, 0, 0]),
    (Fault::PositionBeyond(1), [0, 0, 10, 0, 0]),
    (Fault::PositionBeyond(65_536), [0, 0, 10, 0, 0]),
    (Fault::ClaimedTwice, [12, 9, 0, 12, 0]),
];

/// Puts a fault in a call, unless it is one of the buffers.
fn spoil(given: &mut Given, fault: Fault) {
    let table = &mut given.table;
    match fault {
        Fault::Rules(count) => table[0] = count,
        Fault::Length(m) => table[1] = m,
        Fault::HoldOffset => table[2] = table[1],
        Fault::TextOf(n) => {
            given.text = vec![FOREIGN; n].into();
            given.frames = vec![FOREIGN.into(); n].into();
        }
        Fault::ShortBuffer | Fault::EmptyBuffers => {}
        Fault::Number(number) => given.number = number,
        Fault::PositionBeyond(more) => given.position = given.text.len() as u32 - 1 + more,
        Fault::NoConversion => given.frames.to_mut()[8] = 257,
        Fault::ClaimedTwice => table.copy_within(1..131, 261),
        Fault::NewLength(m) => given.pattern = vec![C; m].into(),
        Fault::NewHoldOffset => given.hold = given.pattern.len() as u32,
    }
}

/// The listing's call with these faults, and all lengths of buffers that it is to be lent.
fn with_faults<K: RoleCall>(faults: &[Fault]) -> (Given<'static>, Vec<Lengths>) {
    let mut given = good();
    for &fault in faults {
        spoil(&mut given, fault);
    }
    let needed = K::needed(&three(), &given);
    let longer = longer(needed);
    let short = [needed, longer].map(|others| others.one_too_short(needed));
    let lengths = if faults.contains(&Fault::EmptyBuffers) {
        vec![needed.changed(|_| 0)]
    } else if faults.contains(&Fault::ShortBuffer) && !short[0].is_empty() {
        short.concat()
    } else {
        vec![needed, longer]
    };
    (given, lengths)
}

/// The fifteen entries, and numbers that are no role.
pub fn who_may_do_what<T: RoleCalls>() {
    fn told<K: RoleCall>(role: u32) -> u32 {
        let given = good();
        let [mut held, _] = Held::fillings(&given.table, K::needed(&three(), &given));
        K::status(K::call(Some(role), &given, held.lent()))
    }
    let row = |role| {
        [
            told::<Convert<T>>(role),
            told::<Restore<T>>(role),
            told::<Explain<T>>(role),
            told::<Price<T>>(role),
            told::<Edit<T>>(role),
        ]
    };
    assert_eq!([row(0), row(1), row(2)], ANSWERED);
    for role in [3, 4, 5, 15, 16, 255, 256, 257, 258, 1 << 31, u32::MAX] {
        assert_eq!(row(role), [13; 5], "role {role}");
    }
}

/// 0, 1 and 2 are roles; those above, and such as would be a role if some of their bits were
/// dropped, are none.
pub fn numbers_of_roles<K: RoleCall>() {
    let beyond = (2..32).flat_map(|bit| [0, 1, 2, 3].map(|low| 1 << bit | low));
    let last = u32::MAX - 4..=u32::MAX;
    let roles: Vec<u32> = (0..300).chain(beyond).chain(last).collect();
    let (given, lengths) = with_faults::<K>(&[]);
    for lengths in lengths {
        assert_eq!(check::<K>(&roles, &given, lengths), 0);
    }
}

/// Each refusal of a call comes as it does without roles where the role may make the call, and 13
/// comes before it where it may not.
pub fn each_refusal_alone<K: RoleCall>() {
    for (fault, answered) in FAULTS {
        let (given, all_lengths) = with_faults::<K>(&[fault]);
        for lengths in all_lengths {
            let status = check::<K>(&SOME_ROLES, &given, lengths);
            assert_eq!(status, answered[K::COLUMN]);
        }
    }
}

/// Every two faults, any number of them, and all: where the role may not make the call, it is
/// refused by 13 whatever is wrong with it.
pub fn several_faults_at_once<K: RoleCall>() {
    let mut random = Random::seeded(201);
    let all = FAULTS.map(|(fault, _)| fault);
    let pairs = all
        .iter()
        .flat_map(|&first| all.map(|second| vec![first, second]));
    let any = (0..400).map(|_| {
        let chosen = all.iter().filter(|_| random.below(3) == 0);
        chosen.copied().collect()
    });
    let every = pairs.chain(any).chain([all.to_vec()]);
    for (round, faults) in every.enumerate() {
        let (given, all_lengths) = with_faults::<K>(&faults);
        let lengths = all_lengths[round % all_lengths.len()];
        check::<K>(&SOME_ROLES, &given, lengths);
    }
}

/// Every choice of buffers that are empty, one too short, exact and one too long.
pub fn buffers_around_the_needed_lengths<K: RoleCall>() {
    let given = good();
    let needed = K::needed(&three(), &given);
    for lengths in needed.choices(|length| vec![0, length - 1, length, length + 1]) {
        let status = if lengths.are_enough(needed) { 0 } else { 7 };
        assert_eq!(check::<K>(&[0, 1, 2, 3], &given, lengths), status);
    }
}

/// A call with a generated table and text. Its frames are those of the text, of which one may be
/// changed; its number, its position and its new rule may be wrong.
fn given_for<'a>(random: &mut Random, Job { rules, text }: &'a Job) -> Given<'a> {
    let (count, n, m) = (rules.len(), text.len(), random.below(130));
    let mut frames = frames(rules, text);
    if n > 0 && random.below(4) == 0 {
        frames[random.below(n)] = random.pick(&[256, 512, 4_352, 257, FOREIGN.into()]);
    }
    Given {
        table: table_of(rules, random.number()),
        text: text.into(),
        frames: frames.into(),
        number: random.below(count + 2) as u32,
        position: random.below(n + 2) as u32,
        hold: random.below(m + 2) as u32,
        pattern: random.bytes(m).into(),
    }
}

/// Exact, longer and too short buffers.
pub fn short_tables<K: RoleCall>() {
    let mut random = Random::seeded(202);
    let mut seen = BTreeSet::new();
    let by_hand = rule_tables::by_hand().into_iter().map(|(job, _)| job);
    for job in rule_tables::short().chain(by_hand) {
        let given = given_for(&mut random, &job);
        let needed = K::needed(&job.rules, &given);
        let status = check::<K>(&SOME_ROLES, &given, needed);
        assert_eq!(check::<K>(&[0, 1, 2], &given, longer(needed)), status);
        for short in needed.one_too_short(needed) {
            check::<K>(&[0, 2], &given, short);
        }
        seen.insert(status);
    }
    let expected: [&[u32]; 5] = [&[0, 12], &[0, 9], &[0, 10, 11], &[0, 12], &[0, 4, 5, 11]];
    assert!(seen.iter().eq(expected[K::COLUMN]), "{seen:?}");
}

pub fn longer_tables<K: RoleCall>() {
    let mut random = Random::seeded(203);
    for job in rule_tables::longer() {
        let given = given_for(&mut random, &job);
        let needed = K::needed(&job.rules, &given);
        check::<K>(&SOME_ROLES, &given, needed);
    }
}

/// 16 rules of 128 bytes in texts of 16,384.
pub fn largest_tables<K: RoleCall>() {
    for (job, _) in &rule_tables::largest()[..4] {
        let given = Given {
            number: 16,
            position: 16_383,
            hold: 127,
            pattern: vec![C; 128].into(),
            ..given_for(&mut Random::seeded(204), job)
        };
        check::<K>(&[0, 2, 3], &given, K::needed(&job.rules, &given));
    }
}

/// Lengths of more than 32 bits: none may be taken for what is left of it in 32.
pub fn lengths_beyond_32_bits<K: RoleCall>() {
    const BEYOND: usize = 1 << 32;
    let long = Given {
        text: Cow::Borrowed(reserved(BEYOND + 9)),
        frames: Cow::Borrowed(reserved(BEYOND + 9)),
        pattern: Cow::Borrowed(reserved(BEYOND + 2)),
        ..good()
    };
    let status = check::<K>(&SOME_ROLES, &long, K::needed(&three(), &good()));
    assert_eq!(status, [6, 6, 6, 6, 4][K::COLUMN]);

    // Buffers of which nothing would be left in 32 bits are longer than needed, and that is fine.
    let given = good();
    let mut table = given.table;
    let mut tables = LentTables::reserved(BEYOND);
    let (found, frames) = (reserved(BEYOND), reserved(BEYOND));
    let text = reserved(BEYOND);
    let left = K::model(None, &given, K::needed(&three(), &given));
    for role in [3, 2, 0] {
        let lent = Lent {
            table: &mut table,
            tables: tables.lent(),
            found,
            frames,
            text,
        };
        let expected = if is_permitted::<K>(role) {
            left.answer
        } else {
            refused::<K>(&given).answer
        };
        assert_eq!(K::call(Some(role), &given, lent), expected);
    }
    assert!(table == left.table);
    tables.expect_front(&left.buffers);
    expect_front(found, &entries(&left.buffers.occurrences));
    expect_front(frames, &left.buffers.frames);
    expect_front(text, &left.text);
}

/// One table and one set of buffers through many calls of all five kinds, each by another role.
pub fn calls_by_changing_roles<T: RoleCalls>() {
    let mut random = Random::seeded(205);
    let rules = three();
    let mut given = good();
    let lengths = Lengths {
        tables: Some(needed(&rules).changed(|length| length + 300)),
        found: Some(14),
        frames: Some(12),
        text: Some(12),
    };
    let [held, _] = Held::fillings(&given.table, lengths);
    let mut day = Day {
        expected: held.clone(),
        held,
        lengths,
        seen: BTreeSet::new(),
    };
    for _ in 0..4_000 {
        let role = random.pick(&SOME_ROLES[..4]);
        match random.below(5) {
            0 => {
                let (n, own) = (random.below(13), random.picked(&[A, C], 13));
                given.text = own[..n].to_vec().into();
                day.call::<Convert<T>>(role, &mut given);
                // What a conversion left is put back later.
                let left = day.held.frames.lent();
                given.frames = left[..n].to_vec().into();
            }
            1 => day.call::<Restore<T>>(role, &mut given),
            2 => {
                given.number = random.below(5) as u32;
                given.position = random.below(13) as u32;
                day.call::<Explain<T>>(role, &mut given);
            }
            3 => day.call::<Price<T>>(role, &mut given),
            _ => {
                let m = random.below(5);
                given.number = random.between(1, 3) as u32;
                given.hold = random.below(m + 1) as u32;
                given.pattern = random.picked(&[A, C], m).into();
                day.call::<Edit<T>>(role, &mut given);
            }
        }
    }
    for column in 0..5 {
        let has = |status| day.seen.contains(&(column, status));
        assert!(has(0) && has(13), "{:?}", day.seen);
    }
}

/// A table and buffers that go from call to call, and what they are to hold.
struct Day {
    held: Held,
    expected: Held,
    lengths: Lengths,
    /// The columns of the calls made, with their statuses.
    seen: BTreeSet<(usize, u32)>,
}

impl Day {
    fn call<K: RoleCall>(&mut self, role: u32, given: &mut Given) {
        let left = K::model(Some(role), given, self.lengths);
        let context = || format!("role {role} after others, {}", given.shown());
        let answer = K::call(Some(role), given, self.held.lent());
        assert_eq!(answer, left.answer, "{}", context());
        self.expected = self.expected.clone().after(&left);
        self.held.expect(&self.expected, &context);
        self.seen.insert((K::COLUMN, K::status(answer)));
        given.table = left.table;
    }
}
