//! The benchmark's plain Rust versions keep the same contracts as the library's calls.

#[macro_use]
mod common;

#[path = "../examples/bench/baseline/mod.rs"]
mod baseline;

use common::converter_suite::ConverterCalls;
use common::explain_suite::ExplainCalls;
use common::job_suite::JobCalls;
use common::matcher_suite::MatcherCalls;
use common::prepare_suite::PrepareCalls;
use common::price_suite::PriceCalls;
use common::report_suite::ReportCalls;
use common::restore_suite::RestoreCalls;
use common::roles_suite::RoleCalls;
use common::rules_suite::RulesCalls;
use common::searches;
use common::table_buffers::{entries, LentTables};
use common::turn_suite::TurnCalls;
use common::{repeats, rings};
use ruffarmoire_model::answers::{
    Answer, ExplainAnswer, PriceAnswer, ReadAnswer, ReportAnswer, RulesAnswer, TurnAnswer,
    WriteAnswer,
};
use ruffarmoire_model::convert;
use ruffarmoire_model::rules::TableBytes;

struct Baseline;

impl JobCalls for Baseline {
    fn read_job(file: &[u8], pattern: &mut [u8], text: &mut [u8]) -> ReadAnswer {
        baseline::job::read_job(file, pattern, text)
    }

    fn write_job(hold: u32, pattern: &[u8], text: &[u8], file: &mut [u8]) -> WriteAnswer {
        baseline::job::write_job(hold, pattern, text, file)
    }
}

impl PrepareCalls for Baseline {
    fn prepare(pattern: &[u8], tables: LentTables) -> Answer {
        let LentTables {
            order,
            delta2,
            delta1,
            delta3,
        } = tables;
        baseline::tables::prepare(pattern, order, delta2, delta1, delta3)
    }
}

/// With Δ1 by document 002's listing.
struct AsListed;

impl PrepareCalls for AsListed {
    fn prepare(pattern: &[u8], tables: LentTables) -> Answer {
        let LentTables {
            order,
            delta2,
            delta1,
            delta3,
        } = tables;
        baseline::tables::prepare_as_listed(pattern, order, delta2, delta1, delta3)
    }
}

impl MatcherCalls for Baseline {
    fn search(pattern: &[u8], text: &[u8], tables: LentTables, found: &mut [u16]) -> Answer {
        let LentTables {
            order,
            delta2,
            delta1,
            delta3,
        } = tables;
        baseline::matcher::search(pattern, text, order, delta2, delta1, delta3, found)
    }
}

impl ConverterCalls for Baseline {
    fn convert(
        hold: u32,
        pattern: &[u8],
        text: &[u8],
        tables: LentTables,
        found: &mut [u16],
        frames: &mut [u16],
    ) -> Answer {
        let LentTables {
            order,
            delta2,
            delta1,
            delta3,
        } = tables;
        baseline::converter::convert(
            hold, pattern, text, order, delta2, delta1, delta3, found, frames,
        )
    }

    fn count_ones(text: &[u8]) -> Answer {
        baseline::converter::count_ones(text)
    }
}

impl ReportCalls for Baseline {
    fn seek_report(file: &[u8], out: &mut [u8]) -> ReportAnswer {
        baseline::report::seek_report(file, out)
    }
}

impl TurnCalls for Baseline {
    fn turn(
        way: u32,
        hold: u32,
        pattern: &[u8],
        text: &[u8],
        turned_pattern: &mut [u8],
        turned_text: &mut [u8],
    ) -> TurnAnswer {
        baseline::turn::turn(way, hold, pattern, text, turned_pattern, turned_text)
    }
}

impl RestoreCalls for Baseline {
    fn restore(hold: u32, pattern: &[u8], frames: &[u16], text: &mut [u8]) -> Answer {
        baseline::restore::restore(hold, pattern, frames, text)
    }
}

impl PriceCalls for Baseline {
    fn price(
        hold: u32,
        pattern: &[u8],
        text: &[u8],
        tables: LentTables,
        found: &mut [u16],
    ) -> PriceAnswer {
        let LentTables {
            order,
            delta2,
            delta1,
            delta3,
        } = tables;
        baseline::price::price(hold, pattern, text, order, delta2, delta1, delta3, found)
    }
}

impl ExplainCalls for Baseline {
    fn explain(position: u32, pattern: &[u8], text: &[u8], tables: LentTables) -> ExplainAnswer {
        let LentTables {
            order,
            delta2,
            delta1,
            delta3,
        } = tables;
        baseline::explain::explain(position, pattern, text, order, delta2, delta1, delta3)
    }
}

impl RulesCalls for Baseline {
    fn search_rules(
        rules: &TableBytes,
        text: &[u8],
        tables: LentTables,
        found: &mut [u16],
    ) -> RulesAnswer {
        let LentTables {
            order,
            delta2,
            delta1,
            delta3,
        } = tables;
        baseline::rules::search_rules(rules, text, order, delta2, delta1, delta3, found)
    }

    fn convert_rules(
        rules: &TableBytes,
        text: &[u8],
        tables: LentTables,
        found: &mut [u16],
        frames: &mut [u16],
    ) -> RulesAnswer {
        let LentTables {
            order,
            delta2,
            delta1,
            delta3,
        } = tables;
        baseline::rules::convert_rules(rules, text, order, delta2, delta1, delta3, found, frames)
    }

    fn price_rules(
        rules: &TableBytes,
        text: &[u8],
        tables: LentTables,
        found: &mut [u16],
    ) -> PriceAnswer {
        let LentTables {
            order,
            delta2,
            delta1,
            delta3,
        } = tables;
        baseline::rules::price_rules(rules, text, order, delta2, delta1, delta3, found)
    }

    fn restore_rules(rules: &TableBytes, frames: &[u16], text: &mut [u8]) -> Answer {
        baseline::rules::restore_rules(rules, frames, text)
    }

    fn explain_rule(
        number: u32,
        position: u32,
        rules: &TableBytes,
        text: &[u8],
        tables: LentTables,
    ) -> ExplainAnswer {
        let LentTables {
            order,
            delta2,
            delta1,
            delta3,
        } = tables;
        baseline::rules::explain_rule(number, position, rules, text, order, delta2, delta1, delta3)
    }

    fn edit_rule(number: u32, hold: u32, pattern: &[u8], rules: &mut TableBytes) -> Answer {
        baseline::rules::edit_rule(number, hold, pattern, rules)
    }
}

impl RoleCalls for Baseline {
    fn convert_as(
        role: u32,
        rules: &TableBytes,
        text: &[u8],
        tables: LentTables,
        found: &mut [u16],
        frames: &mut [u16],
    ) -> RulesAnswer {
        let LentTables {
            order,
            delta2,
            delta1,
            delta3,
        } = tables;
        baseline::roles::convert_as(
            role, rules, text, order, delta2, delta1, delta3, found, frames,
        )
    }

    fn restore_as(role: u32, rules: &TableBytes, frames: &[u16], text: &mut [u8]) -> Answer {
        baseline::roles::restore_as(role, rules, frames, text)
    }

    fn explain_as(
        role: u32,
        number: u32,
        position: u32,
        rules: &TableBytes,
        text: &[u8],
        tables: LentTables,
    ) -> ExplainAnswer {
        let LentTables {
            order,
            delta2,
            delta1,
            delta3,
        } = tables;
        baseline::roles::explain_as(
            role, number, position, rules, text, order, delta2, delta1, delta3,
        )
    }

    fn price_as(
        role: u32,
        rules: &TableBytes,
        text: &[u8],
        tables: LentTables,
        found: &mut [u16],
    ) -> PriceAnswer {
        let LentTables {
            order,
            delta2,
            delta1,
            delta3,
        } = tables;
        baseline::roles::price_as(role, rules, text, order, delta2, delta1, delta3, found)
    }

    fn edit_as(
        role: u32,
        number: u32,
        hold: u32,
        pattern: &[u8],
        rules: &mut TableBytes,
    ) -> Answer {
        baseline::roles::edit_as(role, number, hold, pattern, rules)
    }
}

mod job {
    job_suite!(crate::Baseline);
}

mod prepare {
    prepare_suite!(crate::Baseline);
}

mod prepare_as_listed {
    tests_of!(prepare_suite, crate::AsListed:
        worked_examples,
        all_short_patterns,
        structured_patterns,
        long_repeats,
        longest_patterns,
    );
}

mod matcher {
    matcher_suite!(crate::Baseline);
}

mod converter {
    converter_suite!(crate::Baseline);
}

mod report {
    report_suite!(crate::Baseline);
}

mod turn {
    turn_suite!(crate::Baseline);
}

mod restore {
    restore_suite!(crate::Baseline);
}

mod price {
    price_suite!(crate::Baseline);
}

mod explain {
    explain_suite!(crate::Baseline);
}

mod rules {
    rules_suite!(crate::Baseline);
}

mod restore_rules {
    restore_rules_suite!(crate::Baseline);
}

mod explain_rule {
    explain_rule_suite!(crate::Baseline);
}

mod edit_rule {
    edit_rule_suite!(crate::Baseline);
}

mod roles {
    roles_suite!(crate::Baseline);
}

/// What `memmem` and the plain scan find.
#[test]
fn occurrences_alone() {
    let all = searches::short()
        .chain(searches::longer())
        .chain(searches::structured())
        .chain(searches::about_as_long())
        .chain(repeats::mixed())
        .chain(rings::short())
        .chain(rings::longer())
        .chain(rings::largest());
    for (pattern, text) in all {
        let expected = entries(&convert::occurrences(&pattern, &text));
        let mut found = vec![0; text.len()];
        let count = baseline::matcher::occurrences_by_memmem(&pattern, &text, &mut found);
        assert_eq!(found[..count], expected);
        found.fill(0);
        let count = baseline::matcher::occurrences_by_scan(&pattern, &text, &mut found);
        assert_eq!(found[..count], expected);
    }
}
