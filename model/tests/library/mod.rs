//! The library, written in Rattle, as an implementation of the calls that each suite asks for.

#[path = "../../library/ruffarmoire.rs"]
pub mod calls;

use ruffarmoire_model::answers::{
    Answer, ExplainAnswer, PriceAnswer, ReadAnswer, ReportAnswer, RulesAnswer, TurnAnswer,
    WriteAnswer,
};
use ruffarmoire_model::rules::TableBytes;

use crate::common::converter_suite::ConverterCalls;
use crate::common::explain_suite::ExplainCalls;
use crate::common::job_suite::JobCalls;
use crate::common::matcher_suite::MatcherCalls;
use crate::common::prepare_suite::PrepareCalls;
use crate::common::price_suite::PriceCalls;
use crate::common::report_suite::ReportCalls;
use crate::common::restore_suite::RestoreCalls;
use crate::common::roles_suite::RoleCalls;
use crate::common::rules_suite::RulesCalls;
use crate::common::table_buffers::LentTables;
use crate::common::turn_suite::TurnCalls;

pub struct Library;

impl JobCalls for Library {
    fn read_job(file: &[u8], pattern: &mut [u8], text: &mut [u8]) -> ReadAnswer {
        calls::read_job(file, pattern, text)
    }

    fn write_job(hold: u32, pattern: &[u8], text: &[u8], file: &mut [u8]) -> WriteAnswer {
        calls::write_job(hold, pattern, text, file)
    }
}

impl PrepareCalls for Library {
    fn prepare(pattern: &[u8], tables: LentTables) -> Answer {
        let LentTables {
            order,
            delta2,
            delta1,
            delta3,
        } = tables;
        calls::prepare(pattern, order, delta2, delta1, delta3)
    }
}

impl MatcherCalls for Library {
    fn search(pattern: &[u8], text: &[u8], tables: LentTables, found: &mut [u16]) -> Answer {
        let LentTables {
            order,
            delta2,
            delta1,
            delta3,
        } = tables;
        calls::search(pattern, text, order, delta2, delta1, delta3, found)
    }
}

impl ConverterCalls for Library {
    fn convert(
        hold: u32,
        pattern: &[u8],
        text: &[u8],
        tables: LentTables,
        found: &mut [u16],
        frames: &mut [u16],
    ) -> Answer {
        let LentTables {
            order,
            delta2,
            delta1,
            delta3,
        } = tables;
        calls::convert(
            hold, pattern, text, order, delta2, delta1, delta3, found, frames,
        )
    }

    fn count_ones(text: &[u8]) -> Answer {
        calls::count_ones(text)
    }
}

impl ReportCalls for Library {
    fn seek_report(file: &[u8], out: &mut [u8]) -> ReportAnswer {
        calls::seek_report(file, out)
    }
}

impl TurnCalls for Library {
    fn turn(
        way: u32,
        hold: u32,
        pattern: &[u8],
        text: &[u8],
        turned_pattern: &mut [u8],
        turned_text: &mut [u8],
    ) -> TurnAnswer {
        calls::turn(way, hold, pattern, text, turned_pattern, turned_text)
    }
}

impl RestoreCalls for Library {
    fn restore(hold: u32, pattern: &[u8], frames: &[u16], text: &mut [u8]) -> Answer {
        calls::restore(hold, pattern, frames, text)
    }
}

impl PriceCalls for Library {
    fn price(
        hold: u32,
        pattern: &[u8],
        text: &[u8],
        tables: LentTables,
        found: &mut [u16],
    ) -> PriceAnswer {
        let LentTables {
            order,
            delta2,
            delta1,
            delta3,
        } = tables;
        calls::price(hold, pattern, text, order, delta2, delta1, delta3, found)
    }
}

impl ExplainCalls for Library {
    fn explain(position: u32, pattern: &[u8], text: &[u8], tables: LentTables) -> ExplainAnswer {
        let LentTables {
            order,
            delta2,
            delta1,
            delta3,
        } = tables;
        calls::explain(position, pattern, text, order, delta2, delta1, delta3)
    }
}

impl RulesCalls for Library {
    fn search_rules(
        rules: &TableBytes,
        text: &[u8],
        tables: LentTables,
        found: &mut [u16],
    ) -> RulesAnswer {
        let LentTables {
            order,
            delta2,
            delta1,
            delta3,
        } = tables;
        calls::search_rules(rules, text, order, delta2, delta1, delta3, found)
    }

    fn convert_rules(
        rules: &TableBytes,
        text: &[u8],
        tables: LentTables,
        found: &mut [u16],
        frames: &mut [u16],
    ) -> RulesAnswer {
        let LentTables {
            order,
            delta2,
            delta1,
            delta3,
        } = tables;
        calls::convert_rules(rules, text, order, delta2, delta1, delta3, found, frames)
    }

    fn price_rules(
        rules: &TableBytes,
        text: &[u8],
        tables: LentTables,
        found: &mut [u16],
    ) -> PriceAnswer {
        let LentTables {
            order,
            delta2,
            delta1,
            delta3,
        } = tables;
        calls::price_rules(rules, text, order, delta2, delta1, delta3, found)
    }

    fn restore_rules(rules: &TableBytes, frames: &[u16], text: &mut [u8]) -> Answer {
        calls::restore_rules(rules, frames, text)
    }

    fn explain_rule(
        number: u32,
        position: u32,
        rules: &TableBytes,
        text: &[u8],
        tables: LentTables,
    ) -> ExplainAnswer {
        let LentTables {
            order,
            delta2,
            delta1,
            delta3,
        } = tables;
        calls::explain_rule(number, position, rules, text, order, delta2, delta1, delta3)
    }

    fn edit_rule(number: u32, hold: u32, pattern: &[u8], rules: &mut TableBytes) -> Answer {
        calls::edit_rule(number, hold, pattern, rules)
    }
}

impl RoleCalls for Library {
    fn convert_as(
        role: u32,
        rules: &TableBytes,
        text: &[u8],
        tables: LentTables,
        found: &mut [u16],
        frames: &mut [u16],
    ) -> RulesAnswer {
        let LentTables {
            order,
            delta2,
            delta1,
            delta3,
        } = tables;
        calls::convert_as(
            role, rules, text, order, delta2, delta1, delta3, found, frames,
        )
    }

    fn restore_as(role: u32, rules: &TableBytes, frames: &[u16], text: &mut [u8]) -> Answer {
        calls::restore_as(role, rules, frames, text)
    }

    fn explain_as(
        role: u32,
        number: u32,
        position: u32,
        rules: &TableBytes,
        text: &[u8],
        tables: LentTables,
    ) -> ExplainAnswer {
        let LentTables {
            order,
            delta2,
            delta1,
            delta3,
        } = tables;
        calls::explain_as(
            role, number, position, rules, text, order, delta2, delta1, delta3,
        )
    }

    fn price_as(
        role: u32,
        rules: &TableBytes,
        text: &[u8],
        tables: LentTables,
        found: &mut [u16],
    ) -> PriceAnswer {
        let LentTables {
            order,
            delta2,
            delta1,
            delta3,
        } = tables;
        calls::price_as(role, rules, text, order, delta2, delta1, delta3, found)
    }

    fn edit_as(
        role: u32,
        number: u32,
        hold: u32,
        pattern: &[u8],
        rules: &mut TableBytes,
    ) -> Answer {
        calls::edit_as(role, number, hold, pattern, rules)
    }
}
