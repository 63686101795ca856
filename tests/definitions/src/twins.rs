//! Definitions that compute, each tied by promises to one that says its rule in words: they need not be believed.

use std::panic::Location;

/// This file.
pub const LIST: &str = "tests/definitions/src/twins.rs";

/// A computing definition, and the promises that say what it comes to.
#[derive(Debug, Clone, Copy)]
pub struct Twin {
    pub file: &'static str,
    pub name: &'static str,
    pub promises: &'static [&'static str],
    /// The line of this file that says so.
    pub line: u32,
}

#[track_caller]
const fn twin(file: &'static str, name: &'static str, promises: &'static [&'static str]) -> Twin {
    Twin { file, name, promises, line: Location::caller().line() }
}

const OPERATIONS: &str = "crates/answer/specs/Operations.antt";
const SEARCHING: &str = "crates/answer/specs/Searching.antt";
const QUERY: &str = "crates/query/specs/Reader.antt";
const PREPARING: &str = "crates/answer/specs/Preparing.antt";
const REPORT: &str = "crates/report/specs/Operation.antt";
const EXPLAIN: &str = "crates/explain/specs/Operation.antt";

/// All of them. What is behind one of them does not count as behind a statement that names it.
pub const TWINS: &[Twin] = &[
    twin(OPERATIONS, "check_answer", &["check_refused", "check_and_match"]),
    twin(OPERATIONS, "match_answer", &["match_refused", "match_verdict"]),
    twin(OPERATIONS, "select_answer", &["select_refused", "select-answered"]),
    twin(OPERATIONS, "select_cells", &["refusal_keeps_list", "select-answered"]),
    twin(SEARCHING, "check_search_answer", &["check_search_refused", "check_and_match_search"]),
    twin(SEARCHING, "match_search_answer", &["match_search_refused", "check_and_match_search"]),
    twin(SEARCHING, "select_search_answer", &["select_search_refused", "select_search_answered"]),
    twin(SEARCHING, "select_search_cells", &["search_refusal_keeps_list", "select_search_answered"]),
    twin(QUERY, "accept_query", &["query_read"]),
    twin(QUERY, "is_special", &["special_bytes"]),
    twin(QUERY, "cut_signs", &["alternatives_cut"]),
    twin(QUERY, "split_of", &["token-split"]),
    twin("crates/search/specs/Asking.antt", "takes_prefix", &["prefix_kinds"]),
    twin("crates/judge/specs/Sets.antt", "values_at", &["set_holds", "set_empty"]),
    twin("crates/judge/specs/Sets.antt", "of_occurrence", &["occurrence_holds"]),
    twin("crates/judge/specs/Faults.antt", "unsupported", &["unsupported_words"]),
    twin("crates/block/specs/Sum.antt", "check_sum", &["check_sum_places"]),
    twin("crates/number/specs/Reading.antt", "read", &["number_read"]),
    twin("crates/date/specs/Texts.antt", "read", &["date-read"]),
    twin("crates/period/specs/Texts.antt", "read", &["period-read"]),
    twin("crates/token/specs/Card.antt", "card_token", &["token-on-card"]),
    twin("crates/token/specs/Filter.antt", "filter_form", &["token_in_filter"]),
    twin("crates/token/specs/Match.antt", "matches", &["token_asked"]),
    twin(PREPARING, "prepare_answer", &["prepare_refused", "prepare_answered"]),
    twin(PREPARING, "prepare_cells", &["prepare_keeps_list", "prepare_answered"]),
    twin(PREPARING, "judge_answer", &["judge_refused", "judge_answered"]),
    twin("crates/rows/specs/Shapes.antt", "good", &["rows_good"]),
    twin("crates/rows/specs/Stated.antt", "tree_of", &["good_rows_state"]),
    twin(REPORT, "report_answer", &["report_refused", "report_answered"]),
    twin(REPORT, "report_rows", &["refusal_keeps_rows", "report_answered"]),
    twin("crates/report/specs/Tallies.antt", "tallies", &["row_in_words", "row_for_each"]),
    twin(EXPLAIN, "explain_answer", &["explain_refused", "explain_answered"]),
    twin(EXPLAIN, "explain_cells", &["refusal_keeps_cells", "explain_answered"]),
    twin("crates/deciding/specs/Marks.antt", "suffices", &["sufficing"]),
    twin("crates/deciding/specs/Marks.antt", "deciding", &["deciding_explains"]),
    twin("crates/sheet/specs/Sheet.antt", "read_sheet", &["sheet_read"]),
    twin("crates/card/specs/Card.antt", "read_card", &["card-read"]),
    twin("crates/syntax/specs/Reader.antt", "read", &["filter_read"]),
    twin("crates/kind/specs/Readable.antt", "card_readable", &["card_text_readable"]),
    twin("crates/kind/specs/Readable.antt", "value_readable", &["value-readable"]),
    twin("crates/kind/specs/Table.antt", "has_meaning", &["operator-has_meaning"]),
    twin("crates/kind/specs/Relations.antt", "relates_to", &["text_relates"]),
    twin("crates/kind/specs/Relations.antt", "dates_relate", &["dates-relate"]),
    twin("crates/date/specs/Arithmetic.antt", "before_by_number", &["days_before_month_lem"]),
    twin("crates/number/specs/Billionths.antt", "inside", &["number_held"]),
    twin("crates/sirophan/specs/Spelling.antt", "spell_answer", &["spell_refused", "spell_answered"]),
    twin("crates/sirophan/specs/Spelling.antt", "spell_bytes", &["refusal_keeps_buffer", "spell_answered"]),
    twin("crates/plain/specs/Plain.antt", "plain", &["plain-spelling", "spell_answered"]),
];
