//! Counts comparisons and refusals, and stops at the first difference.

use super::expect::Answered;
use super::forms::{Forms, COUNTED};
use super::lent::{Lent, Memory};
use super::sources::Sources;
use super::Run;
use crate::options::Options;
use std::fmt::{Arguments, Debug};
use std::process::{exit, ExitCode};

/// The calls of `pim.h`, in its order.
const CALLS: [&str; 36] = [
    "pim_header",
    "pim_body",
    "pim_read_record",
    "pim_read_asserts",
    "pim_read_pairs",
    "pim_read_hello",
    "pim_write_hello",
    "pim_pack_assert",
    "pim_pack_simple",
    "pim_pack_aggregated",
    "pim_pack_null_register",
    "pim_pack_register_stop",
    "pim_pack_both",
    "pim_table_empty",
    "pim_hear",
    "pim_forget",
    "pim_packing_allowed",
    "pim_elect",
    "pim_elect_among",
    "pim_counters_none",
    "pim_count",
    "pim_tally_none",
    "pim_tally_message",
    "pim_tally_octets",
    "pim_tally_mean",
    "pim_report",
    "pim_popcount_read",
    "pim_popcount_compare_speeds",
    "pim_popcount_merge",
    "pim_check_sheet",
    "pim_read_sheet",
    "pim_write_sheet",
    "pim_checksum",
    "pim_checksum_holds",
    "pim_checksum_ipv6",
    "pim_checksum_ipv6_holds",
];

// What is claimed of the first implementation beside the single calls: of its
// whole trains, of its Hellos, of its places, of its reports, and of its sheets.
pub const UNPACKED: &str = "train unpacks to its list";
pub const LEAST: &str = "train is the least (brute force)";
pub const LARGER_LIMIT: &str = "larger limit, no longer train";
pub const USUAL: &str = "limit 0 gives the train at 556";
pub const READ_BACK: &str = "Hello reads back as what was said";
pub const INSIDE: &str = "place in its record, or as it was";
pub const CUT: &str = "cut where that field begins: 6";
pub const AS_READ: &str = "counted as its reading call says";
pub const ALL_COUNTED: &str = "all messages accepted or refused";
pub const LEFT: &str = "65,536 octets left at most";
pub const IN_PIECES: &str = "file in pieces, the same report";
pub const FIRST_BAD: &str = "7 at the first bad entry, or none";
pub const SAME_ENTRIES: &str = "sheet read and written, the same";

const CLAIMS: [&str; 13] = [
    UNPACKED,
    LEAST,
    LARGER_LIMIT,
    USUAL,
    READ_BACK,
    INSIDE,
    CUT,
    AS_READ,
    ALL_COUNTED,
    LEFT,
    IN_PIECES,
    FIRST_BAD,
    SAME_ENTRIES,
];

const NUMBERS: usize = 14;
const COMPARISONS_LEAST: u64 = 200_000;
const OUTCOMES_LEAST: u64 = 500;
const SOURCES_LEAST: u64 = 100;
const FORMS_LEAST: u64 = 100;

pub struct Tally {
    options: Options,
    calls: [u64; CALLS.len()],
    claims: [u64; CLAIMS.len()],
    /// Accepted at 0, then by number of refusal.
    numbers: [u64; NUMBERS + 1],
    /// Calls that were lent NULL, with length 0.
    nulls: u64,
}

impl Tally {
    pub fn new(options: Options) -> Tally {
        let (calls, claims) = ([0; CALLS.len()], [0; CLAIMS.len()]);
        Tally { options, calls, claims, numbers: [0; NUMBERS + 1], nulls: 0 }
    }

    /// One call: both answers, and all memory lent to it.
    pub fn call<A: Answered>(
        &mut self,
        call: &'static str,
        numbers: Arguments,
        lent: &[&dyn Memory],
        first: &A,
        second: &A,
    ) {
        if first != second || !lent.iter().all(|lent| lent.same()) {
            self.differ(call, numbers, lent, first, second);
        }
        *slot(&CALLS, &mut self.calls, call) += 1;
        self.nulls += u64::from(lent.iter().any(|lent| lent.is_null()));
        if let Some(number) = first.number() {
            self.numbers[usize::from(number)] += 1;
        }
    }

    /// One claim about the train of a list, a Hello, a place, a report or a sheet.
    pub fn claim(&mut self, claim: &'static str, numbers: Arguments, lent: &Lent, holds: bool) {
        if !holds {
            self.differ(claim, numbers, &[lent], &"does not hold", &"holds");
        }
        *slot(&CLAIMS, &mut self.claims, claim) += 1;
    }

    /// Says what differs and ends the program.
    fn differ(
        &self,
        what: &str,
        numbers: Arguments,
        lent: &[&dyn Memory],
        first: &dyn Debug,
        second: &dyn Debug,
    ) -> ! {
        println!("difference: {what}");
        println!("input: {numbers}");
        for lent in lent {
            lent.describe();
        }
        println!("first answers:  {first:?}");
        println!("second answers: {second:?}");
        let Options { seed, rounds } = self.options;
        println!("repeat it with: compare --seed {seed} --rounds {rounds}");
        exit(1)
    }

    fn comparisons(&self) -> u64 {
        self.calls.iter().chain(&self.claims).sum()
    }

    /// Prints the tables; a failure if something was not compared.
    pub fn report(&self, run: &Run) -> ExitCode {
        print_rows(&CALLS, &self.calls);
        print_rows(&CLAIMS, &self.claims);
        println!("{:<34}{:>10}", "accepted", self.numbers[0]);
        for number in 1..=NUMBERS {
            println!("{:<34}{:>10}", format!("refusal {number}"), self.numbers[number]);
        }
        println!("{:<34}{:>10}", "calls lent NULL, with length 0", self.nulls);
        println!("{:<34}{:>10}", "faults at the rarest field", run.fields.least().1);
        for (outcome, count) in run.outcomes.rows() {
            println!("{outcome:<34}{count:>10}");
        }
        run.sources.iter().zip(["224/4", "ff00::/8"]).for_each(|(it, groups)| print_sources(it, groups));
        (0..COUNTED.len()).for_each(|table| print_counted(table, &run.forms));
        println!("{} comparisons, 0 differences", self.comparisons());
        let gaps = self.gaps(run);
        for gap in &gaps {
            println!("failed: {gap}");
        }
        if gaps.is_empty() {
            ExitCode::SUCCESS
        } else {
            ExitCode::FAILURE
        }
    }

    /// What should have been compared and was not.
    fn gaps(&self, run: &Run) -> Vec<String> {
        let calls = CALLS.iter().zip(&self.calls).chain(CLAIMS.iter().zip(&self.claims));
        let mut gaps: Vec<String> = calls
            .filter(|(_, count)| **count == 0)
            .map(|(call, _)| format!("{call} was never compared"))
            .collect();
        for number in (1..=NUMBERS).filter(|number| self.numbers[*number] == 0) {
            gaps.push(format!("refusal {number} never occurred"));
        }
        if let ((family, what, number, field), 0) = run.fields.least() {
            gaps.push(format!("{family:?}: refusal {number} never occurred at octet {field} of {what}"));
        }
        for (outcome, count) in run.outcomes.rows().iter().filter(|(_, count)| *count < OUTCOMES_LEAST) {
            gaps.push(format!("{outcome} came {count} times, fewer than {OUTCOMES_LEAST}"));
        }
        let of = |sources: &Sources| [sources.none_rows(), sources.accepted_rows()].concat();
        for (name, counts) in run.sources.iter().flat_map(of) {
            if counts.iter().any(|count| *count < SOURCES_LEAST) {
                gaps.push(format!("{name} came {counts:?} times, not each {SOURCES_LEAST} or more"));
            }
        }
        for (name, counts) in (0..COUNTED.len()).flat_map(|table| run.forms.rows(table)) {
            if counts.iter().any(|(_, count)| *count < FORMS_LEAST) {
                gaps.push(format!("{name} came {counts:?} times, not each {FORMS_LEAST} or more"));
            }
        }
        if self.nulls == 0 {
            gaps.push("NULL was never lent".to_string());
        }
        if self.comparisons() < COMPARISONS_LEAST {
            gaps.push(format!("fewer than {COMPARISONS_LEAST} comparisons"));
        }
        gaps
    }
}

fn slot<'a>(names: &[&str], counts: &'a mut [u64], name: &str) -> &'a mut u64 {
    let at = names.iter().position(|known| *known == name).expect("a name of the table");
    &mut counts[at]
}

fn print_rows(names: &[&str], counts: &[u64]) {
    for (name, count) in names.iter().zip(counts) {
        println!("{name:<34}{count:>10}");
    }
}

fn print_sources(sources: &Sources, groups: &str) {
    println!("{:<34}{:>10}{:>10}", "no source", groups, "all ones");
    print_columns(&sources.none_rows());
    println!("{:<34}{:>10}{:>10}{:>10}", "accepted", "read", "packed", "in sheets");
    print_columns(&sources.accepted_rows());
}

/// A column that does not have to come is left empty.
fn print_counted(table: usize, forms: &Forms) {
    let [name, columns @ ..] = COUNTED[table].heading;
    let cell = |text: &str| format!("{text:>10}");
    let line = |name: &str, cells: String| println!("{}", format!("{name:<34}{cells}").trim_end());
    line(name, columns.map(cell).concat());
    for (name, counts) in forms.rows(table) {
        let count = |at: usize| counts.iter().find(|(column, _)| *column == at);
        let cells =
            (0..columns.len()).map(|at| cell(&count(at).map_or_else(String::new, |(_, n)| n.to_string())));
        line(name, cells.collect());
    }
}

fn print_columns(rows: &[(String, Vec<u64>)]) {
    for (name, counts) in rows {
        let counts: String = counts.iter().map(|count| format!("{count:>10}")).collect();
        println!("{name:<34}{counts}");
    }
}
