//! The library's answers in the form of the C interface. A refused answer has
//! 0 in all other fields.

use super::ffi;
use second::counters::{Count, Counters};
use second::hello::Hello;
use second::neighbours::{Neighbour, Table};
use second::popcount::{Attribute, Own};
use second::read::Record;
use second::report::{Fraction, Report, Tally};
use second::{Address, Answer, Kind, Path, Refusal};
use std::cmp::Ordering;
use std::fmt::Debug;

/// What a call gives back. `None` where the call has no refusals.
pub trait Answered: PartialEq + Debug {
    fn number(&self) -> Option<u8> {
        None
    }
}

impl Answered for usize {}
impl Answered for u16 {}
impl Answered for u8 {}
impl Answered for ffi::Table {}
impl Answered for ffi::Counters {}
impl Answered for ffi::Tally {}
impl Answered for ffi::TallyAnswer {}
impl Answered for ffi::Fraction {}
impl Answered for ffi::ReportAnswer {}

impl Answered for ffi::Refusal {
    fn number(&self) -> Option<u8> {
        Some(self.number)
    }
}

/// An answer with a refusal in it.
pub trait Refused: Answered + Default {
    fn refused(refusal: ffi::Refusal) -> Self;
}

macro_rules! with_refusal {
    ($($name:ident)*) => {$(
        impl Answered for ffi::$name {
            fn number(&self) -> Option<u8> {
                Some(self.refusal.number)
            }
        }
        impl Refused for ffi::$name {
            fn refused(refusal: ffi::Refusal) -> Self {
                ffi::$name { refusal, ..Default::default() }
            }
        }
    )*};
}

with_refusal! {
    HeaderAnswer RecordAnswer ReadAnswer HelloAnswer PackAnswer ChoiceAnswer TableAnswer AllowedAnswer
    ElectAnswer PopcountReadAnswer LengthAnswer CheckAnswer SheetAnswer
}

pub fn address_form(address: Address) -> ffi::Address {
    ffi::Address { high: address.high, low: address.low }
}

pub fn path_form(path: Path) -> ffi::Path {
    ffi::Path { source: address_form(path.source), destination: address_form(path.destination) }
}

fn refusal(refusal: Refusal) -> ffi::Refusal {
    ffi::Refusal { number: refusal.number, place: refusal.place }
}

fn either<T, A: Refused>(answer: Answer<T>, accepted: impl FnOnce(T) -> A) -> A {
    match answer {
        Ok(given) => accepted(given),
        Err(why) => A::refused(refusal(why)),
    }
}

pub fn header(answer: Answer<Kind>) -> ffi::HeaderAnswer {
    either(answer, |kind| ffi::HeaderAnswer { kind: kind.number(), ..Default::default() })
}

pub fn record(answer: Answer<(Record, usize)>) -> ffi::RecordAnswer {
    either(answer, |(record, next)| match record {
        Record::Assert(a) => ffi::RecordAnswer {
            next,
            group: address_form(a.group),
            source: address_form(a.source),
            r_preference: a.r_preference,
            metric: a.metric,
            ..Default::default()
        },
        Record::Pair(pair) => ffi::RecordAnswer {
            next,
            group: address_form(pair.group),
            source: address_form(pair.source),
            is_pair: 1,
            ..Default::default()
        },
    })
}

pub fn read(answer: Answer<(Kind, usize)>) -> ffi::ReadAnswer {
    either(answer, |(kind, count)| ffi::ReadAnswer { count, kind: kind.number(), ..Default::default() })
}

pub fn hello(answer: Answer<Hello>) -> ffi::HelloAnswer {
    either(answer, |said| ffi::HelloAnswer { hello: said_form(said), ..Default::default() })
}

fn said_form(said: Hello) -> ffi::Hello {
    ffi::Hello {
        holdtime: said.holdtime,
        has_priority: u8::from(said.priority.is_some()),
        priority: said.priority.unwrap_or(0),
        packing: u8::from(said.packing),
    }
}

/// What the C form of a Hello says. A priority beside a flag of 0 is not
/// announced.
pub fn said(hello: ffi::Hello) -> Hello {
    Hello {
        holdtime: hello.holdtime,
        priority: (hello.has_priority != 0).then_some(hello.priority),
        packing: hello.packing != 0,
    }
}

pub fn pack(answer: Answer<(usize, usize)>) -> ffi::PackAnswer {
    either(answer, |(length, taken)| ffi::PackAnswer { length, taken, ..Default::default() })
}

pub fn choice(answer: Answer<(bool, usize, usize)>) -> ffi::ChoiceAnswer {
    either(answer, |(aggregated, length, taken)| ffi::ChoiceAnswer {
        length,
        taken,
        aggregated: u8::from(aggregated),
        ..Default::default()
    })
}

pub fn row_form(row: &Neighbour) -> ffi::Neighbour {
    ffi::Neighbour {
        address: address_form(row.address),
        priority: row.priority,
        has_priority: u8::from(row.has_priority),
        packs: u8::from(row.packs),
        holdtime: row.holdtime,
    }
}

pub fn table_form(table: &Table) -> ffi::Table {
    ffi::Table { rows: ffi::Rows(table.rows.map(|row| row_form(&row))), count: table.count }
}

/// The table comes back changed, or as it was.
pub fn table(before: &Table, answer: Answer<Table>) -> ffi::TableAnswer {
    match answer {
        Ok(after) => ffi::TableAnswer {
            table: table_form(&after),
            done: done(before.count, after.count),
            ..Default::default()
        },
        Err(why) => {
            ffi::TableAnswer { refusal: refusal(why), table: table_form(before), ..Default::default() }
        }
    }
}

/// 1 for a row replaced, 2 for one more row, 3 for one less.
fn done(before: usize, after: usize) -> u8 {
    match after.cmp(&before) {
        Ordering::Equal => 1,
        Ordering::Greater => 2,
        Ordering::Less => 3,
    }
}

pub fn allowed(answer: Answer<bool>) -> ffi::AllowedAnswer {
    either(answer, |allowed| ffi::AllowedAnswer { allowed: u8::from(allowed), ..Default::default() })
}

pub fn elected(answer: Answer<Address>) -> ffi::ElectAnswer {
    either(answer, |address| ffi::ElectAnswer { address: address_form(address), ..Default::default() })
}

fn totals(count: &Count) -> ffi::Totals {
    ffi::Totals { messages: count.messages, records: count.records }
}

fn by_kind(counts: &[Count; 6]) -> ffi::ByKind {
    ffi::ByKind {
        hello: totals(&counts[0]),
        assert: totals(&counts[1]),
        simple: totals(&counts[2]),
        aggregated: totals(&counts[3]),
        null_register: totals(&counts[4]),
        register_stop: totals(&counts[5]),
    }
}

pub fn counters_form(counters: &Counters) -> ffi::Counters {
    ffi::Counters { sent: by_kind(&counters.sent), received: by_kind(&counters.received) }
}

fn count(totals: &ffi::Totals) -> Count {
    Count { messages: totals.messages, records: totals.records }
}

fn counts_by_kind(form: &ffi::ByKind) -> [Count; 6] {
    let ffi::ByKind { hello, assert, simple, aggregated, null_register, register_stop } = form;
    [hello, assert, simple, aggregated, null_register, register_stop].map(count)
}

/// The counters that the C form holds.
pub fn counters(form: &ffi::Counters) -> Counters {
    Counters { sent: counts_by_kind(&form.sent), received: counts_by_kind(&form.received) }
}

/// The answer is the refusal itself; the counters are in lent memory.
pub fn counted(answer: Answer<()>) -> ffi::Refusal {
    answer.err().map(refusal).unwrap_or_default()
}

pub fn tally_form(tally: &Tally) -> ffi::Tally {
    ffi::Tally { accepted: by_kind(&tally.accepted), refused: tally.refused }
}

/// The tally that the C form holds.
pub fn tally(form: &ffi::Tally) -> Tally {
    Tally { accepted: counts_by_kind(&form.accepted), refused: form.refused }
}

pub fn tallied(tally: &Tally, used: usize) -> ffi::TallyAnswer {
    ffi::TallyAnswer { tally: tally_form(tally), used }
}

pub fn mean(mean: Fraction) -> ffi::Fraction {
    ffi::Fraction { numerator: mean.numerator, denominator: mean.denominator }
}

pub fn report(report: &Report) -> ffi::ReportAnswer {
    ffi::ReportAnswer {
        tally: tally_form(&report.tally),
        mean: mean(report.mean),
        whole: u8::from(report.whole),
    }
}

pub fn attribute(answer: Answer<(Attribute, usize)>) -> ffi::PopcountReadAnswer {
    either(answer, |(attribute, next)| ffi::PopcountReadAnswer {
        next,
        attribute: attribute_form(&attribute),
        ..Default::default()
    })
}

fn attribute_form(a: &Attribute) -> ffi::PopcountAttribute {
    ffi::PopcountAttribute {
        e: u8::from(a.e),
        mtu: a.mtu,
        flags: a.flags,
        options: a.options,
        values: ffi::PopcountValues {
            transit: a.transit.unwrap_or(0),
            stub: a.stub.unwrap_or(0),
            minimum_speed: a.least_speed.unwrap_or(0),
            maximum_speed: a.greatest_speed.unwrap_or(0),
            domain: a.domain.unwrap_or(0),
            node: a.node.unwrap_or(0),
            diameter: a.diameter.unwrap_or(0),
            time_zone: a.time_zone.unwrap_or(0),
        },
    }
}

pub fn own_form(own: &Own) -> ffi::PopcountOwn {
    ffi::PopcountOwn {
        mtu: own.mtu,
        flags: own.flags,
        transit: own.transit,
        stub: own.stub,
        minimum_speed: own.least_speed,
        maximum_speed: own.greatest_speed,
    }
}

/// 0 for less, 1 for equal, 2 for greater.
pub fn order(order: Ordering) -> u8 {
    match order {
        Ordering::Less => 0,
        Ordering::Equal => 1,
        Ordering::Greater => 2,
    }
}

pub fn length(answer: Answer<usize>) -> ffi::LengthAnswer {
    either(answer, |length| ffi::LengthAnswer { length, ..Default::default() })
}

fn counts(asserts: usize, pairs: usize, table: &Table) -> ffi::SheetCounts {
    ffi::SheetCounts { asserts, pairs, neighbours: table.count }
}

pub fn check(answer: Answer<[usize; 3]>) -> ffi::CheckAnswer {
    either(answer, |[asserts, pairs, neighbours]| ffi::CheckAnswer {
        counts: ffi::SheetCounts { asserts, pairs, neighbours },
        ..Default::default()
    })
}

/// A refused answer's table has no neighbours, so it is all 0 too.
pub fn sheet(answer: Answer<(usize, usize, Table)>) -> ffi::SheetAnswer {
    either(answer, |(asserts, pairs, table)| ffi::SheetAnswer {
        counts: counts(asserts, pairs, &table),
        table: table_form(&table),
        ..Default::default()
    })
}
