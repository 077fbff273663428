//! Files of messages reported: whole, cut and in pieces; messages and octets
//! counted onto any tally; and the mean of any tally.

use super::ffi::{self, TallyAnswer};
use super::lab::Lab;
use super::lent::Lent;
use super::sources::tallied;
use super::tally::{ALL_COUNTED, AS_READ, IN_PIECES, LEFT};
use super::{calls, expect, make, Run};
use second::read::{read_asserts, read_pairs};
use second::report::{add_message, add_octets, mean, report, Tally};
use second::{Answer, Family, Kind, Path, Refusal};
use std::fmt::Arguments;

/// What counting leaves at most: a length and a message without its last octet.
const LONGEST_LEFT: usize = 65_536;

pub fn compare(run: &mut Run) {
    run.tally.call(
        "pim_tally_none",
        format_args!("nothing"),
        &[],
        &calls::tally_none(),
        &expect::tally_form(&Tally::default()),
    );
    let lab = run.lab;
    let list = [make::small_messages(lab), make::zero_sources(lab), make::refused_messages(lab)].concat();
    let sources = lab.addresses().map(|address| make::with_source(lab, address)).concat();
    small_files(run, &list);
    small_files(run, &sources);
    lengths(run);
    messages(run, &list, 40);
    messages(run, &sources, 200);
    for _ in 0..3_000 * run.rounds {
        random(run, &list);
    }
    for _ in 0..run.rounds {
        large(run);
    }
    means(run);
}

// ---- files

/// Each message and the next one with a length 0 between, cut at every octet.
fn small_files(run: &mut Run, list: &[Vec<u8>]) {
    for (i, m) in list.iter().enumerate() {
        let next = &list[(i + 1) % list.len()];
        every_cut(run, &make::file(&[m.clone(), Vec::new(), next.clone()]));
    }
}

fn every_cut(run: &mut Run, octets: &[u8]) {
    for length in 0..=octets.len() {
        file(run, &octets[..length]);
    }
}

/// Lengths about the least and the greatest of a message, about the greatest of
/// one octet, and with their octets exchanged. A message follows; the file is
/// cut about the start and the end of the first.
fn lengths(run: &mut Run) {
    let short = (0..=16).chain(250..=260).chain([0x0104, 0x0401, 511, 512, 0x1000, 0x7FFF, 0x8000]);
    for length in short.chain(65_500..=65_535) {
        let octets = make::file(&[make::hello_of(run.lab, length), make::hello_of(run.lab, 4)]);
        for cut in [0, 1, 2, 3, length, length + 1, length + 2, length + 3, length + 4, length + 8] {
            file(run, &octets[..cut]);
        }
        let random = make::octets(&mut run.rng, length);
        file(run, &make::file(&[random, make::hello_of(run.lab, 8)]));
    }
}

/// Any file, whole, cut, damaged, in pieces and one message at a time; a short
/// one cut at every octet; and any octets.
fn random(run: &mut Run, list: &[Vec<u8>]) {
    let mut octets = make::any_file(run.lab, &mut run.rng, list, 12);
    file(run, &octets);
    pieces(run, &octets);
    one_by_one(run, &octets);
    let cut = run.below(octets.len() + 1);
    file(run, &octets[..cut]);
    if !octets.is_empty() {
        let at = run.below(octets.len());
        octets[at] = make::pick(&mut run.rng, &[0, 1, 2, 0x20, 0xE0, 0xFF]);
        file(run, &octets);
        pieces(run, &octets);
    }
    let short = make::any_file(run.lab, &mut run.rng, list, 4);
    every_cut(run, &short[..short.len().min(200)]);
    let length = run.below(60);
    let octets = make::octets(&mut run.rng, length);
    file(run, &octets);
}

/// The longest messages, and one that no length can say.
fn large(run: &mut Run) {
    let lab = run.lab;
    let mut list = make::large_messages(lab, &mut run.rng);
    list.extend([65_515, 65_516, 65_535].map(|length| make::hello_of(lab, length)));
    let octets = make::file(&list);
    file(run, &octets);
    file(run, &octets[..octets.len() - 1]);
    pieces(run, &octets);
    one_by_one(run, &octets);
    list.push(make::hello_of(lab, 65_536));
    for m in list {
        let before = any_tally(run);
        message(run, &before, &m);
    }
}

/// A file: its report, and its messages counted onto two tallies.
fn file(run: &mut Run, octets: &[u8]) {
    let lent = run.input("file", octets);
    let (first, second) = (calls::report(&lent), expect::report(&report(octets)));
    run.tally.call("pim_report", format_args!("a file"), &[&lent], &first, &second);

    let (messages, left) = split(octets);
    let tally = expect::tally(&first.tally);
    let holds = counted(&tally) == messages.len() as u64;
    run.tally.claim(ALL_COUNTED, format_args!("{} messages", messages.len()), &lent, holds);
    run.outcomes.count(&tally, left.len());

    count_octets(run, &calls::tally_none(), octets);
    let before = any_tally(run);
    count_octets(run, &before, octets);
}

/// The whole messages of a file, and what is left after them.
fn split(octets: &[u8]) -> (Vec<&[u8]>, &[u8]) {
    let mut messages = Vec::new();
    let mut rest = octets;
    while let [high, low, after @ ..] = rest {
        let length = 256 * usize::from(*high) + usize::from(*low);
        if after.len() < length {
            break;
        }
        messages.push(&after[..length]);
        rest = &after[length..];
    }
    (messages, rest)
}

/// The messages accepted, and those refused by a number that can refuse one.
fn counted(tally: &Tally) -> u64 {
    let accepted: u64 = tally.accepted.iter().map(|count| count.messages).sum();
    let refused: u64 = tally.refused[1..=7].iter().sum();
    accepted + refused + tally.refused[13]
}

/// A file in pieces, what is left of one standing before the next: the totals of
/// its report, and nothing left exactly if it is whole.
fn pieces(run: &mut Run, octets: &[u8]) {
    let most = if octets.len() < 10_000 {
        make::pick(&mut run.rng, &[1, 2, 3, 7, 40, 300])
    } else {
        make::pick(&mut run.rng, &[40_000, 65_536, 100_000])
    };
    let mut tally = calls::tally_none();
    let (mut left, mut rest) = (Vec::new(), octets);
    while !rest.is_empty() {
        let (piece, after) = rest.split_at(rest.len().min(1 + run.below(most)));
        left.extend_from_slice(piece);
        let answer = count_octets(run, &tally, &left);
        tally = answer.tally;
        left.drain(..answer.used);
        rest = after;
    }
    same_report(run, octets, &tally, &left, format_args!("pieces of {most} octets at most"));
}

/// A file's whole messages one at a time.
fn one_by_one(run: &mut Run, octets: &[u8]) {
    let (messages, left) = split(octets);
    let mut tally = calls::tally_none();
    for m in messages {
        tally = message(run, &tally, m);
    }
    same_report(run, octets, &tally, left, format_args!("one message at a time"));
}

/// Whether a file's report has the tally, and is whole exactly if nothing is left.
fn same_report(run: &mut Run, octets: &[u8], tally: &ffi::Tally, left: &[u8], numbers: Arguments) {
    let lent = run.input("file", octets);
    let report = calls::report(&lent);
    let holds = report.tally == *tally && report.whole == u8::from(left.is_empty());
    run.tally.claim(IN_PIECES, numbers, &lent, holds);
}

// ---- tallies

/// Any tally, its numbers mostly near their maximum.
fn any_tally(run: &mut Run) -> ffi::Tally {
    expect::tally_form(&make::tally(&mut run.rng))
}

/// Octets counted onto a tally; what both answer.
fn count_octets(run: &mut Run, before: &ffi::Tally, octets: &[u8]) -> TallyAnswer {
    let lent = run.input("octets", octets);
    let first = calls::tally_octets(*before, &lent);
    let mut tally = expect::tally(before);
    let used = add_octets(&mut tally, octets);
    let second = expect::tallied(&tally, used);
    run.tally.call("pim_tally_octets", format_args!("{before:?}"), &[&lent], &first, &second);
    let left = octets.len() - first.used;
    run.tally.claim(LEFT, format_args!("{left} octets left"), &lent, left <= LONGEST_LEFT);
    first
}

/// Each message, and damaged, onto so many tallies.
fn messages(run: &mut Run, list: &[Vec<u8>], tallies: usize) {
    for m in list {
        for _ in 0..tallies * run.rounds {
            let before = any_tally(run);
            message(run, &before, m);
            let damaged = make::damaged(run.lab, &mut run.rng, m);
            message(run, &before, &damaged);
        }
    }
}

/// One message more; what both answer.
fn message(run: &mut Run, before: &ffi::Tally, m: &[u8]) -> ffi::Tally {
    let lent = run.input("message", m);
    let first = calls::tally_message(*before, &lent);
    let mut tally = expect::tally(before);
    add_message(&mut tally, m);
    let second = expect::tally_form(&tally);
    run.tally.call("pim_tally_message", format_args!("{before:?}"), &[&lent], &first, &second);
    let holds = first == as_read(run, before, &lent);
    run.tally.claim(AS_READ, format_args!("{before:?}"), &lent, holds);
    first
}

/// The tally after a message that counts as its reading call answers.
fn as_read(run: &mut Run, before: &ffi::Tally, m: &Lent) -> ffi::Tally {
    let mut tally = expect::tally(before);
    match read(run, m) {
        (0, kind, records) => {
            let count = &mut tally.accepted[usize::from(kind)];
            count.messages = count.messages.saturating_add(1);
            count.records = count.records.saturating_add(records as u64);
        }
        (number, ..) => {
            let refused = &mut tally.refused[usize::from(number)];
            *refused = refused.saturating_add(1);
        }
    }
    expect::tally_form(&tally)
}

/// What the first implementation reads: the number of its refusal, the kind and
/// the number of records. There is room for all entries.
fn read(run: &mut Run, m: &Lent) -> (u8, u8, usize) {
    let named = Lab::of(Family::Ipv4).named();
    let header = calls::header(named, m);
    let (number, kind) = (header.refusal.number, header.kind);
    let mut entries = run.room("entries", 4 * m.length());
    match (number, kind) {
        (0, 0) => (calls::read_hello(named, m).refusal.number, kind, 0),
        (0, 1..=3) => {
            let answer = calls::read_asserts(named, m, &mut entries);
            at_fault(run, kind, m, read_asserts);
            (answer.refusal.number, answer.kind, answer.count)
        }
        (0, _) => {
            let answer = calls::read_pairs(named, m, &mut entries);
            at_fault(run, kind, m, read_pairs);
            (answer.refusal.number, answer.kind, answer.count)
        }
        _ => (number, 0, 0),
    }
}

type Read = fn(Family, Path, &[u8], &mut [u8]) -> Answer<(Kind, usize)>;

/// Counts the source for which a message is refused.
fn at_fault(run: &mut Run, kind: u8, m: &Lent, read: Read) {
    let (m, lab) = (m.second(), Lab::of(Family::Ipv4));
    if let Err(refusal @ Refusal { number: 7, .. }) = read(lab.family, lab.path, m, &mut []) {
        let again = |cut: &[u8]| read(lab.family, lab.path, &lab.sealed(cut), &mut []);
        run.sources(lab.family).field(&tallied(kind), m, &refusal, again);
    }
}

// ---- means

/// Sums of one form and another, in any parts; and tallies of any numbers, the
/// sums of which are mostly over the maximum.
fn means(run: &mut Run) {
    for sums in equal_sums().into_iter().chain(neighbouring_sums()) {
        for (messages, records) in [sums, (sums.1, sums.0)] {
            for _ in 0..20 {
                let tally = make::tally_of(&mut run.rng, messages, records);
                mean_of(run, &tally);
            }
        }
    }
    for _ in 0..10_000 * run.rounds {
        let tally = multiple_sums(run);
        mean_of(run, &tally);
        let tally = make::tally(&mut run.rng);
        mean_of(run, &tally);
    }
}

/// Each number with itself, with none, and with all others.
fn equal_sums() -> Vec<(u64, u64)> {
    let half = 1 << 63;
    let numbers = [0, 1, 2, 3, 6, 255, 256, 1 << 32, half - 1, half, half + 1, u64::MAX - 1, u64::MAX];
    numbers.iter().flat_map(|a| numbers.map(|b| (*a, b))).collect()
}

/// Each number of Fibonacci with the next one: the most divisions.
fn neighbouring_sums() -> Vec<(u64, u64)> {
    std::iter::successors(Some((1u64, 1u64)), |(a, b)| a.checked_add(*b).map(|sum| (*b, sum))).collect()
}

/// Sums that have a common divisor.
fn multiple_sums(run: &mut Run) -> Tally {
    let [a, b, divisor] = [run.rng.next_u32(), run.rng.next_u32(), run.rng.next_u32()].map(u64::from);
    let shift = run.below(32);
    let (a, b) = (a >> shift, b >> run.below(32));
    make::tally_of(&mut run.rng, a * divisor, b * divisor)
}

fn mean_of(run: &mut Run, tally: &Tally) {
    let first = calls::tally_mean(expect::tally_form(tally));
    let second = expect::mean(mean(tally));
    run.tally.call("pim_tally_mean", format_args!("{tally:?}"), &[], &first, &second);
}
