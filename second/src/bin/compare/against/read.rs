//! Messages, their records and Hellos read, by their family and path and by
//! others.

use super::ffi::HelloAnswer;
use super::forms::{DESTINATION, EXCHANGED, FAMILY, LENGTH, RECORDS, SOURCE};
use super::lab::{Named, NEITHER};
use super::sources::Accepted;
use super::{calls, checksum, expect, make, places, Run};
use second::hello::read_hello;
use second::read::{self, Record};
use second::{Answer, Kind, Path, Refusal};

/// Kinds to read a record of, and numbers that are none.
const KINDS: [u8; 9] = [0, 1, 2, 3, 4, 5, 6, 7, 255];

pub fn compare(run: &mut Run) {
    let lab = run.lab;
    let small = make::small_messages(lab);
    let [first, _, all_ones] = lab.no_sources();
    let bad =
        [make::zero_sources(lab), make::with_source(lab, first), make::with_source(lab, all_ones)].concat();
    for m in small.iter().chain(&bad) {
        changed(run, m);
        cut(run, m);
        changed_and_cut(run, m);
        records(run, m);
    }
    sources(run);
    lengths(run);
    for _ in 0..11_000 * run.rounds {
        random(run);
    }
    for _ in 0..run.rounds {
        large(run);
    }
}

/// Each octet changed in turn, as it is and with a right checksum.
fn changed(run: &mut Run, m: &[u8]) {
    message(run, m);
    for at in 0..m.len() {
        for octet in make::other_values(&mut run.rng, m[at]) {
            let mut changed = m.to_vec();
            changed[at] = octet;
            // In IPv6, where messages are longer, one of four as it is.
            if run.lab.is_ipv4() || run.rng.one_in(4) {
                message(run, &changed);
            }
            message(run, &run.lab.sealed(&changed));
        }
    }
}

/// Cut at each octet, and with octets more.
fn cut(run: &mut Run, m: &[u8]) {
    for length in 0..m.len() {
        message(run, &m[..length]);
        message(run, &run.lab.sealed(&m[..length]));
    }
    for more in 1..9 {
        let long = [m, &make::octets(&mut run.rng, more)].concat();
        message(run, &long);
        message(run, &run.lab.sealed(&long));
    }
}

/// Each octet of the body changed, and cut at octets after it: a fault that is
/// found only where more octets are there, and one that goes before a cut. In
/// IPv6 it is every sixth length.
fn changed_and_cut(run: &mut Run, m: &[u8]) {
    let step = if run.lab.is_ipv4() { 1 } else { 6 };
    for at in 4..m.len() {
        for octet in [0, m[at] ^ 0x80] {
            let mut changed = m.to_vec();
            changed[at] = octet;
            for length in (at + 1 + run.below(step)..m.len()).step_by(step) {
                message(run, &run.lab.sealed(&changed[..length]));
            }
        }
    }
}

/// Each form of record with a source of each address, whole and cut.
fn sources(run: &mut Run) {
    let lab = run.lab;
    for m in lab.addresses().iter().flat_map(|address| make::with_source(lab, *address)) {
        message(run, &m);
        cut(run, &m);
        records(run, &m);
    }
}

/// A record of each kind at each place, and at places far past the end.
fn records(run: &mut Run, m: &[u8]) {
    let far = [m.len() + 100, 1 << 32, usize::MAX - 46, usize::MAX - 22, usize::MAX - 13, usize::MAX];
    let family = run.lab.family.number();
    for at in (0..=m.len() + 2).chain(far) {
        for kind in KINDS {
            if at < 12 || at > m.len() || run.rng.one_in(2) {
                record(run, family, kind, m, at);
            }
        }
    }
}

/// Lengths about the least and the greatest.
fn lengths(run: &mut Run) {
    for length in (0..9).chain([65_514, 65_515, 65_516, 65_536, 100_000]) {
        for (first, second) in
            [(0x20, 0), (0x25, 0), (0x25, 1), (0x25, 3), (0x2D, 0), (0x2D, 0x10), (0x35, 0)]
        {
            let mut m = vec![0; length];
            m.iter_mut().zip([first, second]).for_each(|(octet, value)| *octet = value);
            message(run, &m);
            message(run, &run.lab.sealed(&m));
        }
    }
}

/// Messages of any path.
fn random(run: &mut Run) {
    run.new_path();
    let lab = run.lab;
    for make in make::RANDOM {
        let m = make(lab, &mut run.rng);
        message(run, &m);
        let damaged = make::damaged(lab, &mut run.rng, &m);
        message(run, &damaged);
        let (kind, at) = (make::pick(&mut run.rng, &KINDS), run.below(m.len() + 2));
        record(run, lab.family.number(), kind, &m, at);
    }
    let small = make::small_messages(lab);
    let joined = [&small[run.below(small.len())][..], &small[run.below(small.len())][4..]].concat();
    message(run, &lab.sealed(&joined));
}

fn large(run: &mut Run) {
    let lab = run.lab;
    let large = make::large_messages(lab, &mut run.rng);
    for m in lab.no_sources().iter().flat_map(|address| make::last_source(lab, &large, *address)) {
        message(run, &m);
    }
    for m in large {
        message(run, &m);
        message(run, &lab.sealed(&[&m[..], &[0; 14]].concat()));
        for _ in 0..60 {
            let damaged = make::damaged(lab, &mut run.rng, &m);
            message(run, &damaged);
        }
    }
}

/// Every call that reads a message, told its family and path; and sometimes told
/// others.
pub fn message(run: &mut Run, m: &[u8]) {
    reading(run, run.lab.named(), m);
    if run.rng.one_in(12) {
        otherwise(run, m);
    }
}

/// A family that is none, the other one, or another path.
fn otherwise(run: &mut Run, m: &[u8]) {
    let (lab, named) = (run.lab, run.lab.named());
    let Path { source, destination } = lab.path;
    let bit = run.below(64);
    let (what, named, m) = match run.below(8) {
        0 | 1 => {
            let family = make::pick(&mut run.rng, &NEITHER);
            return reading(run, Named { family, ..named }, m);
        }
        2 => (FAMILY, lab.other().named(), m.to_vec()),
        3 => (RECORDS, lab.other().named(), lab.other().sealed(m)),
        4 => {
            let source = second::Address { low: source.low ^ 1 << bit, ..source };
            (SOURCE, Named { path: Path { source, destination }, ..named }, m.to_vec())
        }
        5 => {
            let destination = second::Address { high: destination.high ^ 1 << bit, ..destination };
            (DESTINATION, Named { path: Path { source, destination }, ..named }, m.to_vec())
        }
        6 => (
            EXCHANGED,
            Named { path: Path { source: destination, destination: source }, ..named },
            m.to_vec(),
        ),
        _ => (LENGTH, named, [m, &[0, 0]].concat()),
    };
    reading(run, named, &m);
    run.forms.path(what, named);
}

fn reading(run: &mut Run, named: Named, m: &[u8]) {
    checksum::both(run, named, m);
    header(run, named, m);
    hello(run, named, m);
    for kind in [1, 2, 4, 5] {
        let at = make::pick(&mut run.rng, &[4, 8]);
        record(run, named.family, kind, m, at);
    }
    let entries = named.answer(|family, path| read::read_asserts(family, path, m, &mut vec![0; 4 * m.len()]));
    for room in rooms(run, named.lab().map_or(0, |lab| lab.family.assert_entry()), &entries) {
        asserts(run, named, m, room);
    }
    let entries = named.answer(|family, path| read::read_pairs(family, path, m, &mut vec![0; m.len()]));
    for room in rooms(run, named.lab().map_or(0, |lab| lab.family.pair_entry()), &entries) {
        pairs(run, named, m, room);
    }
}

/// Rooms to try for a message: less, exactly enough and more.
fn rooms(run: &mut Run, size: usize, answer: &Answer<(Kind, usize)>) -> Vec<usize> {
    match answer {
        Ok((_, count)) => {
            let exact = size * count;
            vec![exact, exact - 1, exact + 1 + run.below(40), run.below(exact)]
        }
        Err(Refusal { .. }) => vec![run.below(100)],
    }
}

fn header(run: &mut Run, named: Named, m: &[u8]) {
    let lent = run.input("message", m);
    let numbers = format_args!("{named:?}");
    let second = named.answer(|family, path| read::header(family, path, m));
    let first = calls::header(named, &lent);
    run.tally.call("pim_header", numbers, &[&lent], &first, &expect::header(second));
    run.forms.named("pim_header", named.family);
    let body = named.answer(|family, path| Ok(read::body(family, path, m).len()));
    let (first, second) = (calls::body(named, &lent), body.unwrap_or(0));
    run.tally.call("pim_body", numbers, &[&lent], &first, &second);
    run.forms.named("pim_body", named.family);
}

/// What both answer.
pub fn hello(run: &mut Run, named: Named, m: &[u8]) -> HelloAnswer {
    let lent = run.input("message", m);
    let answer = named.answer(|family, path| read_hello(family, path, m));
    let (first, second) = (calls::read_hello(named, &lent), expect::hello(answer));
    run.tally.call("pim_read_hello", format_args!("{named:?}"), &[&lent], &first, &second);
    run.forms.named("pim_read_hello", named.family);
    if let Some(lab) = named.lab() {
        let again = |cut: &[u8]| read_hello(lab.family, lab.path, &lab.sealed(cut));
        places::claim(run, lab.family, &lent, &answer, |_| "option", again);
    }
    first
}

fn record(run: &mut Run, family: u8, kind: u8, octets: &[u8], at: usize) {
    let named = Named { family, path: Path::default() };
    let lent = run.input("octets", octets);
    let first = calls::read_record(family, kind, &lent, at);
    let second = read_record(named, octets, at, kind);
    let numbers = format_args!("family {family}, kind {kind}, at {at}");
    run.tally.call("pim_read_record", numbers, &[&lent], &first, &expect::record(second));
    run.forms.named("pim_read_record", family);
    if let Some(lab) = named.lab() {
        let again = |cut: &[u8]| read_record(named, cut, at, kind);
        places::claim(run, lab.family, &lent, &second, |_| places::in_single(kind), again);
    }
}

/// A record of a kind by its number; one that is no kind is not read.
fn read_record(named: Named, octets: &[u8], at: usize, kind: u8) -> Answer<(Record, usize)> {
    named.answer(|family, _| match Kind::from_number(kind) {
        Some(kind) => read::read_record(family, kind, octets, at),
        None => Err(Refusal { number: 4, place: 0, within: 0 }),
    })
}

/// The entries that both read.
pub fn asserts(run: &mut Run, named: Named, m: &[u8], room: usize) -> Vec<u8> {
    let lent = run.input("message", m);
    let mut entries = run.room("entries", room);
    let first = calls::read_asserts(named, &lent, &mut entries);
    let answer = named.answer(|family, path| read::read_asserts(family, path, m, entries.second_mut()));
    let second = expect::read(answer);
    let numbers = format_args!("{named:?}, room {room}");
    run.tally.call("pim_read_asserts", numbers, &[&lent, &entries], &first, &second);
    run.forms.named("pim_read_asserts", named.family);
    let Some(lab) = named.lab() else {
        return Vec::new();
    };
    let again = |cut: &[u8]| read::read_asserts(lab.family, lab.path, &lab.sealed(cut), &mut []);
    places::claim(run, lab.family, &lent, &answer, |refusal| places::in_assert(m, refusal), again);
    let size = lab.family.assert_entry();
    run.sources(lab.family).accepted(Accepted::Read, &entries.first()[..size * first.count], size);
    entries.first()[..size * first.count].to_vec()
}

pub fn pairs(run: &mut Run, named: Named, m: &[u8], room: usize) -> Vec<u8> {
    let lent = run.input("message", m);
    let mut entries = run.room("entries", room);
    let first = calls::read_pairs(named, &lent, &mut entries);
    let answer = named.answer(|family, path| read::read_pairs(family, path, m, entries.second_mut()));
    let second = expect::read(answer);
    let numbers = format_args!("{named:?}, room {room}");
    run.tally.call("pim_read_pairs", numbers, &[&lent, &entries], &first, &second);
    run.forms.named("pim_read_pairs", named.family);
    let Some(lab) = named.lab() else {
        return Vec::new();
    };
    let again = |cut: &[u8]| read::read_pairs(lab.family, lab.path, &lab.sealed(cut), &mut []);
    places::claim(run, lab.family, &lent, &answer, |_| places::in_pairs(m), again);
    let size = lab.family.pair_entry();
    run.sources(lab.family).accepted(Accepted::Read, &entries.first()[..size * first.count], size);
    entries.first()[..size * first.count].to_vec()
}
