//! What the tests share.
#![allow(dead_code)]

pub mod damage;
pub mod sheets;
pub mod v4;
pub mod v6;

use second::checksum::checksum;
use second::hello::Hello;
use second::rng::Rng;
use second::{Answer, Kind, Refusal};
use v4::*;

pub const R: u32 = 0x8000_0000;

/// The octets of an IPv4 entry: of an assert, and of a pair.
pub const ASSERT_ENTRY: usize = 20;
pub const PAIR_ENTRY: usize = 12;

/// What an IPv4 entry begins with: its family and three zeros.
pub const PREFIX: u32 = 0x0100_0000;

/// Sources about the borders of what is allowed: 0.0.0.1, 0.255.255.255,
/// 1.0.0.0, 223.255.255.255, 240.0.0.0, 240.0.0.1, 255.0.0.0, 255.255.255.254.
pub const EDGE_SOURCES: [u32; 8] =
    [1, 0x00FF_FFFF, 0x0100_0000, 0xDFFF_FFFF, 0xF000_0000, 0xF000_0001, 0xFF00_0000, 0xFFFF_FFFE];

/// Addresses that are no sources: 224.0.0.0, 224.0.0.1, 232.1.1.1,
/// 239.255.255.255, 255.255.255.255.
pub const NO_SOURCES: [u32; 5] = [0xE000_0000, 0xE000_0001, 0xE801_0101, 0xEFFF_FFFF, 0xFFFF_FFFF];

pub type Pack = fn(&[u8], usize, usize, &mut [u8]) -> Answer<(usize, usize)>;
pub type Read = fn(&[u8], &mut [u8]) -> Answer<(Kind, usize)>;

/// One way to pack and read back.
pub struct Form {
    pub kind: Kind,
    pub size: usize,
    pub pack: Pack,
    pub read: Read,
}

pub const ASSERT: Form =
    Form { kind: Kind::Assert, size: ASSERT_ENTRY, pack: pack_assert, read: read_asserts };
pub const SIMPLE: Form =
    Form { kind: Kind::Simple, size: ASSERT_ENTRY, pack: pack_simple, read: read_asserts };
pub const AGGREGATED: Form =
    Form { kind: Kind::Aggregated, size: ASSERT_ENTRY, pack: pack_aggregated, read: read_asserts };
pub const NULL_REGISTER: Form =
    Form { kind: Kind::NullRegister, size: PAIR_ENTRY, pack: pack_null_register, read: read_pairs };
pub const REGISTER_STOP: Form =
    Form { kind: Kind::RegisterStop, size: PAIR_ENTRY, pack: pack_register_stop, read: read_pairs };
pub const FORMS: [Form; 5] = [ASSERT, SIMPLE, AGGREGATED, NULL_REGISTER, REGISTER_STOP];

/// A refusal at the first octet of a record, option or attribute, or at none.
pub fn refusal<T>(number: u8, place: usize) -> Answer<T> {
    refusal_within(number, place, place)
}

/// A refusal at a field of the record, option or attribute at `within`.
pub fn refusal_within<T>(number: u8, place: usize, within: usize) -> Answer<T> {
    Err(Refusal { number, place, within })
}

pub fn hex(text: &str) -> Vec<u8> {
    let digits: Vec<u8> = text.bytes().filter(|c| !c.is_ascii_whitespace()).collect();
    let digit = |c: u8| (c as char).to_digit(16).unwrap() as u8;
    digits.chunks(2).map(|two| digit(two[0]) << 4 | digit(two[1])).collect()
}

pub fn entry(group: u32, source: u32, r_preference: u32, metric: u32) -> Vec<u8> {
    words(&[PREFIX, group, source, r_preference, metric])
}

pub fn pair(group: u32, source: u32) -> Vec<u8> {
    words(&[PREFIX, group, source])
}

/// Sets the checksum of a message of at least 4 octets.
pub fn seal(message: &mut [u8]) {
    message[2..4].fill(0);
    let sum = checksum(message);
    message[2..4].copy_from_slice(&sum.to_be_bytes());
}

pub fn message(first: u8, second: u8, body: &[u8]) -> Vec<u8> {
    let mut m = vec![first, second, 0, 0];
    m.extend_from_slice(body);
    seal(&mut m);
    m
}

pub fn encoded_group(group: u32) -> Vec<u8> {
    [&[1, 0, 0, 32][..], &group.to_be_bytes()].concat()
}

pub fn encoded_source(source: u32) -> Vec<u8> {
    [&[1, 0][..], &source.to_be_bytes()].concat()
}

/// An assert record as in a message.
pub fn assert_record(group: u32, source: u32, r_preference: u32, metric: u32) -> Vec<u8> {
    let numbers = [r_preference.to_be_bytes(), metric.to_be_bytes()].concat();
    [encoded_group(group), encoded_source(source), numbers].concat()
}

pub fn pair_record(group: u32, source: u32) -> Vec<u8> {
    [encoded_group(group), encoded_source(source)].concat()
}

pub fn words(numbers: &[u32]) -> Vec<u8> {
    numbers.iter().flat_map(|word| word.to_be_bytes()).collect()
}

/// A number of fields and its two reserved octets, which are ignored when read.
fn number(fields: usize) -> Vec<u8> {
    words(&[(fields as u32) << 16 | 0x0909])
}

pub fn source_aggregated(source: u32, groups: &[u32]) -> Vec<u8> {
    let fields: Vec<u8> = groups.iter().flat_map(|group| encoded_group(*group)).collect();
    [words(&[110, 20]), encoded_source(source), number(groups.len()), fields].concat()
}

pub fn rp_aggregated(group_records: &[Vec<u8>]) -> Vec<u8> {
    [words(&[R | 110, 20]), number(group_records.len()), group_records.concat()].concat()
}

pub fn group_record(group: u32, sources: &[u32]) -> Vec<u8> {
    let fields: Vec<u8> = sources.iter().flat_map(|source| encoded_source(*source)).collect();
    [encoded_group(group), number(sources.len()), fields].concat()
}

pub fn plain(record: Vec<u8>) -> Vec<u8> {
    message(0x25, 0, &record)
}

pub fn simple(records: &[Vec<u8>]) -> Vec<u8> {
    message(0x25, 1, &[vec![0; 4], records.concat()].concat())
}

pub fn aggregated(records: &[Vec<u8>]) -> Vec<u8> {
    message(0x25, 3, &[vec![0; 4], records.concat()].concat())
}

pub fn null_register(pairs: &[Vec<u8>]) -> Vec<u8> {
    message(0x2D, 0x00, &pairs.concat())
}

pub fn register_stop(pairs: &[Vec<u8>]) -> Vec<u8> {
    message(0x2D, 0x10, &pairs.concat())
}

/// Assert entries of one source, each with another group.
pub fn same_source(count: u32) -> Vec<u8> {
    (0..count).flat_map(|i| entry(0xE801_0101 + i, 0x0A00_0001, 110, 20)).collect()
}

/// An assert entry from a small alphabet, so that neighbours often join.
pub fn random_entry(rng: &mut Rng) -> Vec<u8> {
    let group = 0xE801_0101 + rng.below(2) as u32;
    let preference = 100 + u32::from(rng.one_in(5));
    let metric = 20 + u32::from(rng.one_in(5));
    if rng.one_in(2) {
        entry(group, 0x0A00_0001 + rng.below(2) as u32, preference, metric)
    } else {
        entry(group, rng.below(3) as u32, R | preference, metric)
    }
}

pub fn random_entries(rng: &mut Rng, count: usize) -> Vec<u8> {
    let mut list: Vec<u8> = Vec::new();
    while list.len() < ASSERT_ENTRY * count {
        let next = random_entry(rng);
        for _ in 0..=rng.below(3) {
            list.extend_from_slice(&next);
        }
    }
    list.truncate(ASSERT_ENTRY * count);
    list
}

pub fn random_pairs(rng: &mut Rng, count: usize, least_source: u32) -> Vec<u8> {
    (0..count)
        .flat_map(|_| pair(0xE000_0000 | rng.next_u32() >> 4, least_source + rng.below(9) as u32))
        .collect()
}

/// Hellos of all four shapes, their numbers at the edges of the fields; the
/// default holdtime too.
pub fn edge_hellos() -> Vec<Hello> {
    let priorities = [None, Some(0), Some(1), Some(u32::MAX)];
    let shapes = priorities.map(|priority| [(priority, false), (priority, true)]).concat();
    let of = |holdtime| shapes.iter().map(move |&(priority, packing)| Hello { holdtime, priority, packing });
    [0, 1, 105, 65_535].into_iter().flat_map(of).collect()
}

pub fn random_hello(rng: &mut Rng) -> Hello {
    let holdtime = rng.next_u32() as u16;
    let priority = rng.one_in(2).then(|| rng.next_u32());
    Hello { holdtime, priority, packing: rng.one_in(2) }
}
