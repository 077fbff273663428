//! The calls with IPv6 named, each with a path; and messages of IPv6 put
//! together from their parts.

use super::words;
use second::checksum::checksum_ipv6;
use second::hello::Hello;
use second::neighbours::{self, Neighbour, Table};
use second::read::{self, Record};
use second::rng::Rng;
use second::{brute, hello, pack, sheet};
use second::{Address, Answer, Family, Kind, Path};

const FAMILY: Family = Family::Ipv6;

/// The octets of an entry: of an assert, and of a pair.
pub const ASSERT_ENTRY: usize = 44;
pub const PAIR_ENTRY: usize = 36;

/// fe80::1 to ff02::d.
pub const PATH: Path = Path {
    source: Address { high: 0xFE80_0000_0000_0000, low: 1 },
    destination: Address { high: 0xFF02_0000_0000_0000, low: 0xD },
};

pub fn header(m: &[u8]) -> Answer<Kind> {
    read::header(FAMILY, PATH, m)
}

pub fn body(m: &[u8]) -> &[u8] {
    read::body(FAMILY, PATH, m)
}

pub fn read_record(octets: &[u8], at: usize, kind: Kind) -> Answer<(Record, usize)> {
    read::read_record(FAMILY, kind, octets, at)
}

pub fn read_asserts(m: &[u8], entries: &mut [u8]) -> Answer<(Kind, usize)> {
    read::read_asserts(FAMILY, PATH, m, entries)
}

pub fn read_pairs(m: &[u8], entries: &mut [u8]) -> Answer<(Kind, usize)> {
    read::read_pairs(FAMILY, PATH, m, entries)
}

pub fn read_hello(m: &[u8]) -> Answer<Hello> {
    hello::read_hello(FAMILY, PATH, m)
}

pub fn write_hello(said: Hello, buffer: &mut [u8]) -> Answer<usize> {
    hello::write_hello(FAMILY, PATH, said, buffer)
}

pub fn pack_assert(list: &[u8], start: usize, limit: usize, buffer: &mut [u8]) -> Answer<(usize, usize)> {
    pack::pack_assert(FAMILY, PATH, list, start, limit, buffer)
}

pub fn pack_simple(list: &[u8], start: usize, limit: usize, buffer: &mut [u8]) -> Answer<(usize, usize)> {
    pack::pack_simple(FAMILY, PATH, list, start, limit, buffer)
}

pub fn pack_aggregated(list: &[u8], start: usize, limit: usize, buffer: &mut [u8]) -> Answer<(usize, usize)> {
    pack::pack_aggregated(FAMILY, PATH, list, start, limit, buffer)
}

pub fn pack_null_register(
    list: &[u8],
    start: usize,
    limit: usize,
    buffer: &mut [u8],
) -> Answer<(usize, usize)> {
    pack::pack_null_register(FAMILY, PATH, list, start, limit, buffer)
}

pub fn pack_register_stop(
    list: &[u8],
    start: usize,
    limit: usize,
    buffer: &mut [u8],
) -> Answer<(usize, usize)> {
    pack::pack_register_stop(FAMILY, PATH, list, start, limit, buffer)
}

pub fn pack_both(
    list: &[u8],
    start: usize,
    limit: usize,
    simple: &mut [u8],
    aggregated: &mut [u8],
) -> Answer<(bool, usize, usize)> {
    pack::pack_both(FAMILY, PATH, list, start, limit, simple, aggregated)
}

pub fn least_messages(list: &[u8], limit: usize) -> Option<usize> {
    brute::least_messages(FAMILY, list, limit)
}

pub fn hear(table: Table, address: Address, said: Hello) -> Answer<Table> {
    neighbours::hear(FAMILY, table, address, said)
}

pub fn forget(table: Table, address: Address) -> Answer<Table> {
    neighbours::forget(FAMILY, table, address)
}

pub fn packing_allowed(table: &Table) -> Answer<bool> {
    neighbours::packing_allowed(FAMILY, table)
}

pub fn elect(table: &Table, address: Address, priority: u32) -> Answer<Address> {
    neighbours::elect(FAMILY, table, address, priority)
}

pub fn elect_among(rows: &[Neighbour]) -> Answer<Address> {
    neighbours::elect_among(rows)
}

pub fn check_sheet(octets: &[u8]) -> Answer<()> {
    sheet::check_sheet(FAMILY, octets).map(drop)
}

pub fn read_sheet(octets: &[u8], asserts: &mut [u8], pairs: &mut [u8]) -> Answer<(usize, usize, Table)> {
    sheet::read_sheet(FAMILY, octets, asserts, pairs)
}

pub fn write_sheet(asserts: &[u8], pairs: &[u8], table: &Table, buffer: &mut [u8]) -> Answer<usize> {
    sheet::write_sheet(FAMILY, asserts, pairs, table, buffer)
}

// ---- entries and messages put together

pub fn pair(group: u128, source: u128) -> Vec<u8> {
    [&[2, 0, 0, 0][..], &group.to_be_bytes(), &source.to_be_bytes()].concat()
}

pub fn entry(group: u128, source: u128, r_preference: u32, metric: u32) -> Vec<u8> {
    [pair(group, source), words(&[r_preference, metric])].concat()
}

pub fn encoded_group(group: u128) -> Vec<u8> {
    [&[2, 0, 0, 128][..], &group.to_be_bytes()].concat()
}

pub fn encoded_source(source: u128) -> Vec<u8> {
    [&[2, 0][..], &source.to_be_bytes()].concat()
}

pub fn pair_record(group: u128, source: u128) -> Vec<u8> {
    [encoded_group(group), encoded_source(source)].concat()
}

pub fn assert_record(group: u128, source: u128, r_preference: u32, metric: u32) -> Vec<u8> {
    [pair_record(group, source), words(&[r_preference, metric])].concat()
}

/// A number of fields and two reserved octets.
pub fn number(fields: usize) -> Vec<u8> {
    words(&[(fields as u32) << 16])
}

/// Sets the checksum of a message of at least 4 octets.
pub fn seal(message: &mut [u8]) {
    message[2..4].fill(0);
    let sum = checksum_ipv6(PATH, message);
    message[2..4].copy_from_slice(&sum.to_be_bytes());
}

pub fn message(first: u8, second: u8, body: &[u8]) -> Vec<u8> {
    let mut m = [&[first, second, 0, 0], body].concat();
    seal(&mut m);
    m
}

/// An assert entry from a small alphabet, so that neighbours often join; many
/// have source 0.
pub fn random_entry(rng: &mut Rng) -> Vec<u8> {
    let group = 0xFF3E << 112 | (1 + rng.below(2)) as u128;
    let preference = 100 + u32::from(rng.one_in(5));
    let metric = 20 + u32::from(rng.one_in(5));
    if rng.one_in(3) {
        entry(group, 0x2001_0DB8 << 96 | (1 + rng.below(2)) as u128, preference, metric)
    } else {
        let source = [0, 0, 0, 0x2001_0DB8 << 96 | 7][rng.below(4)];
        entry(group, source, super::R | preference, metric)
    }
}

pub fn random_entries(rng: &mut Rng, count: usize) -> Vec<u8> {
    let mut list: Vec<u8> = Vec::new();
    while list.len() < ASSERT_ENTRY * count {
        let next = random_entry(rng);
        for _ in 0..=rng.below(5) {
            list.extend_from_slice(&next);
        }
    }
    list.truncate(ASSERT_ENTRY * count);
    list
}

pub fn random_pairs(rng: &mut Rng, count: usize, least_source: u128) -> Vec<u8> {
    let group = |rng: &mut Rng| 0xFF << 120 | u128::from(rng.next_u64());
    (0..count).flat_map(|_| pair(group(rng), least_source + rng.below(9) as u128)).collect()
}
