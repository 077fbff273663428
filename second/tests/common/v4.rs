//! The calls with IPv4 named, addresses as numbers of 32 bits. They are given a
//! path, which IPv4 ignores.

use second::hello::Hello;
use second::neighbours::{self, Neighbour, Table};
use second::read::{self, Record};
use second::{brute, hello, pack, sheet};
use second::{Address, Answer, Family, Kind, Path};

const FAMILY: Family = Family::Ipv4;

pub const PATH: Path = Path {
    source: Address { high: 0x0123_4567_89AB_CDEF, low: 0xFEDC_BA98_7654_3210 },
    destination: Address { high: 0xFF02_0000_0000_0000, low: 0x1111_0000_0000_000D },
};

pub fn header(m: &[u8]) -> Answer<Kind> {
    read::header(FAMILY, PATH, m)
}

pub fn body(m: &[u8]) -> &[u8] {
    read::body(FAMILY, PATH, m)
}

pub fn read_record(octets: &[u8], at: usize, kind: Kind) -> Answer<(Record, usize)> {
    read::read_record(FAMILY, kind, octets, at)
}

pub fn read_asserts(m: &[u8], entries: &mut [u8]) -> Answer<(Kind, usize)> {
    read::read_asserts(FAMILY, PATH, m, entries)
}

pub fn read_pairs(m: &[u8], entries: &mut [u8]) -> Answer<(Kind, usize)> {
    read::read_pairs(FAMILY, PATH, m, entries)
}

pub fn read_hello(m: &[u8]) -> Answer<Hello> {
    hello::read_hello(FAMILY, PATH, m)
}

pub fn write_hello(said: Hello, buffer: &mut [u8]) -> Answer<usize> {
    hello::write_hello(FAMILY, PATH, said, buffer)
}

pub fn pack_assert(list: &[u8], start: usize, limit: usize, buffer: &mut [u8]) -> Answer<(usize, usize)> {
    pack::pack_assert(FAMILY, PATH, list, start, limit, buffer)
}

pub fn pack_simple(list: &[u8], start: usize, limit: usize, buffer: &mut [u8]) -> Answer<(usize, usize)> {
    pack::pack_simple(FAMILY, PATH, list, start, limit, buffer)
}

pub fn pack_aggregated(list: &[u8], start: usize, limit: usize, buffer: &mut [u8]) -> Answer<(usize, usize)> {
    pack::pack_aggregated(FAMILY, PATH, list, start, limit, buffer)
}

pub fn pack_null_register(
    list: &[u8],
    start: usize,
    limit: usize,
    buffer: &mut [u8],
) -> Answer<(usize, usize)> {
    pack::pack_null_register(FAMILY, PATH, list, start, limit, buffer)
}

pub fn pack_register_stop(
    list: &[u8],
    start: usize,
    limit: usize,
    buffer: &mut [u8],
) -> Answer<(usize, usize)> {
    pack::pack_register_stop(FAMILY, PATH, list, start, limit, buffer)
}

pub fn pack_both(
    list: &[u8],
    start: usize,
    limit: usize,
    simple: &mut [u8],
    aggregated: &mut [u8],
) -> Answer<(bool, usize, usize)> {
    pack::pack_both(FAMILY, PATH, list, start, limit, simple, aggregated)
}

pub fn least_messages(list: &[u8], limit: usize) -> Option<usize> {
    brute::least_messages(FAMILY, list, limit)
}

pub fn hear(table: Table, address: u32, said: Hello) -> Answer<Table> {
    neighbours::hear(FAMILY, table, address.into(), said)
}

pub fn forget(table: Table, address: u32) -> Answer<Table> {
    neighbours::forget(FAMILY, table, address.into())
}

pub fn packing_allowed(table: &Table) -> Answer<bool> {
    neighbours::packing_allowed(FAMILY, table)
}

pub fn elect(table: &Table, address: u32, priority: u32) -> Answer<u32> {
    neighbours::elect(FAMILY, table, address.into(), priority).map(number)
}

pub fn elect_among(rows: &[Neighbour]) -> Answer<u32> {
    neighbours::elect_among(rows).map(number)
}

/// An address of 32 bits.
pub fn number(address: Address) -> u32 {
    assert_eq!((address.high, address.low >> 32), (0, 0));
    address.low as u32
}

pub fn check_sheet(octets: &[u8]) -> Answer<()> {
    sheet::check_sheet(FAMILY, octets).map(drop)
}

pub fn read_sheet(octets: &[u8], asserts: &mut [u8], pairs: &mut [u8]) -> Answer<(usize, usize, Table)> {
    sheet::read_sheet(FAMILY, octets, asserts, pairs)
}

pub fn write_sheet(asserts: &[u8], pairs: &[u8], table: &Table, buffer: &mut [u8]) -> Answer<usize> {
    sheet::write_sheet(FAMILY, asserts, pairs, table, buffer)
}
