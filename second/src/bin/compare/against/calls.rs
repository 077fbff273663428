//! The first implementation's calls on lent memory. `&mut` keeps written memory
//! apart from all other, as `pim.h` asks; its pointers are NULL only where the
//! length is 0.

use super::expect::path_form;
use super::ffi::*;
use super::lab::Named;
use super::lent::Lent;

pub fn header(named: Named, m: &Lent) -> HeaderAnswer {
    unsafe { pim_header(named.family, path_form(named.path), m.pointer(), m.length()) }
}

pub fn body(named: Named, m: &Lent) -> usize {
    unsafe { pim_body(named.family, path_form(named.path), m.pointer(), m.length()) }
}

pub fn read_record(family: u8, kind: u8, octets: &Lent, at: usize) -> RecordAnswer {
    unsafe { pim_read_record(family, kind, octets.pointer(), octets.length(), at) }
}

pub fn read_asserts(named: Named, m: &Lent, entries: &mut Lent) -> ReadAnswer {
    let (room, to) = (entries.length(), entries.pointer_mut());
    unsafe { pim_read_asserts(named.family, path_form(named.path), m.pointer(), m.length(), to, room) }
}

pub fn read_pairs(named: Named, m: &Lent, entries: &mut Lent) -> ReadAnswer {
    let (room, to) = (entries.length(), entries.pointer_mut());
    unsafe { pim_read_pairs(named.family, path_form(named.path), m.pointer(), m.length(), to, room) }
}

pub fn read_hello(named: Named, m: &Lent) -> HelloAnswer {
    unsafe { pim_read_hello(named.family, path_form(named.path), m.pointer(), m.length()) }
}

pub fn write_hello(named: Named, said: Hello, buffer: &mut Lent) -> LengthAnswer {
    let (room, to) = (buffer.length(), buffer.pointer_mut());
    unsafe { pim_write_hello(named.family, path_form(named.path), said, to, room) }
}

/// One of the packing calls.
pub fn pack(
    call: Pack,
    named: Named,
    list: &Lent,
    start: usize,
    limit: usize,
    buffer: &mut Lent,
) -> PackAnswer {
    let (room, to) = (buffer.length(), buffer.pointer_mut());
    let (entries, size) = (list.pointer(), list.length());
    unsafe { call(named.family, path_form(named.path), entries, size, start, limit, to, room) }
}

pub fn pack_both(
    named: Named,
    list: &Lent,
    start: usize,
    limit: usize,
    simple: &mut Lent,
    aggregated: &mut Lent,
) -> ChoiceAnswer {
    let (simple_room, simple) = (simple.length(), simple.pointer_mut());
    let (room, aggregated) = (aggregated.length(), aggregated.pointer_mut());
    let (entries, size, path) = (list.pointer(), list.length(), path_form(named.path));
    unsafe {
        pim_pack_both(named.family, path, entries, size, start, limit, simple, simple_room, aggregated, room)
    }
}

pub fn table_empty() -> Table {
    unsafe { pim_table_empty() }
}

pub fn hear(family: u8, table: Table, address: Address, said: Hello) -> TableAnswer {
    unsafe { pim_hear(family, table, address, said) }
}

pub fn forget(family: u8, table: Table, address: Address) -> TableAnswer {
    unsafe { pim_forget(family, table, address) }
}

pub fn packing_allowed(family: u8, table: Table) -> AllowedAnswer {
    unsafe { pim_packing_allowed(family, table) }
}

pub fn elect(family: u8, table: Table, address: Address, priority: u32) -> ElectAnswer {
    unsafe { pim_elect(family, table, address, priority) }
}

pub fn elect_among(rows: &Lent<Neighbour>) -> ElectAnswer {
    unsafe { pim_elect_among(rows.pointer(), rows.length()) }
}

pub fn counters_none() -> Counters {
    unsafe { pim_counters_none() }
}

/// The counters are one record.
pub fn count(counters: &mut Lent<Counters>, received: bool, kind: u8, records: u64) -> Refusal {
    assert_eq!(counters.length(), 1);
    unsafe { pim_count(counters.pointer_mut(), received, kind, records) }
}

pub fn tally_none() -> Tally {
    unsafe { pim_tally_none() }
}

pub fn tally_message(tally: Tally, m: &Lent) -> Tally {
    unsafe { pim_tally_message(tally, m.pointer(), m.length()) }
}

pub fn tally_octets(tally: Tally, octets: &Lent) -> TallyAnswer {
    unsafe { pim_tally_octets(tally, octets.pointer(), octets.length()) }
}

pub fn tally_mean(tally: Tally) -> Fraction {
    unsafe { pim_tally_mean(tally) }
}

pub fn report(file: &Lent) -> ReportAnswer {
    unsafe { pim_report(file.pointer(), file.length()) }
}

pub fn popcount_read(octets: &Lent, at: usize) -> PopcountReadAnswer {
    unsafe { pim_popcount_read(octets.pointer(), octets.length(), at) }
}

pub fn popcount_compare_speeds(a: u16, b: u16) -> u8 {
    unsafe { pim_popcount_compare_speeds(a, b) }
}

pub fn popcount_merge(own: PopcountOwn, e: bool, contributors: &Lent, buffer: &mut Lent) -> LengthAnswer {
    let (room, to) = (buffer.length(), buffer.pointer_mut());
    unsafe { pim_popcount_merge(own, e, contributors.pointer(), contributors.length(), to, room) }
}

pub fn check_sheet(family: u8, octets: &Lent) -> CheckAnswer {
    unsafe { pim_check_sheet(family, octets.pointer(), octets.length()) }
}

pub fn read_sheet(family: u8, octets: &Lent, asserts: &mut Lent, pairs: &mut Lent) -> SheetAnswer {
    let (assert_room, asserts) = (asserts.length(), asserts.pointer_mut());
    let (pair_room, pairs) = (pairs.length(), pairs.pointer_mut());
    let (sheet, n) = (octets.pointer(), octets.length());
    unsafe { pim_read_sheet(family, sheet, n, asserts, assert_room, pairs, pair_room) }
}

pub fn write_sheet(
    family: u8,
    asserts: &Lent,
    pairs: &Lent,
    table: Table,
    buffer: &mut Lent,
) -> LengthAnswer {
    let (assert_size, asserts) = (asserts.length(), asserts.pointer());
    let (pair_size, pairs) = (pairs.length(), pairs.pointer());
    let (room, to) = (buffer.length(), buffer.pointer_mut());
    unsafe { pim_write_sheet(family, asserts, assert_size, pairs, pair_size, table, to, room) }
}

pub fn checksum(m: &Lent) -> u16 {
    unsafe { pim_checksum(m.pointer(), m.length()) }
}

pub fn checksum_holds(m: &Lent) -> u8 {
    unsafe { pim_checksum_holds(m.pointer(), m.length()) }
}

pub fn checksum_ipv6(path: Path, m: &Lent) -> u16 {
    unsafe { pim_checksum_ipv6(path, m.pointer(), m.length()) }
}

pub fn checksum_ipv6_holds(path: Path, m: &Lent) -> u8 {
    unsafe { pim_checksum_ipv6_holds(path, m.pointer(), m.length()) }
}
