//! The archive's functions, declared as in include/pim.h, each behind a safe function over slices.

use second::Family;

#[repr(C)]
#[derive(Clone, Copy, Debug, Default, PartialEq, Eq)]
pub struct Address {
    pub high: u64,
    pub low: u64,
}

impl From<second::Address> for Address {
    fn from(address: second::Address) -> Address {
        Address { high: address.high, low: address.low }
    }
}

#[repr(C)]
#[derive(Clone, Copy)]
pub struct Path {
    pub source: Address,
    pub destination: Address,
}

impl From<second::Path> for Path {
    fn from(path: second::Path) -> Path {
        Path { source: path.source.into(), destination: path.destination.into() }
    }
}

#[repr(C)]
#[derive(Clone, Copy, Debug, Default, PartialEq, Eq)]
pub struct Refusal {
    pub number: u8,
    pub place: usize,
}

#[repr(C)]
pub struct LengthAnswer {
    pub refusal: Refusal,
    pub length: usize,
}

#[repr(C)]
pub struct ReadAnswer {
    pub refusal: Refusal,
    pub count: usize,
    pub kind: u8,
}

#[repr(C)]
pub struct PackAnswer {
    pub refusal: Refusal,
    pub length: usize,
    pub taken: usize,
}

#[repr(C)]
#[derive(Clone, Copy, Debug, PartialEq, Eq)]
pub struct Hello {
    pub holdtime: u16,
    pub has_priority: bool,
    pub priority: u32,
    pub packing: bool,
}

#[repr(C)]
pub struct HelloAnswer {
    pub refusal: Refusal,
    pub hello: Hello,
}

pub const ROWS: usize = 64;

#[repr(C)]
#[derive(Clone, Copy, Debug, Default, PartialEq, Eq)]
pub struct Neighbour {
    pub address: Address,
    pub priority: u32,
    pub has_priority: bool,
    pub packs: bool,
    pub holdtime: u16,
}

#[repr(C)]
#[derive(Clone, Copy, Debug, PartialEq, Eq)]
pub struct Table {
    pub rows: [Neighbour; ROWS],
    pub count: usize,
}

/// What was done is not looked at here.
#[repr(C)]
pub struct TableAnswer {
    pub refusal: Refusal,
    pub table: Table,
    _done: u8,
}

#[repr(C)]
#[derive(Debug, PartialEq, Eq)]
pub struct AllowedAnswer {
    pub refusal: Refusal,
    pub allowed: bool,
}

#[repr(C)]
#[derive(Debug, PartialEq, Eq)]
pub struct ElectAnswer {
    pub refusal: Refusal,
    pub address: Address,
}

#[repr(C)]
#[derive(Clone, Copy)]
pub struct PopcountOwn {
    pub mtu: u16,
    pub flags: u16,
    pub transit: u32,
    pub stub: u32,
    pub minimum_speed: u16,
    pub maximum_speed: u16,
}

/// The attribute is not looked at here.
#[repr(C)]
pub struct PopcountReadAnswer {
    pub refusal: Refusal,
    _next: usize,
    _attribute: [u32; 6],
}

#[repr(C)]
#[derive(Clone, Copy, Debug, PartialEq, Eq)]
pub struct SheetCounts {
    pub asserts: usize,
    pub pairs: usize,
    pub neighbours: usize,
}

#[repr(C)]
pub struct CheckAnswer {
    pub refusal: Refusal,
    pub counts: SheetCounts,
}

#[repr(C)]
pub struct SheetAnswer {
    pub refusal: Refusal,
    pub counts: SheetCounts,
    pub table: Table,
}

#[repr(C)]
#[derive(Clone, Copy, Debug, PartialEq, Eq)]
pub struct Totals {
    pub messages: u64,
    pub records: u64,
}

/// The kinds, which the header names one by one, in their order.
#[repr(C)]
#[derive(Clone, Copy, Debug, PartialEq, Eq)]
pub struct Tally {
    pub accepted: [Totals; 6],
    pub refused: [u64; 15],
}

#[repr(C)]
#[derive(Clone, Copy, Debug, PartialEq, Eq)]
pub struct Fraction {
    pub numerator: u64,
    pub denominator: u64,
}

#[repr(C)]
#[derive(Clone, Copy, Debug, PartialEq, Eq)]
pub struct ReportAnswer {
    pub tally: Tally,
    pub mean: Fraction,
    pub whole: bool,
}

type Pack = unsafe extern "C" fn(u8, Path, *const u8, usize, usize, usize, *mut u8, usize) -> PackAnswer;

extern "C" {
    fn pim_read_asserts(f: u8, p: Path, m: *const u8, n: usize, entries: *mut u8, room: usize) -> ReadAnswer;
    fn pim_read_pairs(f: u8, p: Path, m: *const u8, n: usize, entries: *mut u8, room: usize) -> ReadAnswer;
    fn pim_read_hello(f: u8, p: Path, m: *const u8, n: usize) -> HelloAnswer;
    fn pim_write_hello(f: u8, p: Path, said: Hello, b: *mut u8, room: usize) -> LengthAnswer;
    fn pim_pack_simple(
        f: u8,
        p: Path,
        e: *const u8,
        size: usize,
        at: usize,
        limit: usize,
        b: *mut u8,
        room: usize,
    ) -> PackAnswer;
    fn pim_pack_aggregated(
        f: u8,
        p: Path,
        e: *const u8,
        size: usize,
        at: usize,
        limit: usize,
        b: *mut u8,
        room: usize,
    ) -> PackAnswer;
    fn pim_pack_null_register(
        f: u8,
        p: Path,
        e: *const u8,
        size: usize,
        at: usize,
        limit: usize,
        b: *mut u8,
        room: usize,
    ) -> PackAnswer;
    fn pim_pack_register_stop(
        f: u8,
        p: Path,
        e: *const u8,
        size: usize,
        at: usize,
        limit: usize,
        b: *mut u8,
        room: usize,
    ) -> PackAnswer;
    fn pim_hear(f: u8, table: Table, address: Address, said: Hello) -> TableAnswer;
    fn pim_forget(f: u8, table: Table, address: Address) -> TableAnswer;
    fn pim_packing_allowed(f: u8, table: Table) -> AllowedAnswer;
    fn pim_elect(f: u8, table: Table, address: Address, priority: u32) -> ElectAnswer;
    fn pim_elect_among(rows: *const Neighbour, count: usize) -> ElectAnswer;
    fn pim_report(file: *const u8, n: usize) -> ReportAnswer;
    fn pim_popcount_read(o: *const u8, n: usize, at: usize) -> PopcountReadAnswer;
    fn pim_popcount_merge(
        own: PopcountOwn,
        e: bool,
        c: *const u8,
        n: usize,
        b: *mut u8,
        room: usize,
    ) -> LengthAnswer;
    fn pim_check_sheet(f: u8, o: *const u8, n: usize) -> CheckAnswer;
    fn pim_read_sheet(
        f: u8,
        o: *const u8,
        n: usize,
        asserts: *mut u8,
        assert_room: usize,
        pairs: *mut u8,
        pair_room: usize,
    ) -> SheetAnswer;
    fn pim_write_sheet(
        f: u8,
        asserts: *const u8,
        assert_size: usize,
        pairs: *const u8,
        pair_size: usize,
        table: Table,
        buffer: *mut u8,
        room: usize,
    ) -> LengthAnswer;
    fn pim_checksum(m: *const u8, n: usize) -> u16;
    fn pim_checksum_holds(m: *const u8, n: usize) -> bool;
    fn pim_checksum_ipv6(p: Path, m: *const u8, n: usize) -> u16;
    fn pim_checksum_ipv6_holds(p: Path, m: *const u8, n: usize) -> bool;
}

// Each call lends slices that are alive and do not overlap, as the header asks.

#[inline(always)]
pub fn read_asserts(family: Family, path: second::Path, m: &[u8], entries: &mut [u8]) -> ReadAnswer {
    let (to, room) = (entries.as_mut_ptr(), entries.len());
    unsafe { pim_read_asserts(family.number(), path.into(), m.as_ptr(), m.len(), to, room) }
}

#[inline(always)]
pub fn read_pairs(family: Family, path: second::Path, m: &[u8], entries: &mut [u8]) -> ReadAnswer {
    let (to, room) = (entries.as_mut_ptr(), entries.len());
    unsafe { pim_read_pairs(family.number(), path.into(), m.as_ptr(), m.len(), to, room) }
}

#[inline(always)]
pub fn read_hello(family: Family, path: second::Path, m: &[u8]) -> HelloAnswer {
    unsafe { pim_read_hello(family.number(), path.into(), m.as_ptr(), m.len()) }
}

#[inline(always)]
pub fn write_hello(family: Family, path: second::Path, said: Hello, buffer: &mut [u8]) -> LengthAnswer {
    unsafe { pim_write_hello(family.number(), path.into(), said, buffer.as_mut_ptr(), buffer.len()) }
}

#[inline(always)]
fn pack(
    call: Pack,
    family: Family,
    path: second::Path,
    entries: &[u8],
    start: usize,
    limit: usize,
    buffer: &mut [u8],
) -> PackAnswer {
    let (list, size) = (entries.as_ptr(), entries.len());
    let (to, room) = (buffer.as_mut_ptr(), buffer.len());
    unsafe { call(family.number(), path.into(), list, size, start, limit, to, room) }
}

#[inline(always)]
pub fn pack_simple(
    family: Family,
    path: second::Path,
    entries: &[u8],
    start: usize,
    limit: usize,
    buffer: &mut [u8],
) -> PackAnswer {
    pack(pim_pack_simple, family, path, entries, start, limit, buffer)
}

#[inline(always)]
pub fn pack_aggregated(
    family: Family,
    path: second::Path,
    entries: &[u8],
    start: usize,
    limit: usize,
    buffer: &mut [u8],
) -> PackAnswer {
    pack(pim_pack_aggregated, family, path, entries, start, limit, buffer)
}

#[inline(always)]
pub fn pack_null_register(
    family: Family,
    path: second::Path,
    entries: &[u8],
    start: usize,
    limit: usize,
    buffer: &mut [u8],
) -> PackAnswer {
    pack(pim_pack_null_register, family, path, entries, start, limit, buffer)
}

#[inline(always)]
pub fn pack_register_stop(
    family: Family,
    path: second::Path,
    entries: &[u8],
    start: usize,
    limit: usize,
    buffer: &mut [u8],
) -> PackAnswer {
    pack(pim_pack_register_stop, family, path, entries, start, limit, buffer)
}

#[inline(always)]
pub fn hear(family: Family, table: Table, address: Address, said: Hello) -> TableAnswer {
    unsafe { pim_hear(family.number(), table, address, said) }
}

#[inline(always)]
pub fn forget(family: Family, table: Table, address: Address) -> TableAnswer {
    unsafe { pim_forget(family.number(), table, address) }
}

#[inline(always)]
pub fn packing_allowed(family: Family, table: Table) -> AllowedAnswer {
    unsafe { pim_packing_allowed(family.number(), table) }
}

#[inline(always)]
pub fn elect(family: Family, table: Table, address: Address, priority: u32) -> ElectAnswer {
    unsafe { pim_elect(family.number(), table, address, priority) }
}

#[inline(always)]
pub fn elect_among(rows: &[Neighbour]) -> ElectAnswer {
    unsafe { pim_elect_among(rows.as_ptr(), rows.len()) }
}

#[inline(always)]
pub fn report(file: &[u8]) -> ReportAnswer {
    unsafe { pim_report(file.as_ptr(), file.len()) }
}

#[inline(always)]
pub fn popcount_read(octets: &[u8], at: usize) -> PopcountReadAnswer {
    unsafe { pim_popcount_read(octets.as_ptr(), octets.len(), at) }
}

#[inline(always)]
pub fn popcount_merge(own: PopcountOwn, e: bool, contributors: &[u8], buffer: &mut [u8]) -> LengthAnswer {
    unsafe {
        pim_popcount_merge(
            own,
            e,
            contributors.as_ptr(),
            contributors.len(),
            buffer.as_mut_ptr(),
            buffer.len(),
        )
    }
}

#[inline(always)]
pub fn check_sheet(family: Family, sheet: &[u8]) -> CheckAnswer {
    unsafe { pim_check_sheet(family.number(), sheet.as_ptr(), sheet.len()) }
}

#[inline(always)]
pub fn read_sheet(family: Family, sheet: &[u8], asserts: &mut [u8], pairs: &mut [u8]) -> SheetAnswer {
    unsafe {
        pim_read_sheet(
            family.number(),
            sheet.as_ptr(),
            sheet.len(),
            asserts.as_mut_ptr(),
            asserts.len(),
            pairs.as_mut_ptr(),
            pairs.len(),
        )
    }
}

#[inline(always)]
pub fn write_sheet(
    family: Family,
    asserts: &[u8],
    pairs: &[u8],
    table: Table,
    buffer: &mut [u8],
) -> LengthAnswer {
    unsafe {
        pim_write_sheet(
            family.number(),
            asserts.as_ptr(),
            asserts.len(),
            pairs.as_ptr(),
            pairs.len(),
            table,
            buffer.as_mut_ptr(),
            buffer.len(),
        )
    }
}

#[inline(always)]
pub fn checksum(m: &[u8]) -> u16 {
    unsafe { pim_checksum(m.as_ptr(), m.len()) }
}

#[inline(always)]
pub fn checksum_holds(m: &[u8]) -> bool {
    unsafe { pim_checksum_holds(m.as_ptr(), m.len()) }
}

#[inline(always)]
pub fn checksum_ipv6(path: second::Path, m: &[u8]) -> u16 {
    unsafe { pim_checksum_ipv6(path.into(), m.as_ptr(), m.len()) }
}

#[inline(always)]
pub fn checksum_ipv6_holds(path: second::Path, m: &[u8]) -> bool {
    unsafe { pim_checksum_ipv6_holds(path.into(), m.as_ptr(), m.len()) }
}
