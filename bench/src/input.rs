//! The inputs, the same in every run.

use second::hello::{write_hello, Hello};
use second::neighbours::{Neighbour, Table};
use second::rng::Rng;
use second::{Address, Family, Path};

const R: u32 = 0x8000_0000;

/// fe80::1 to ff02::d, of which the checksums in IPv6 are made.
pub const PATH: Path = Path {
    source: Address { high: 0xFE80 << 48, low: 1 },
    destination: Address { high: 0xFF02 << 48, low: 0xD },
};

/// A list of entries of a family being made.
struct List {
    family: Family,
    octets: Vec<u8>,
    size: usize,
}

impl List {
    fn of(family: Family, count: usize, entry: usize) -> List {
        List { family, octets: Vec::with_capacity(count * entry), size: count * entry }
    }

    fn asserts(family: Family, count: usize) -> List {
        List::of(family, count, family.assert_entry())
    }

    fn pairs(family: Family, count: usize) -> List {
        List::of(family, count, family.pair_entry())
    }

    fn is_full(&self) -> bool {
        self.octets.len() >= self.size
    }

    /// One entry more, unless the list is full: a pair has no numbers, an assert R with preference, and metric.
    fn put(&mut self, group: u128, source: u128, numbers: &[u32]) {
        if self.is_full() {
            return;
        }
        self.octets.extend_from_slice(&[self.family.number(), 0, 0, 0]);
        for address in [group, source] {
            self.octets.extend_from_slice(&address.to_be_bytes()[16 - self.family.width()..]);
        }
        for number in numbers {
            self.octets.extend_from_slice(&number.to_be_bytes());
        }
    }
}

/// The last 16 bits of an address: those before them are the same, as in a lab.
fn low_part(rng: &mut Rng) -> u128 {
    u128::from(rng.next_u32() & 0xFFFF)
}

fn group(family: Family, rng: &mut Rng) -> u128 {
    match family {
        Family::Ipv4 => u128::from(0xE000_0000 | rng.next_u32() >> 4),
        Family::Ipv6 => 0xFF3E << 112 | low_part(rng),
    }
}

/// From 1.0.0.0 to 223.255.255.255, as nearly all sources are; or 2001:db8::1:0 and those after it.
fn source(family: Family, rng: &mut Rng) -> u128 {
    match family {
        Family::Ipv4 => u128::from(0x0100_0000 + rng.next_u32() % 0xDF00_0000),
        Family::Ipv6 => 0x2001_0DB8 << 96 | 0x1_0000 | low_part(rng),
    }
}

/// From 240.0.0.0 to 247.255.255.255; or ::1:0 and those after it.
fn seldom_source(family: Family, rng: &mut Rng) -> u128 {
    match family {
        Family::Ipv4 => u128::from(0xF000_0000 | rng.next_u32() >> 5),
        Family::Ipv6 => 0x1_0000 | low_part(rng),
    }
}

fn preference(rng: &mut Rng) -> u32 {
    rng.next_u32() & 0xFF
}

/// Assert entries without anything in common.
pub fn lone_asserts(family: Family, count: usize) -> Vec<u8> {
    lone(family, count, Rng::new(1), |rng, _| source(family, rng))
}

/// The same with seldom sources, and with 0 where R=1.
pub fn seldom_asserts(family: Family, count: usize) -> Vec<u8> {
    lone(family, count, Rng::new(10), |rng, r| if r == 0 { seldom_source(family, rng) } else { 0 })
}

/// 32 with R=0 and 32 with R=1 in turn: a change at each entry would measure the branch predictor.
fn lone(family: Family, count: usize, mut rng: Rng, source: impl Fn(&mut Rng, u32) -> u128) -> Vec<u8> {
    let mut list = List::asserts(family, count);
    for i in 0..count {
        let r = if i / 32 % 2 == 0 { 0 } else { R };
        let (group, source) = (group(family, &mut rng), source(&mut rng, r));
        list.put(group, source, &[r | preference(&mut rng), rng.next_u32() & 0xFFFF]);
    }
    list.octets
}

/// Assert entries as a lab has them: sources with 1 to 24 groups (R=0), and routers with 1 to 6 groups of
/// 1 to 8 sources, or of source 0 alone (R=1).
pub fn mixed_asserts(family: Family, count: usize) -> Vec<u8> {
    let mut rng = Rng::new(2);
    let mut list = List::asserts(family, count);
    while !list.is_full() {
        if rng.one_in(2) {
            source_run(&mut rng, &mut list);
        } else {
            rp_run(&mut rng, &mut list);
        }
    }
    list.octets
}

fn source_run(rng: &mut Rng, list: &mut List) {
    let source = source(list.family, rng);
    let numbers = [preference(rng), rng.next_u32() & 0xFFFF];
    for _ in 0..1 + rng.below(24) {
        list.put(group(list.family, rng), source, &numbers);
    }
}

fn rp_run(rng: &mut Rng, list: &mut List) {
    let numbers = [R | preference(rng), rng.next_u32() & 0xFFFF];
    for _ in 0..1 + rng.below(6) {
        let group = group(list.family, rng);
        if rng.one_in(4) {
            list.put(group, 0, &numbers);
            continue;
        }
        for _ in 0..1 + rng.below(8) {
            list.put(group, source(list.family, rng), &numbers);
        }
    }
}

/// Assert entries of one source, R=0: a single run of groups.
pub fn one_source_asserts(family: Family, count: usize) -> Vec<u8> {
    let mut rng = Rng::new(3);
    let mut list = List::asserts(family, count);
    let source = if family == Family::Ipv4 { 0x0A00_0001 } else { 0x2001_0DB8 << 96 | 1 };
    while !list.is_full() {
        list.put(group(family, &mut rng), source, &[110, 20]);
    }
    list.octets
}

/// Assert entries of one group, R=1: a single run of sources.
pub fn one_group_asserts(family: Family, count: usize) -> Vec<u8> {
    one_group(family, count, Rng::new(4), |rng| source(family, rng))
}

/// The same with seldom sources.
pub fn seldom_group_asserts(family: Family, count: usize) -> Vec<u8> {
    one_group(family, count, Rng::new(11), |rng| seldom_source(family, rng))
}

fn one_group(family: Family, count: usize, mut rng: Rng, source: impl Fn(&mut Rng) -> u128) -> Vec<u8> {
    let mut list = List::asserts(family, count);
    let group = if family == Family::Ipv4 { 0xE801_0101 } else { 0xFF3E << 112 | 1 };
    while !list.is_full() {
        list.put(group, source(&mut rng), &[R | 110, 20]);
    }
    list.octets
}

/// Assert entries without a source, R=1, one to five of each group: in IPv6 they are split and joined.
pub fn no_source_asserts(family: Family, count: usize) -> Vec<u8> {
    let mut rng = Rng::new(13);
    let mut list = List::asserts(family, count);
    while !list.is_full() {
        let group = group(family, &mut rng);
        for _ in 0..1 + rng.below(5) {
            list.put(group, 0, &[R | 110, 20]);
        }
    }
    list.octets
}

/// Pair entries, no source 0.
pub fn pairs(family: Family, count: usize) -> Vec<u8> {
    pairs_from(family, count, Rng::new(5), |rng| source(family, rng))
}

/// The same with seldom sources.
pub fn seldom_pairs(family: Family, count: usize) -> Vec<u8> {
    pairs_from(family, count, Rng::new(12), |rng| seldom_source(family, rng))
}

fn pairs_from(family: Family, count: usize, mut rng: Rng, source: impl Fn(&mut Rng) -> u128) -> Vec<u8> {
    let mut list = List::pairs(family, count);
    while !list.is_full() {
        list.put(group(family, &mut rng), source(&mut rng), &[]);
    }
    list.octets
}

/// Octets with a checksum field of 0.
pub fn unsealed(length: usize) -> Vec<u8> {
    let mut octets = vec![0; length];
    Rng::new(6).fill(&mut octets);
    octets[2..4].fill(0);
    octets
}

/// The address of a row of a table: 10.0.0.1 or fe80::1, and those after it.
pub fn address(family: Family, row: usize) -> Address {
    match family {
        Family::Ipv4 => Address { high: 0, low: 0x0A00_0001 + row as u64 },
        Family::Ipv6 => Address { high: 0xFE80 << 48, low: 1 + row as u64 },
    }
}

/// A table with so many rows in use, which all have a priority and pack, so that a call looks at all of them.
pub fn table(family: Family, rows: usize) -> Table {
    table_of(rows, |n| Neighbour {
        address: address(family, n),
        priority: n as u32 * 37 % 64,
        has_priority: true,
        packs: true,
        holdtime: 105,
    })
}

/// The same of a sheet, with rows of all sorts.
pub fn sheet_table(family: Family, rows: usize) -> Table {
    let priority = |n: usize| (n % 2 * (n + 1)) as u32;
    table_of(rows, |n| Neighbour {
        address: address(family, n),
        priority: priority(n),
        has_priority: priority(n) > 0,
        packs: n % 4 < 3,
        holdtime: 105,
    })
}

fn table_of(rows: usize, row: impl Fn(usize) -> Neighbour) -> Table {
    let mut table = Table { count: rows, ..Table::empty() };
    for (n, slot) in table.rows[..rows].iter_mut().enumerate() {
        *slot = row(n);
    }
    table
}

/// A sheet of 01's form, which neither side writes: counts and offsets of 16 bits, then the entries and the rows,
/// without their family.
pub fn old_sheet(asserts: &[u8], pairs: &[u8], table: &Table) -> Vec<u8> {
    let bare = |list: &[u8], entry: usize| -> Vec<u8> {
        list.chunks(entry).flat_map(|entry| entry[4..].to_vec()).collect()
    };
    let (asserts, pairs) = (bare(asserts, 20), bare(pairs, 12));
    let at_pairs = 12 + asserts.len();
    let numbers = [asserts.len() / 16, 12, pairs.len() / 8, at_pairs, table.count, at_pairs + pairs.len()];
    let mut sheet: Vec<u8> = numbers.iter().flat_map(|number| (*number as u16).to_be_bytes()).collect();
    sheet.extend([asserts, pairs].concat());
    for row in &table.rows[..table.count] {
        sheet.extend_from_slice(&(row.address.low as u32).to_be_bytes());
        sheet.extend_from_slice(&row.priority.to_be_bytes());
        sheet.extend_from_slice(&[u8::from(row.has_priority) + 2 * u8::from(row.packs), 0]);
        sheet.extend_from_slice(&row.holdtime.to_be_bytes());
    }
    sheet
}

/// Attributes back to back, each with all eight options: 24 octets.
pub fn attributes(count: usize) -> Vec<u8> {
    let mut rng = Rng::new(7);
    let mut octets = Vec::new();
    for _ in 0..count {
        octets.extend_from_slice(&[3, 22, 0x05, 0xDC, 0, 0x13, 0xFF, 0]);
        octets.extend_from_slice(&(rng.next_u32() >> 12).to_be_bytes());
        octets.extend_from_slice(&(rng.next_u32() >> 12).to_be_bytes());
        octets.extend_from_slice(&speed(&mut rng).to_be_bytes());
        octets.extend_from_slice(&speed(&mut rng).to_be_bytes());
        octets.extend_from_slice(&[1, rng.below(12) as u8, rng.below(30) as u8, 0]);
    }
    octets
}

/// A link speed with an exponent from 1 to 6.
fn speed(rng: &mut Rng) -> u16 {
    (1 + rng.below(6) as u16) << 10 | (1 + rng.below(1023) as u16)
}

/// A Hello of IPv4 with holdtime, priority, a generation identifier and the packed assert capability.
pub const HELLO: [u8; 30] = [
    0x20, 0x00, 0x8D, 0xA8, 0x00, 0x01, 0x00, 0x02, 0x00, 0x69, 0x00, 0x13, 0x00, 0x04, 0x00, 0x00, 0x00,
    0x05, 0x00, 0x14, 0x00, 0x04, 0x12, 0x34, 0x3F, 0x5B, 0x00, 0x28, 0x00, 0x00,
];

/// What the Hello that is written says: all that it can.
pub const SAID: Hello = Hello { holdtime: 105, priority: Some(5), packing: true };

/// Hellos as routers send them: every fourth or so is the one above, the others say what can be written.
pub fn hellos(count: usize) -> Vec<Vec<u8>> {
    let mut rng = Rng::new(8);
    (0..count).map(|_| if rng.one_in(4) { HELLO.to_vec() } else { written_hello(&mut rng) }).collect()
}

fn written_hello(rng: &mut Rng) -> Vec<u8> {
    let priority = rng.one_in(2).then(|| rng.next_u32());
    let mut message = vec![0; 22];
    let said = Hello { priority, packing: rng.one_in(2), ..SAID };
    let length = write_hello(Family::Ipv4, PATH, said, &mut message);
    message.truncate(length.expect("the buffer is long enough"));
    message
}

/// The least octets of a file.
const FILE: usize = 1_000_000;

/// A file of messages, each with its length before it. They are those of the trains, the train drawn anew for
/// each message; one that is at its end begins again.
pub fn file(trains: &[Vec<Vec<u8>>]) -> Vec<u8> {
    let mut rng = Rng::new(9);
    let mut trains: Vec<_> = trains.iter().map(|train| train.iter().cycle()).collect();
    let mut file = Vec::with_capacity(FILE + 1_500);
    while file.len() < FILE {
        let train = rng.below(trains.len());
        let message = trains[train].next().expect("a train has messages");
        file.extend_from_slice(&(message.len() as u16).to_be_bytes());
        file.extend_from_slice(message);
    }
    file
}
