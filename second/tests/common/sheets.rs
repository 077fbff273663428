//! Sheets of all four forms, put together from their parts.

use super::{hex, words};
use second::neighbours::{Neighbour, Table};
use second::Family;

/// A form of sheet: its family, what stands behind 0xFFFF (01's form has
/// neither), and the most asserts, pairs and neighbours.
#[derive(Clone, Copy, Debug, PartialEq)]
pub struct SheetForm {
    pub family: Family,
    pub number: Option<u16>,
    pub most: [usize; 3],
}

const LARGE: [usize; 3] = [8_192, 8_192, 64];

pub const BASE: SheetForm = SheetForm { family: Family::Ipv4, number: None, most: [1_024, 1_024, 16] };
pub const SECOND: SheetForm = SheetForm { family: Family::Ipv4, number: Some(2), most: LARGE };
pub const THIRD: SheetForm = SheetForm { family: Family::Ipv4, number: Some(3), most: LARGE };
pub const FOURTH: SheetForm = SheetForm { family: Family::Ipv6, number: Some(4), most: LARGE };
pub const SHEET_FORMS: [SheetForm; 4] = [BASE, SECOND, THIRD, FOURTH];

impl SheetForm {
    /// The form that is written in a family.
    pub fn written(family: Family) -> SheetForm {
        if family == Family::Ipv4 {
            THIRD
        } else {
            FOURTH
        }
    }

    pub fn header(&self) -> usize {
        if self.number.is_none() {
            12
        } else {
            28
        }
    }

    /// The octets before the addresses of an entry.
    pub fn prefix(&self) -> Vec<u8> {
        match self.number {
            Some(3) | Some(4) => vec![self.family.number(), 0, 0, 0],
            _ => vec![],
        }
    }

    /// The octets of an assert, a pair and a neighbour.
    pub fn sizes(&self) -> [usize; 3] {
        let (prefix, width) = (self.prefix().len(), self.family.width());
        [prefix + 2 * width + 8, prefix + 2 * width, prefix + width + 8]
    }

    /// The counts, each with the offset that it asks for.
    pub fn numbers(&self, [asserts, pairs, neighbours]: [usize; 3]) -> [usize; 6] {
        let at_pairs = self.header() + self.sizes()[0] * asserts;
        [asserts, self.header(), pairs, at_pairs, neighbours, at_pairs + self.sizes()[1] * pairs]
    }

    /// Where an entry of a section begins.
    pub fn place(&self, counts: [usize; 3], section: usize, entry: usize) -> usize {
        self.numbers(counts)[2 * section + 1] + self.sizes()[section] * entry
    }

    /// Counts and offsets in turn, as far as 16 or 32 bits say them.
    pub fn header_of(&self, numbers: [usize; 6]) -> Vec<u8> {
        match self.number {
            None => numbers.iter().flat_map(|number| (*number as u16).to_be_bytes()).collect(),
            Some(number) => {
                let numbers = words(&numbers.map(|number| number as u32));
                [&hex("FFFF"), &number.to_be_bytes()[..], &numbers].concat()
            }
        }
    }

    /// Three sections of whole entries behind their header.
    pub fn sheet(&self, asserts: &[u8], pairs: &[u8], neighbours: &[u8]) -> Vec<u8> {
        let [assert, pair, row] = self.sizes();
        let counts = [asserts.len() / assert, pairs.len() / pair, neighbours.len() / row];
        [&self.header_of(self.numbers(counts)), asserts, pairs, neighbours].concat()
    }

    /// An address as the family has it.
    pub fn octets(&self, address: u128) -> Vec<u8> {
        address.to_be_bytes()[16 - self.family.width()..].to_vec()
    }

    /// The first group and those after it.
    pub fn group(&self, i: usize) -> u128 {
        if self.family == Family::Ipv4 {
            0xE000_0001 + i as u128
        } else {
            (0xFF3E << 112) + 1 + i as u128
        }
    }

    pub fn pair(&self, group: u128, source: u128) -> Vec<u8> {
        [self.prefix(), self.octets(group), self.octets(source)].concat()
    }

    pub fn assert(&self, group: u128, source: u128, r_preference: u32, metric: u32) -> Vec<u8> {
        [self.pair(group, source), words(&[r_preference, metric])].concat()
    }

    /// Good entries, each of them another one.
    pub fn asserts(&self, count: usize) -> Vec<u8> {
        let one = |i: usize| self.assert(self.group(i), 1 + i as u128, (i as u32 % 2) << 31 | 110, i as u32);
        (0..count).flat_map(one).collect()
    }

    pub fn pairs(&self, count: usize) -> Vec<u8> {
        (0..count).flat_map(|i| self.pair(self.group(i + 7), i as u128)).collect()
    }

    pub fn rows(&self, rows: &[Neighbour]) -> Vec<u8> {
        let row = |row: &Neighbour| {
            let flags = u32::from(row.has_priority) + 2 * u32::from(row.packs);
            let numbers = words(&[row.priority, flags << 24 | u32::from(row.holdtime)]);
            [self.prefix(), self.octets(row.address.into()), numbers].concat()
        };
        rows.iter().flat_map(row).collect()
    }

    /// A sheet of so many, whether the form allows them or not.
    pub fn sheet_of(&self, [asserts, pairs, rows]: [usize; 3]) -> Vec<u8> {
        self.sheet(&self.asserts(asserts), &self.pairs(pairs), &self.rows(&neighbours(self.family, rows)))
    }
}

/// The first addresses of neighbours of a family.
fn first(family: Family) -> u128 {
    match family {
        Family::Ipv4 => 0x0A00_0001,
        Family::Ipv6 => (0xFE80 << 112) + 1,
    }
}

/// A table of so many rows, of all sorts.
pub fn table(family: Family, rows: usize) -> Table {
    let mut table = Table::empty();
    table.rows.iter_mut().zip(neighbours(family, rows)).for_each(|(slot, row)| *slot = row);
    table.count = rows;
    table
}

/// Its rows, of any number.
pub fn neighbours(family: Family, rows: usize) -> Vec<Neighbour> {
    let row = |i: u32| Neighbour {
        address: (first(family) + u128::from(i)).into(),
        priority: if i % 2 == 0 { i } else { 0 },
        has_priority: i % 2 == 0,
        packs: i % 3 == 0,
        holdtime: 105,
    };
    (0..rows as u32).map(row).collect()
}
