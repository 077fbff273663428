//! The four forms of a sheet; what came of sheets, by their form and by their
//! first words; of tables, by their rows in use; and of families and paths.

use super::lab::Named;
use second::{Answer, Family};
use std::collections::BTreeMap;

/// A form of sheet: its family; its number, 1 being that of 01's form, which has
/// none in it; the octets of its header; and the most asserts, pairs and
/// neighbours.
#[derive(Clone, Copy, PartialEq)]
pub struct SheetForm {
    pub family: Family,
    pub number: u8,
    pub header: usize,
    pub most: [usize; 3],
}

const LARGE: [usize; 3] = [8_192, 8_192, 64];

pub const BASE: SheetForm =
    SheetForm { family: Family::Ipv4, number: 1, header: 12, most: [1_024, 1_024, 16] };
pub const SECOND: SheetForm = SheetForm { family: Family::Ipv4, number: 2, header: 28, most: LARGE };
pub const THIRD: SheetForm = SheetForm { family: Family::Ipv4, number: 3, header: 28, most: LARGE };
pub const FOURTH: SheetForm = SheetForm { family: Family::Ipv6, number: 4, header: 28, most: LARGE };
pub const SHEET_FORMS: [SheetForm; 4] = [BASE, SECOND, THIRD, FOURTH];

impl SheetForm {
    /// The form that the first octets tell, if any.
    pub fn of(sheet: &[u8]) -> Option<SheetForm> {
        match sheet {
            [0xFF, 0xFF, 0, number @ 2..=4, ..] => Some(SHEET_FORMS[usize::from(*number) - 1]),
            [0..4, _, ..] | [4, 0, ..] => Some(BASE),
            _ => None,
        }
    }

    /// The form that is written in a family.
    pub fn written(family: Family) -> SheetForm {
        match family {
            Family::Ipv4 => THIRD,
            Family::Ipv6 => FOURTH,
        }
    }

    /// The octets before the addresses of an entry.
    pub fn prefix(&self) -> usize {
        if self.number < 3 {
            0
        } else {
            4
        }
    }

    /// The octets of an assert, a pair and a neighbour.
    pub fn sizes(&self) -> [usize; 3] {
        let (prefix, width) = (self.prefix(), self.family.width());
        [prefix + 2 * width + 8, prefix + 2 * width, prefix + width + 8]
    }

    /// The counts, each with the offset that it asks for.
    pub fn numbers(&self, [asserts, pairs, neighbours]: [usize; 3]) -> [usize; 6] {
        let at_pairs = self.header + self.sizes()[0] * asserts;
        [asserts, self.header, pairs, at_pairs, neighbours, at_pairs + self.sizes()[1] * pairs]
    }

    /// Where an entry of a section begins.
    pub fn place(&self, counts: [usize; 3], section: usize, entry: usize) -> usize {
        self.numbers(counts)[2 * section + 1] + self.sizes()[section] * entry
    }

    /// A header of numbers, as far as 16 or 32 bits say them.
    pub fn header_of(&self, numbers: [usize; 6]) -> Vec<u8> {
        if self.number == 1 {
            return numbers.iter().flat_map(|number| (*number as u16).to_be_bytes()).collect();
        }
        let numbers = numbers.iter().flat_map(|number| (*number as u32).to_be_bytes());
        [0xFF, 0xFF, 0, self.number].into_iter().chain(numbers).collect()
    }

    /// The numbers of a sheet's header, unless it is cut.
    pub fn read(&self, sheet: &[u8]) -> Option<[usize; 6]> {
        let header = sheet.get(..self.header)?;
        let (octets, size) = if self.number == 1 { (header, 2) } else { (&header[4..], 4) };
        let number =
            |i: usize| octets[size * i..][..size].iter().fold(0, |n, octet| n << 8 | *octet as usize);
        Some([0, 1, 2, 3, 4, 5].map(number))
    }

    /// The first section with a count over its limit, in a sheet whose offsets
    /// and end are as its counts ask.
    fn over(&self, sheet: &[u8], numbers: [usize; 6]) -> Option<usize> {
        let counts = counts(numbers);
        let fits = numbers == self.numbers(counts) && sheet.len() == numbers[5] + self.sizes()[2] * counts[2];
        first_over(counts, self).filter(|_| fits)
    }

    /// In the order of the columns.
    fn column(&self) -> usize {
        usize::from(self.number) - 1
    }
}

// What sheets come to, by their form.
pub const AGAIN: &str = "written again";
pub const NO_ROOM: &str = "refused by 8";
const ACCEPTED: &str = "accepted";
const FULL: &str = "accepted, at all its limits";
const BIGGER: &str = "accepted, over a limit of the base";
const OTHER: &str = "14 at 0, the other family named";
const PREFIX: &str = "14 at an entry, its prefix";
const CUT: &str = "14 at 0, header cut";
const OVER: [&str; 3] =
    ["14 at 0, too many asserts", "14 at 0, too many pairs", "14 at 0, too many neighbours"];
const OFFSETS: &str = "14 at 0, an offset or the end";
const ENTRIES: [&str; 3] = ["14 at an assert", "14 at a pair", "14 at a neighbour"];

// By their first words: those of no form, and those at the edges.
const LAST_BASE: &str = "1,024, accepted";
const NEITHER: [&str; 3] = ["1,025, refused", "1,026 to 65,533, refused", "65,534, refused"];
const OTHER_NUMBER: &str = "65,535 and any other, refused";
const NUMBERS: [(u16, &str); 5] = [
    (0, "65,535 and 0, refused"),
    (1, "65,535 and 1, refused"),
    (5, "65,535 and 5, refused"),
    (0x0200, "65,535 and 0x0200, refused"),
    (0x0300, "65,535 and 0x0300, refused"),
];

// What another path than the message's does.
pub const SOURCE: &str = "another source";
pub const DESTINATION: &str = "another destination";
pub const EXCHANGED: &str = "both exchanged";
pub const LENGTH: &str = "two octets of 0 more";
pub const FAMILY: &str = "the other family named";
pub const RECORDS: &str = "records of the other family";

// What comes of a Hello that is heard.
const REPLACED: &str = "heard again";
const ADDED: &str = "heard for the first time";
const TABLE_FULL: &str = "refused by 11";

/// A table of counts: its heading, its rows, and the columns of each that have
/// to come.
pub struct Counted {
    pub heading: [&'static str; 5],
    rows: &'static [(&'static str, &'static [usize])],
}

// The tables, by their place.
const SHEETS: usize = 0;
const WORDS: usize = 1;
const ROWS: usize = 2;
const NAMED: usize = 3;
const PATHS: usize = 4;
const FOREIGN: usize = 5;

const BOTH: &[usize] = &[0, 1];
const EVERY: &[usize] = &[0, 1, 2];
const ALL: &[usize] = &[0, 1, 2, 3];

pub const COUNTED: [Counted; 6] = [
    Counted {
        heading: ["sheet", "base", "form 2", "form 3", "form 4"],
        rows: &[
            (ACCEPTED, ALL),
            (FULL, ALL),
            (BIGGER, &[1, 2, 3]),
            (AGAIN, ALL),
            (NO_ROOM, ALL),
            (CUT, ALL),
            (OVER[0], &[1, 2, 3]),
            (OVER[1], ALL),
            (OVER[2], ALL),
            (OFFSETS, ALL),
            (ENTRIES[0], ALL),
            (ENTRIES[1], ALL),
            (ENTRIES[2], ALL),
            (PREFIX, &[2, 3]),
            (OTHER, ALL),
        ],
    },
    Counted {
        heading: ["first word of a sheet", "sheets", "", "", ""],
        rows: &[
            (LAST_BASE, &[0]),
            (NEITHER[0], &[0]),
            (NEITHER[1], &[0]),
            (NEITHER[2], &[0]),
            (NUMBERS[0].1, &[0]),
            (NUMBERS[1].1, &[0]),
            (NUMBERS[2].1, &[0]),
            (NUMBERS[3].1, &[0]),
            (NUMBERS[4].1, &[0]),
            (OTHER_NUMBER, &[0]),
        ],
    },
    Counted {
        heading: ["rows in use", "to 16", "to 63", "64", "more"],
        rows: &[
            (REPLACED, EVERY),
            (ADDED, BOTH),
            (TABLE_FULL, &[2]),
            ("pim_hear", ALL),
            ("pim_forget", ALL),
            ("pim_packing_allowed", ALL),
            ("pim_elect", ALL),
            ("pim_write_sheet", ALL),
        ],
    },
    Counted {
        heading: ["family named", "IPv4", "IPv6", "neither", ""],
        rows: &[
            ("pim_header", EVERY),
            ("pim_body", EVERY),
            ("pim_read_record", EVERY),
            ("pim_read_asserts", EVERY),
            ("pim_read_pairs", EVERY),
            ("pim_read_hello", EVERY),
            ("pim_write_hello", EVERY),
            ("pim_pack_assert", EVERY),
            ("pim_pack_simple", EVERY),
            ("pim_pack_aggregated", EVERY),
            ("pim_pack_null_register", EVERY),
            ("pim_pack_register_stop", EVERY),
            ("pim_pack_both", EVERY),
            ("pim_hear", EVERY),
            ("pim_forget", EVERY),
            ("pim_packing_allowed", EVERY),
            ("pim_elect", EVERY),
            ("pim_check_sheet", EVERY),
            ("pim_read_sheet", EVERY),
            ("pim_write_sheet", EVERY),
        ],
    },
    Counted {
        heading: ["message read, and", "IPv4", "IPv6", "", ""],
        rows: &[
            (SOURCE, BOTH),
            (DESTINATION, BOTH),
            (EXCHANGED, BOTH),
            (LENGTH, BOTH),
            (FAMILY, BOTH),
            (RECORDS, BOTH),
        ],
    },
    Counted {
        heading: ["refused for its family, to", "IPv4", "IPv6", "", ""],
        rows: &[
            ("pim_pack_assert", BOTH),
            ("pim_pack_simple", BOTH),
            ("pim_pack_aggregated", BOTH),
            ("pim_pack_null_register", BOTH),
            ("pim_pack_register_stop", BOTH),
            ("pim_pack_both", BOTH),
            ("pim_hear", &[0]),
            ("pim_forget", &[0]),
            ("pim_packing_allowed", &[0]),
            ("pim_elect", &[0]),
            ("pim_write_sheet", BOTH),
        ],
    },
];

/// How often each came.
#[derive(Default)]
pub struct Forms(BTreeMap<(usize, &'static str, usize), u64>);

impl Forms {
    fn count(&mut self, table: usize, row: &'static str, column: usize) {
        *self.0.entry((table, row, column)).or_default() += 1;
    }

    /// A family that a call was told, by its number.
    pub fn named(&mut self, call: &'static str, family: u8) {
        let column = Family::from_number(family).map_or(2, column_of);
        self.count(NAMED, call, column);
    }

    /// A message that was read with another path, or as another family.
    pub fn path(&mut self, what: &'static str, named: Named) {
        if let Some(family) = Family::from_number(named.family) {
            self.count(PATHS, what, column_of(family));
        }
    }

    /// What a call refused for its family: an entry's prefix, or an address.
    pub fn foreign(&mut self, call: &'static str, family: u8) {
        if let Some(family) = Family::from_number(family) {
            self.count(FOREIGN, call, column_of(family));
        }
    }

    /// A sheet, and what came of it.
    pub fn of_sheet(&mut self, what: &'static str, sheet: &[u8]) {
        if let Some(form) = SheetForm::of(sheet) {
            self.count(SHEETS, what, form.column());
        }
    }

    /// A sheet that was checked as one of a family.
    pub fn checked<T>(&mut self, family: Family, sheet: &[u8], answer: &Answer<T>) {
        self.first_words(sheet, answer.is_ok());
        let Some(form) = SheetForm::of(sheet) else {
            return;
        };
        let column = form.column();
        match (form.read(sheet), answer) {
            (None, _) => self.count(SHEETS, CUT, column),
            (_, Err(_)) if form.family != family => self.count(SHEETS, OTHER, column),
            (Some(numbers), Ok(_)) => self.accepted(form, counts(numbers)),
            (Some(numbers), Err(refusal)) if refusal.place > 0 => {
                self.count(SHEETS, ENTRIES[section(numbers, refusal.place)], column);
                let prefix = &sheet[refusal.place..refusal.place + form.prefix()];
                if !prefix.is_empty() && prefix != [family.number(), 0, 0, 0] {
                    self.count(SHEETS, PREFIX, column);
                }
            }
            (Some(numbers), Err(_)) => match form.over(sheet, numbers) {
                Some(section) => self.count(SHEETS, OVER[section], column),
                None => self.count(SHEETS, OFFSETS, column),
            },
        }
    }

    fn accepted(&mut self, form: SheetForm, counts: [usize; 3]) {
        self.count(SHEETS, ACCEPTED, form.column());
        if counts == form.most {
            self.count(SHEETS, FULL, form.column());
        }
        if first_over(counts, &BASE).is_some() {
            self.count(SHEETS, BIGGER, form.column());
        }
    }

    fn first_words(&mut self, sheet: &[u8], accepted: bool) {
        let Some((&[a, b, c, d], _)) = sheet.split_first_chunk() else {
            return;
        };
        let (first, next) = (u16::from_be_bytes([a, b]), u16::from_be_bytes([c, d]));
        let number = NUMBERS.iter().find(|(number, _)| *number == next);
        match (first, accepted) {
            (1_024, true) => self.count(WORDS, LAST_BASE, 0),
            (1_025, false) => self.count(WORDS, NEITHER[0], 0),
            (1_026..=65_533, false) => self.count(WORDS, NEITHER[1], 0),
            (65_534, false) => self.count(WORDS, NEITHER[2], 0),
            (65_535, false) if !(2..=4).contains(&next) => {
                self.count(WORDS, number.map_or(OTHER_NUMBER, |(_, name)| name), 0);
            }
            _ => (),
        }
    }

    /// A table, by its rows in use, that a call was given.
    pub fn of_table(&mut self, call: &'static str, rows: usize) {
        self.count(ROWS, call, rows_column(rows));
    }

    /// The rows of a table before and after an address was heard in it; none
    /// after, where it was full.
    pub fn heard(&mut self, before: usize, after: Option<usize>) {
        let what = match after {
            None => TABLE_FULL,
            Some(after) if after == before => REPLACED,
            Some(after) if after > before => ADDED,
            Some(_) => return,
        };
        self.count(ROWS, what, rows_column(before));
    }

    /// All rows of a table: the column of each count that has to come, and it.
    pub fn rows(&self, table: usize) -> Vec<(&'static str, Vec<(usize, u64)>)> {
        let counts = |name: &'static str, columns: &[usize]| {
            let count = |at: &usize| self.0.get(&(table, name, *at)).copied().unwrap_or(0);
            columns.iter().map(|at| (*at, count(at))).collect()
        };
        COUNTED[table].rows.iter().map(|(name, columns)| (*name, counts(name, columns))).collect()
    }
}

fn counts(numbers: [usize; 6]) -> [usize; 3] {
    [numbers[0], numbers[2], numbers[4]]
}

/// The first section with more entries than a form allows.
fn first_over(counts: [usize; 3], form: &SheetForm) -> Option<usize> {
    (0..3).find(|section| counts[*section] > form.most[*section])
}

/// The section that a place is in, by the numbers of a good header.
pub fn section(numbers: [usize; 6], place: usize) -> usize {
    usize::from(place >= numbers[3]) + usize::from(place >= numbers[5])
}

fn column_of(family: Family) -> usize {
    usize::from(family.number()) - 1
}

fn rows_column(rows: usize) -> usize {
    match rows {
        0..=16 => 0,
        17..=63 => 1,
        64 => 2,
        _ => 3,
    }
}
