//! The stored sheet: two entry lists and a neighbour table, of one family. It is
//! written in the form of its family; the two older forms, of IPv4, are read too.

use crate::family::{of_family, Addresses, Family, Ipv4, Octets};
use crate::neighbours::{check_table, first_bad_row, Neighbour, Table, ROWS};
use crate::{addresses_ok, assert_entry_ok, assert_ok, first_bad, pair_entry_ok, prefix_ok, refuse, Answer};

/// The most asserts, and the most pairs.
pub const ENTRIES_MOST: usize = 8_192;

/// What a sheet begins with, but for 01's form: 0xFFFF, and a number.
const MARK: [u8; 2] = [0xFF, 0xFF];
const HAS_PRIORITY: u8 = 1;
const PACKS: u8 = 2;

/// A form of sheet: the octets of its header, the most asserts, pairs and
/// neighbours, the octets of one of each, and of their prefix.
struct Form {
    header: usize,
    most: [usize; 3],
    sizes: [usize; 3],
    prefix: usize,
}

const LARGE: [usize; 3] = [ENTRIES_MOST, ENTRIES_MOST, ROWS];
/// What entries and neighbours of the older forms have: no prefix.
const BARE: [usize; 3] = [16, 8, 12];

/// Counts and offsets of 16 bits.
const BASE: Form = Form { header: 12, most: [1_024, 1_024, 16], sizes: BARE, prefix: 0 };
/// The mark and 2, then counts and offsets of 32 bits.
const SECOND: Form = Form { header: 28, most: LARGE, sizes: BARE, prefix: 0 };

/// The mark and 3 or 4, by the family.
const fn form_of<F: Addresses>() -> Form {
    let sizes = [F::AssertEntry::SIZE, F::PairEntry::SIZE, F::Row::SIZE];
    Form { header: 28, most: LARGE, sizes, prefix: 4 }
}

fn number_of<F: Addresses>() -> [u8; 2] {
    match F::FAMILY {
        Family::Ipv4 => [0, 3],
        Family::Ipv6 => [0, 4],
    }
}

/// Where asserts, pairs and neighbours begin, and where the sheet ends.
type Places = [usize; 4];

impl Form {
    /// The places that counts give, unless one is over its limit.
    fn places(&self, counts: [usize; 3]) -> Option<Places> {
        if counts.iter().zip(self.most).any(|(count, most)| *count > most) {
            return None;
        }
        let pairs = self.header + self.sizes[0] * counts[0];
        let neighbours = pairs + self.sizes[1] * counts[1];
        Some([self.header, pairs, neighbours, neighbours + self.sizes[2] * counts[2]])
    }
}

/// The form and the places of a sheet, if its header is right and its family the
/// one named. Without the mark the first word is the count of a sheet of 01's
/// form; one that begins no form is over that count's limit.
fn read_header<F: Addresses>(octets: &[u8]) -> Option<(Form, Places)> {
    let is_old_family = F::FAMILY == Family::Ipv4;
    let (form, numbers) = match octets.strip_prefix(&MARK) {
        Some(rest) => {
            let (number, rest) = rest.split_first_chunk::<2>()?;
            let form = match number {
                [0, 2] if is_old_family => SECOND,
                number if *number == number_of::<F>() => form_of::<F>(),
                _ => return None,
            };
            (form, numbers::<4>(rest)?)
        }
        None if is_old_family => (BASE, numbers::<2>(octets)?),
        None => return None,
    };
    let [asserts, at_asserts, pairs, at_pairs, neighbours, at_neighbours] = numbers;
    let places = form.places([asserts, pairs, neighbours])?;
    (places == [at_asserts, at_pairs, at_neighbours, octets.len()]).then_some((form, places))
}

/// The first six numbers, of so many octets each.
fn numbers<const N: usize>(octets: &[u8]) -> Option<[usize; 6]> {
    let (numbers, _) = octets.as_chunks::<N>();
    let six = numbers.first_chunk::<6>()?;
    Some(six.map(|number| number.iter().fold(0, |n, octet| n << 8 | usize::from(*octet))))
}

/// The header of the form that is written.
fn write_header<F: Addresses>(counts: [usize; 3], places: Places, octets: &mut [u8]) {
    let (mark, numbers) = octets.split_at_mut(4);
    mark[..2].copy_from_slice(&MARK);
    mark[2..].copy_from_slice(&number_of::<F>());
    let (numbers, _) = numbers.as_chunks_mut::<4>();
    let pairs = counts.iter().zip(&places).flat_map(|(count, place)| [*count, *place]);
    for (octets, number) in numbers.iter_mut().zip(pairs) {
        *octets = (number as u32).to_be_bytes();
    }
}

/// The three sections of a checked sheet, and whether its entries have no
/// prefix.
struct Sections<'a> {
    asserts: &'a [u8],
    pairs: &'a [u8],
    table: Table,
    counts: [usize; 3],
    bare: bool,
}

/// How many asserts, pairs and neighbours a sheet has; 14 with its place if the
/// octets are none.
pub fn check_sheet(family: Family, octets: &[u8]) -> Answer<[usize; 3]> {
    of_family!(family, sections(octets)).map(|sheet| sheet.counts)
}

/// The two entry lists, copied, their counts, and the table.
pub fn read_sheet(
    family: Family,
    octets: &[u8],
    asserts: &mut [u8],
    pairs: &mut [u8],
) -> Answer<(usize, usize, Table)> {
    of_family!(family, read_of(octets, asserts, pairs))
}

fn read_of<F: Addresses>(
    octets: &[u8],
    asserts: &mut [u8],
    pairs: &mut [u8],
) -> Answer<(usize, usize, Table)> {
    let sheet = sections::<F>(octets)?;
    let [assert_count, pair_count, _] = sheet.counts;
    let asserts = asserts.get_mut(..F::AssertEntry::SIZE * assert_count);
    let pairs = pairs.get_mut(..F::PairEntry::SIZE * pair_count);
    let (Some(asserts), Some(pairs)) = (asserts, pairs) else {
        return refuse(8, 0);
    };
    if sheet.bare {
        put_prefixed::<[u8; 16], F::AssertEntry>(sheet.asserts, F::PREFIX, asserts);
        put_prefixed::<[u8; 8], F::PairEntry>(sheet.pairs, F::PREFIX, pairs);
    } else {
        asserts.copy_from_slice(sheet.asserts);
        pairs.copy_from_slice(sheet.pairs);
    }
    Ok((assert_count, pair_count, sheet.table))
}

/// Entries of an older sheet in the form that they have now.
fn put_prefixed<B: Octets, T: Octets>(bare: &[u8], prefix: [u8; 4], entries: &mut [u8]) {
    let (entries, _) = T::chunks_mut(entries);
    for (entry, bare) in entries.iter_mut().zip(B::chunks(bare).0) {
        entry.as_mut()[..4].copy_from_slice(&prefix);
        entry.as_mut()[4..].copy_from_slice(bare.as_ref());
    }
}

/// Writes a sheet; its length.
pub fn write_sheet(
    family: Family,
    asserts: &[u8],
    pairs: &[u8],
    table: &Table,
    buffer: &mut [u8],
) -> Answer<usize> {
    of_family!(family, write_of(asserts, pairs, table, buffer))
}

fn write_of<F: Addresses>(asserts: &[u8], pairs: &[u8], table: &Table, buffer: &mut [u8]) -> Answer<usize> {
    let (assert_list, assert_cut) = F::AssertEntry::chunks(asserts);
    let (pair_list, pair_cut) = F::PairEntry::chunks(pairs);
    if !assert_cut.is_empty() || !pair_cut.is_empty() {
        return refuse(10, 0);
    }
    check_table(F::FAMILY, table)?;
    let counts = [assert_list.len(), pair_list.len(), table.count];
    let Some(places) = form_of::<F>().places(counts) else {
        return refuse(14, 0);
    };
    let [at_asserts, at_pairs, at_neighbours, end] = places;
    let Some(octets) = buffer.get_mut(..end) else {
        return refuse(8, 0);
    };
    let bad_assert = first_bad(assert_list, assert_entry_ok::<F>);
    if bad_assert.is_some() || first_bad(pair_list, sheet_pair_ok::<F>).is_some() {
        return refuse(7, 0);
    }
    write_header::<F>(counts, places, &mut octets[..at_asserts]);
    octets[at_asserts..at_pairs].copy_from_slice(asserts);
    octets[at_pairs..at_neighbours].copy_from_slice(pairs);
    write_table::<F>(table, &mut octets[at_neighbours..]);
    Ok(end)
}

/// A pair in a sheet may have source 0.
fn sheet_pair_ok<F: Addresses>(entry: &F::PairEntry) -> bool {
    pair_entry_ok::<F>(entry, true)
}

fn sections<F: Addresses>(octets: &[u8]) -> Answer<Sections<'_>> {
    let Some((form, [at_asserts, at_pairs, at_neighbours, _])) = read_header::<F>(octets) else {
        return refuse(14, 0);
    };
    let (asserts, pairs) = (&octets[at_asserts..at_pairs], &octets[at_pairs..at_neighbours]);
    let rows = &octets[at_neighbours..];
    let bare = form.prefix == 0;
    let table = if bare {
        check_entries::<[u8; 16]>(asserts, at_asserts, |entry| assert_ok::<Ipv4>(entry))?;
        check_entries::<[u8; 8]>(pairs, at_pairs, |entry| addresses_ok::<Ipv4>(entry, true))?;
        read_table::<Ipv4, [u8; 12]>(rows, at_neighbours, |row| read_row::<Ipv4>(row))?
    } else {
        check_entries::<F::AssertEntry>(asserts, at_asserts, assert_entry_ok::<F>)?;
        check_entries::<F::PairEntry>(pairs, at_pairs, sheet_pair_ok::<F>)?;
        read_table::<F, F::Row>(rows, at_neighbours, read_prefixed_row::<F>)?
    };
    let counts = [asserts.len() / form.sizes[0], pairs.len() / form.sizes[1], table.count];
    Ok(Sections { asserts, pairs, table, counts, bare })
}

fn check_entries<T: Octets>(octets: &[u8], at: usize, good: impl Fn(&T) -> bool) -> Answer<()> {
    let (entries, _) = T::chunks(octets);
    match first_bad(entries, good) {
        Some(bad) => refuse(14, at + T::SIZE * bad),
        None => Ok(()),
    }
}

/// The table; there are no more rows than it holds.
fn read_table<F: Addresses, T: Octets>(
    octets: &[u8],
    at: usize,
    read: impl Fn(&T) -> Option<Neighbour>,
) -> Answer<Table> {
    let (rows, _) = T::chunks(octets);
    let mut table = Table::empty();
    for row in rows.iter().map_while(read) {
        table.rows[table.count] = row;
        table.count += 1;
    }
    let good = first_bad_row::<F>(table.used()).unwrap_or(table.count);
    if good < rows.len() {
        return refuse(14, at + T::SIZE * good);
    }
    Ok(table)
}

/// A row, if its prefix, its flags and its zero octet are right.
fn read_prefixed_row<F: Addresses>(octets: &F::Row) -> Option<Neighbour> {
    let octets = octets.as_ref();
    if !prefix_ok::<F>(octets) {
        return None;
    }
    read_row::<F>(&octets[4..])
}

/// A row without its prefix.
#[inline(always)]
fn read_row<F: Addresses>(octets: &[u8]) -> Option<Neighbour> {
    let [a, b, c, d, flags, zero, e, f] = *<[u8; 8]>::at(octets, F::WIDTH);
    if flags & !(HAS_PRIORITY | PACKS) != 0 || zero != 0 {
        return None;
    }
    Some(Neighbour {
        address: F::number(F::Address::at(octets, 0)),
        priority: u32::from_be_bytes([a, b, c, d]),
        has_priority: flags & HAS_PRIORITY != 0,
        packs: flags & PACKS != 0,
        holdtime: u16::from_be_bytes([e, f]),
    })
}

fn write_table<F: Addresses>(table: &Table, octets: &mut [u8]) {
    let (slots, _) = F::Row::chunks_mut(octets);
    for (slot, row) in slots.iter_mut().zip(table.used()) {
        let (prefix, rest) = slot.as_mut().split_at_mut(4);
        let (address, rest) = rest.split_at_mut(F::WIDTH);
        prefix.copy_from_slice(&F::PREFIX);
        address.copy_from_slice(F::octets(row.address).as_ref());
        rest[..4].copy_from_slice(&row.priority.to_be_bytes());
        rest[4] = u8::from(row.has_priority) * HAS_PRIORITY + u8::from(row.packs) * PACKS;
        rest[5] = 0;
        rest[6..].copy_from_slice(&row.holdtime.to_be_bytes());
    }
}
