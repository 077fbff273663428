//! Sheets of all four forms: octets by hand, round trips and every fault.
mod common;
use common::sheets::*;
use common::*;
use second::neighbours::Table;
use second::rng::Rng;
use second::sheet::{check_sheet, read_sheet, write_sheet};
use second::{Answer, Family};

/// Sources about the borders of what is allowed, and addresses that are none.
fn sources(family: Family) -> (Vec<u128>, Vec<u128>) {
    match family {
        Family::Ipv4 => (EDGE_SOURCES.map(u128::from).to_vec(), NO_SOURCES.map(u128::from).to_vec()),
        Family::Ipv6 => {
            let good = vec![1, (1 << 120) - 1, 1 << 120, (0xFF << 120) - 1, 0xFE80 << 112 | 1];
            (good, vec![0xFF << 120, 0xFF02 << 112 | 0xD, u128::MAX])
        }
    }
}

/// What a sheet gives, with exactly the room that it needs.
fn read(form: SheetForm, sheet: &[u8], counts: [usize; 3]) -> (Vec<u8>, Vec<u8>, Table) {
    let (family, [a, p, n]) = (form.family, counts);
    let (mut x, mut y) = (vec![0xEE; family.assert_entry() * a], vec![0xEE; family.pair_entry() * p]);
    let answer = read_sheet(family, sheet, &mut x, &mut y);
    let (asserts, pairs, table) = answer.expect("the sheet is good");
    assert_eq!([asserts, pairs, table.count], [a, p, n]);
    assert_eq!(check_sheet(family, sheet), Ok(counts));
    (x, y, table)
}

fn write(family: Family, asserts: &[u8], pairs: &[u8], table: &Table) -> Vec<u8> {
    let length = 28 + asserts.len() + pairs.len() + family.sheet_row() * table.count;
    let mut buffer = vec![0xEE; length + 3];
    assert_eq!(write_sheet(family, asserts, pairs, table, &mut buffer), Ok(length));
    assert_eq!(buffer[length..], [0xEE; 3]);
    buffer.truncate(length);
    buffer
}

/// What a sheet gives, written again.
fn again(form: SheetForm, sheet: &[u8], counts: [usize; 3]) -> Vec<u8> {
    let (asserts, pairs, table) = read(form, sheet, counts);
    write(form.family, &asserts, &pairs, &table)
}

/// Both reading calls refuse by 14 at the place, whatever the room, and write
/// nothing.
fn fault(form: SheetForm, sheet: &[u8], place: usize) {
    assert_eq!(check_sheet(form.family, sheet), refusal(14, place));
    let (mut x, mut y) = ([0xEE; 200], [0xEE; 200]);
    assert_eq!(read_sheet(form.family, sheet, &mut x, &mut y), refusal(14, place));
    assert_eq!(read_sheet(form.family, sheet, &mut [], &mut []), refusal(14, place));
    assert_eq!((x, y), ([0xEE; 200], [0xEE; 200]));
}

// ---- octets by hand

/// One assert, two pairs and two neighbours of IPv4, every field another one: at
/// 28 + 20 = 48, 48 + 24 = 72, 72 + 32 = 104.
const IPV4: &str = "FFFF 0003 00000001 0000001C 00000002 00000030 00000002 00000048
    01000000 E1020304 05060708 890A0B0C 0D0E0F10
    01000000 EE111213 14151617 01000000 EF18191A 00000000
    01000000 1F202122 23242526 01 00 2728 01000000 33343536 00000000 02 00 3738";

/// The same sheet as E6 and 01 have it.
const IPV4_SECOND: &str = "FFFF 0002 00000001 0000001C 00000002 0000002C 00000002 0000003C
    E1020304 05060708 890A0B0C 0D0E0F10
    EE111213 14151617 EF18191A 00000000
    1F202122 23242526 01 00 2728 33343536 00000000 02 00 3738";
const IPV4_BASE: &str = "0001 000C 0002 001C 0002 002C
    E1020304 05060708 890A0B0C 0D0E0F10
    EE111213 14151617 EF18191A 00000000
    1F202122 23242526 01 00 2728 33343536 00000000 02 00 3738";

/// As many of IPv6: at 28 + 44 = 72, 72 + 72 = 144, 144 + 56 = 200.
const IPV6: &str = "FFFF 0004 00000001 0000001C 00000002 00000048 00000002 00000090
    02000000 FF020304 05060708 090A0B0C 0D0E0F10 21222324 25262728 292A2B2C 2D2E2F30 B1323334 35363738
    02000000 FF111213 14151617 18191A1B 1C1D1E1F 41424344 45464748 494A4B4C 4D4E4F50
    02000000 FF515253 54555657 58595A5B 5C5D5E5F 00000000 00000000 00000000 00000000
    02000000 61626364 65666768 696A6B6C 6D6E6F70 71727374 03 00 7576
    02000000 81828384 85868788 898A8B8C 8D8E8F90 00000000 00 00 9192";

#[test]
fn octets() {
    let sheets = [(BASE, IPV4_BASE), (SECOND, IPV4_SECOND), (THIRD, IPV4), (FOURTH, IPV6)];
    for (form, octets) in sheets {
        let sheet = hex(octets);
        let new = if form.family == Family::Ipv4 { hex(IPV4) } else { hex(IPV6) };
        let (asserts, pairs, table) = read(form, &sheet, [1, 2, 2]);
        let (assert, pair) = (form.family.assert_entry(), 2 * form.family.pair_entry());
        assert_eq!([asserts, pairs].concat(), new[28..28 + assert + pair]);
        assert_eq!(again(form, &sheet, [1, 2, 2]), new);
        let row = table.rows[1];
        assert_eq!((row.has_priority, row.priority), (false, 0));
        let (address, first) = (u128::from(row.address), table.rows[0]);
        match form.family {
            Family::Ipv4 => {
                assert_eq!((address, row.packs, row.holdtime), (0x3334_3536, true, 0x3738));
                assert_eq!((first.priority, first.packs, first.holdtime), (0x2324_2526, false, 0x2728));
            }
            Family::Ipv6 => {
                assert_eq!(address, 0x8182_8384_8586_8788_898A_8B8C_8D8E_8F90);
                assert_eq!((row.packs, row.holdtime), (false, 0x9192));
                assert_eq!((first.priority, first.packs, first.holdtime), (0x7172_7374, true, 0x7576));
            }
        }
    }
}

#[test]
fn empty_sheets() {
    let old = [hex("0000 000C 0000 000C 0000 000C"), hex(EMPTY[0])];
    for (form, sheet) in
        [(BASE, &old[0]), (SECOND, &old[1]), (THIRD, &hex(EMPTY[1])), (FOURTH, &hex(EMPTY[2]))]
    {
        assert_eq!(read_sheet(form.family, sheet, &mut [], &mut []), Ok((0, 0, Table::empty())));
        let new = if form.family == Family::Ipv4 { EMPTY[1] } else { EMPTY[2] };
        assert_eq!(again(form, sheet, [0; 3]), hex(new));
        let mut buffer = [0xEE; 27];
        assert_eq!(write_sheet(form.family, &[], &[], &Table::empty(), &mut buffer), refusal(8, 0));
        assert_eq!(buffer, [0xEE; 27]);
    }
}

const EMPTY: [&str; 3] = [
    "FFFF 0002 00000000 0000001C 00000000 0000001C 00000000 0000001C",
    "FFFF 0003 00000000 0000001C 00000000 0000001C 00000000 0000001C",
    "FFFF 0004 00000000 0000001C 00000000 0000001C 00000000 0000001C",
];

#[test]
fn round_trips() {
    let mut rng = Rng::new(14);
    for counts in [[0, 0, 0], [1, 0, 16], [0, 1, 0], [7, 9, 3], [1024, 1024, 16], [8192, 8192, 64]] {
        let [a, p, n] = counts;
        for family in Family::ALL {
            let (asserts, pairs) = match family {
                Family::Ipv4 => (random_entries(&mut rng, a), random_pairs(&mut rng, p, 0)),
                Family::Ipv6 => (v6::random_entries(&mut rng, a), v6::random_pairs(&mut rng, p, 0)),
            };
            let sheet = write(family, &asserts, &pairs, &table(family, n));
            let form = SheetForm::written(family);
            assert_eq!(read(form, &sheet, counts), (asserts.clone(), pairs.clone(), table(family, n)));
            // Room past the entries stays.
            let (mut x, mut y) = (vec![0xEE; asserts.len() + 5], vec![0xEE; pairs.len() + 5]);
            assert!(read_sheet(family, &sheet, &mut x, &mut y).is_ok());
            assert_eq!((&x[..asserts.len()], &y[..pairs.len()]), (&asserts[..], &pairs[..]));
            assert_eq!((&x[asserts.len()..], &y[pairs.len()..]), (&[0xEE; 5][..], &[0xEE; 5][..]));
        }
    }
}

// ---- faults of the header

#[test]
fn every_cut_and_every_change_of_the_header() {
    for form in SHEET_FORMS {
        for counts in [[1, 2, 3], [0, 0, 0]] {
            let sheet = form.sheet_of(counts);
            (0..sheet.len()).for_each(|length| fault(form, &sheet[..length], 0));
            (1..40).for_each(|more| fault(form, &[&sheet[..], &vec![0; more]].concat(), 0));
            for (at, change) in (0..form.header()).flat_map(|at| (1..=255).map(move |change| (at, change))) {
                let mut changed = sheet.clone();
                changed[at] ^= change;
                // 2 and 3 tell forms of IPv4, whose entries have other sizes; with none they are both.
                if counts != [0; 3]
                    || at != 3
                    || changed[3] != 2 && changed[3] != 3
                    || form == FOURTH
                    || form == BASE
                {
                    fault(form, &changed, 0);
                }
            }
        }
    }
}

/// An empty section's offset is exact too.
#[test]
fn offsets() {
    for form in SHEET_FORMS {
        for counts in [[0, 0, 0], [2, 0, 0], [0, 2, 0], [0, 0, 2]] {
            let sheet = form.sheet_of(counts);
            assert_eq!(check_sheet(form.family, &sheet), Ok(counts));
            for (at, change) in [1, 3, 5].into_iter().flat_map(|at| [1, 4, 0x400].map(|change| (at, change)))
            {
                let mut numbers = form.numbers(counts);
                numbers[at] ^= change;
                fault(form, &[&form.header_of(numbers), &sheet[form.header()..]].concat(), 0);
            }
        }
    }
}

/// A sheet of every form, named as the other family: 14 at 0, also where it is
/// empty, and before anything else is looked at.
#[test]
fn other_families() {
    for form in SHEET_FORMS {
        let other = SheetForm {
            family: if form.family == Family::Ipv4 { Family::Ipv6 } else { Family::Ipv4 },
            ..form
        };
        for counts in [[0, 0, 0], [1, 0, 0], [0, 1, 0], [0, 0, 1], [1, 2, 3]] {
            fault(other, &form.sheet_of(counts), 0);
        }
        // The same header, with entries of the other family behind it.
        let swapped = SheetForm { number: form.number, ..SheetForm::written(other.family) };
        if form.number == Some(3) || form.number == Some(4) {
            fault(swapped, &swapped.sheet_of([1, 2, 3]), 0);
        }
    }
}

/// Behind 0xFFFF stand 2, 3 or 4; the other words begin no form.
#[test]
fn numbers_and_first_words() {
    for form in [SECOND, THIRD, FOURTH] {
        for number in (0..=u16::MAX).filter(|number| Some(*number) != form.number) {
            let mut sheet = form.sheet_of([1, 2, 3]);
            sheet[2..4].copy_from_slice(&number.to_be_bytes());
            assert_eq!(check_sheet(form.family, &sheet), refusal(14, 0), "{form:?} as {number}");
        }
        for word in 0..0xFFFFu16 {
            let mut sheet = form.sheet_of([1, 2, 3]);
            sheet[..2].copy_from_slice(&word.to_be_bytes());
            assert_eq!(check_sheet(form.family, &sheet), refusal(14, 0), "{form:?} as {word}");
        }
    }
}

// ---- faults of entries

/// Two asserts, the second with R=1 and source 0, two pairs, the second with
/// source 0, and three neighbours.
const SMALL: [usize; 3] = [2, 2, 3];

fn small(form: SheetForm) -> Vec<u8> {
    let asserts = [form.assert(form.group(0), 1, 2, 3), form.assert(form.group(1), 0, R, 3)].concat();
    let pairs = [form.pair(form.group(0), 1), form.pair(form.group(9), 0)].concat();
    form.sheet(&asserts, &pairs, &form.rows(&neighbours(form.family, 3)))
}

/// `small` with octets put into an entry, at so many octets behind its prefix.
fn changed(form: SheetForm, section: usize, entry: usize, at: usize, octets: &[u8]) -> (Vec<u8>, usize) {
    let mut sheet = small(form);
    let place = form.place(SMALL, section, entry);
    sheet[place + form.prefix().len() + at..][..octets.len()].copy_from_slice(octets);
    (sheet, place)
}

#[test]
fn entries() {
    for form in SHEET_FORMS {
        let width = form.family.width();
        let no_group = if width == 4 { 0xDF } else { 0xFE };
        let address = |i: u128| form.octets(u128::from(neighbours(form.family, 1)[0].address) + i);
        // Of a neighbour: priority, flags, zero octet, holdtime behind the address.
        let changes: Vec<(usize, usize, usize, Vec<u8>)> = vec![
            (0, 0, 0, vec![no_group]),
            (0, 0, width, vec![0; width]),
            (0, 1, 0, vec![no_group]),
            (0, 1, 2 * width, vec![0]),
            (1, 0, 0, vec![0x0A]),
            (1, 1, 0, vec![0x0A]),
            (2, 0, 0, vec![0; width]),
            (2, 1, 0, address(0)),
            (2, 2, 0, address(1)),
            (2, 1, width + 3, vec![1]),
            (2, 2, width + 4, vec![4]),
            (2, 2, width + 5, vec![1]),
            (2, 2, width + 6, vec![0, 0]),
        ];
        for (section, entry, at, octets) in changes {
            let (sheet, place) = changed(form, section, entry, at, &octets);
            fault(form, &sheet, place);
        }
    }
}

/// Every other octet in a prefix, of every entry.
#[test]
fn prefixes() {
    for form in [THIRD, FOURTH] {
        let good = small(form);
        for (section, entry) in [(0, 0), (0, 1), (1, 0), (1, 1), (2, 0), (2, 1), (2, 2)] {
            let place = form.place(SMALL, section, entry);
            for (at, change) in (0..4).flat_map(|at| (1..=255).map(move |change| (at, change))) {
                let mut sheet = good.clone();
                sheet[place + at] ^= change;
                fault(form, &sheet, place);
            }
        }
    }
}

#[test]
fn no_sources() {
    for form in SHEET_FORMS {
        let (_, bad) = sources(form.family);
        for address in bad {
            for (section, entry) in [(0, 0), (0, 1), (1, 0), (1, 1)] {
                let octets = form.octets(address);
                let (sheet, place) = changed(form, section, entry, form.family.width(), &octets);
                fault(form, &sheet, place);
                // Offsets, counts and the end come first.
                for (at, number) in [(1, form.header() + 1), (1, 0), (0, form.most[0] + 1)] {
                    let mut numbers = form.numbers(SMALL);
                    numbers[at] = number;
                    fault(form, &[&form.header_of(numbers), &sheet[form.header()..]].concat(), 0);
                }
                fault(form, &sheet[..sheet.len() - 1], 0);
            }
        }
    }
}

/// Sources about the borders are read, and written in the new form; and the
/// address of a neighbour is no source.
#[test]
fn edge_addresses() {
    for form in SHEET_FORMS {
        let (good, bad) = sources(form.family);
        let new = SheetForm::written(form.family);
        for address in good {
            for (section, entry) in [(0, 0), (0, 1), (1, 0), (1, 1)] {
                let octets = form.octets(address);
                let (sheet, _) = changed(form, section, entry, form.family.width(), &octets);
                assert_eq!(
                    again(form, &sheet, SMALL),
                    changed(new, section, entry, form.family.width(), &octets).0
                );
            }
        }
        for address in bad {
            let octets = form.octets(address);
            let (sheet, _) = changed(form, 2, 1, 0, &octets);
            assert_eq!(again(form, &sheet, SMALL), changed(new, 2, 1, 0, &octets).0);
        }
    }
}

/// Wherever an entry is at fault; of two the first.
#[test]
fn each_entry_in_turn() {
    for form in SHEET_FORMS {
        let counts = [9, 9, 9];
        let good = form.sheet_of(counts);
        let mut all = good.clone();
        for (section, entry) in (0..3).flat_map(|section| (0..9).map(move |entry| (section, entry))).rev() {
            let place = form.place(counts, section, entry);
            let at = place + form.prefix().len();
            let mut sheet = good.clone();
            // Neither a group nor the address of a neighbour is 0.
            sheet[at..][..form.family.width()].fill(0);
            fault(form, &sheet, place);
            all[at..][..form.family.width()].fill(0);
            fault(form, &all, place);
        }
    }
}

/// Of each two neighbours with the same address the later one is at fault.
#[test]
fn neighbours_given_twice() {
    for form in SHEET_FORMS {
        let counts = [1, 1, form.most[2]];
        let sheet = form.sheet_of(counts);
        let at = |row: usize| form.place(counts, 2, row) + form.prefix().len();
        for (first, later) in (0..counts[2]).flat_map(|later| (0..later).map(move |first| (first, later))) {
            let mut changed = sheet.clone();
            changed.copy_within(at(first)..at(first) + form.family.width(), at(later));
            fault(form, &changed, form.place(counts, 2, later));
        }
    }
}

// ---- 8, and refusals of writing

#[test]
fn number_8_reading() {
    for form in SHEET_FORMS {
        let family = form.family;
        let sheet = small(form);
        let (assert, pair) = (2 * family.assert_entry(), 2 * family.pair_entry());
        let (mut x, mut y) = (vec![0xEE; assert], vec![0xEE; pair]);
        assert_eq!(read_sheet(family, &sheet, &mut x[..assert - 1], &mut y), refusal(8, 0));
        assert_eq!(read_sheet(family, &sheet, &mut x, &mut y[..pair - 1]), refusal(8, 0));
        assert_eq!(read_sheet(family, &sheet, &mut [], &mut []), refusal(8, 0));
        assert_eq!((&x, &y), (&vec![0xEE; assert], &vec![0xEE; pair]));
        assert_eq!(read_sheet(family, &sheet, &mut x, &mut y), Ok((2, 2, table(family, 3))));
    }
}

#[test]
fn writing_refusals() {
    for form in [THIRD, FOURTH] {
        let family = form.family;
        let mut buffer = vec![0xEE; 700_000];
        let mut write = |a: &[u8], p: &[u8], t: &Table, room: usize| {
            let answer = write_sheet(family, a, p, t, &mut buffer[..room]);
            assert!(buffer.iter().all(|octet| *octet == 0xEE));
            answer
        };
        let (assert, pair) = (family.assert_entry(), family.pair_entry());
        let bad_table = Table { count: 2, ..table(family, 3) };
        let (one, none) = (table(family, 1), table(family, 0));
        let (bad, bad_pair) = (vec![0; assert], vec![0; pair]);
        assert_eq!(write(&bad[1..], &[], &bad_table, 0), refusal(10, 0));
        assert_eq!(write(&bad.repeat(8193), &bad_pair[1..], &bad_table, 0), refusal(10, 0));
        assert_eq!(write(&bad.repeat(8193), &[], &none, 0), refusal(14, 0));
        assert_eq!(write(&[], &bad_pair.repeat(8193), &none, 0), refusal(14, 0));
        assert_eq!(write(&[], &[], &bad_table, 0), refusal(14, 0));
        assert_eq!(write(&[], &[], &Table { count: 65, ..table(family, 64) }, 0), refusal(14, 0));
        let length = 28 + assert + family.sheet_row();
        assert_eq!(write(&bad, &[], &one, length - 1), refusal(8, 0));
        assert_eq!(write(&bad, &[], &one, length), refusal(7, 0));
        let length = 28 + pair + family.sheet_row();
        assert_eq!(write(&[], &bad_pair, &one, length - 1), refusal(8, 0));
        assert_eq!(write(&[], &bad_pair, &one, length), refusal(7, 0));
        let group = form.group(0);
        let good = form.assert(group, 1, 1, 1);
        let good_pair = form.pair(group, 0);
        let mut bad_entries = vec![form.assert(group, 0, 1, 1)];
        let mut bad_pairs = Vec::new();
        for address in sources(family).1 {
            bad_entries.extend([form.assert(group, address, 1, 1), form.assert(group, address, R, 1)]);
            bad_pairs.push(form.pair(group, address));
        }
        for at in 0..4 {
            for change in 1..=255 {
                let (mut entry, mut pair) = (good.clone(), good_pair.clone());
                entry[at] ^= change;
                pair[at] ^= change;
                bad_entries.push(entry);
                bad_pairs.push(pair);
            }
        }
        let length = 28 + 2 * assert + 2 * pair;
        for bad in bad_entries {
            for list in [[bad.clone(), good.clone()], [good.clone(), bad]] {
                assert_eq!(write(&list.concat(), &good_pair.repeat(2), &none, length), refusal(7, 0));
                assert_eq!(write(&list.concat(), &good_pair.repeat(2), &none, length - 1), refusal(8, 0));
            }
        }
        for bad in bad_pairs {
            for list in [[bad.clone(), good_pair.clone()], [good_pair.clone(), bad]] {
                assert_eq!(write(&good.repeat(2), &list.concat(), &none, length), refusal(7, 0));
            }
        }
    }
}

/// A table with an address of the other family is no table of IPv4; as one of
/// IPv6 every number of 128 bits is an address.
#[test]
fn tables_of_the_other_family() {
    let other = table(Family::Ipv6, 3);
    let answer: Answer<usize> = write_sheet(Family::Ipv4, &[], &[], &other, &mut [0; 200]);
    assert_eq!(answer, refusal(14, 0));
    let mut mixed = table(Family::Ipv4, 3);
    mixed.rows[2].address.low |= 1 << 32;
    assert_eq!(write_sheet(Family::Ipv4, &[], &[], &mixed, &mut [0; 200]), refusal(14, 0));
    mixed.rows[2].address.low &= 0xFFFF_FFFF;
    mixed.rows[2].address.high = 1;
    assert_eq!(write_sheet(Family::Ipv4, &[], &[], &mixed, &mut [0; 200]), refusal(14, 0));
    assert_eq!(write_sheet(Family::Ipv6, &[], &[], &mixed, &mut [0; 200]), Ok(28 + 3 * 28));
    // Lists of the other family are not whole, or have another prefix.
    let asserts = THIRD.asserts(1);
    assert_eq!(
        write_sheet(Family::Ipv6, &asserts, &[], &table(Family::Ipv6, 0), &mut [0; 200]),
        refusal(10, 0)
    );
    let asserts = THIRD.asserts(11);
    assert_eq!(asserts.len(), 5 * 44);
    assert_eq!(
        write_sheet(Family::Ipv6, &asserts, &[], &table(Family::Ipv6, 0), &mut [0; 400]),
        refusal(7, 0)
    );
}

/// 9 entries of IPv4 pairs are 3 of IPv6.
#[test]
fn pairs_of_the_other_family() {
    let pairs = THIRD.pairs(9);
    assert_eq!(write_sheet(Family::Ipv6, &[], &pairs, &Table::empty(), &mut [0; 400]), refusal(7, 0));
    let pairs = FOURTH.pairs(1);
    assert_eq!(write_sheet(Family::Ipv4, &[], &pairs, &Table::empty(), &mut [0; 400]), refusal(7, 0));
}
