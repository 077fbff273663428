//! The limits of all forms of sheet, their greatest sheets, and older sheets that
//! are read and written again.
mod common;
use common::sheets::*;
use common::*;
use second::neighbours::Table;
use second::rng::Rng;
use second::sheet::{check_sheet, read_sheet, write_sheet};
use second::Family;

/// What a sheet gives, with exactly the room that it needs.
fn read(form: SheetForm, sheet: &[u8], counts: [usize; 3]) -> (Vec<u8>, Vec<u8>, Table) {
    let family = form.family;
    let mut x = vec![0xEE; family.assert_entry() * counts[0]];
    let mut y = vec![0xEE; family.pair_entry() * counts[1]];
    let (a, p, table) = read_sheet(family, sheet, &mut x, &mut y).expect("the sheet is good");
    assert_eq!([a, p, table.count], counts);
    (x, y, table)
}

/// What a sheet gives, written again.
fn again(form: SheetForm, sheet: &[u8], counts: [usize; 3]) -> Vec<u8> {
    let (asserts, pairs, table) = read(form, sheet, counts);
    let length = 28 + asserts.len() + pairs.len() + form.family.sheet_row() * counts[2];
    let mut buffer = vec![0xEE; length];
    assert_eq!(write_sheet(form.family, &asserts, &pairs, &table, &mut buffer), Ok(length));
    buffer
}

fn fault(form: SheetForm, sheet: &[u8], place: usize) {
    assert_eq!(check_sheet(form.family, sheet), refusal(14, place));
    assert_eq!(read_sheet(form.family, sheet, &mut [], &mut []), refusal(14, place));
}

/// Asserts and pairs in octets, from 28 on: 20 * 8,192 = 163,840 (0x28000) and
/// 12 * 8,192 = 98,304 (0x18000), and 16 * 64 = 1,024 more; in IPv6 360,448
/// (0x58000), 294,912 (0x48000) and 1,792.
#[test]
fn the_greatest_sheets() {
    let greatest = [
        (SECOND, 197_404, "FFFF 0002 00002000 0000001C 00002000 0002001C 00000040 0003001C"),
        (THIRD, 263_196, "FFFF 0003 00002000 0000001C 00002000 0002801C 00000040 0004001C"),
        (FOURTH, 657_180, "FFFF 0004 00002000 0000001C 00002000 0005801C 00000040 000A001C"),
    ];
    let counts = [8_192, 8_192, 64];
    for (form, length, header) in greatest {
        let sheet = form.sheet_of(counts);
        assert_eq!((sheet.len(), &sheet[..28]), (length, &hex(header)[..]));
        assert_eq!(check_sheet(form.family, &sheet), Ok(counts));
        let new = SheetForm::written(form.family);
        let (asserts, pairs, rows) = read(form, &sheet, counts);
        assert_eq!((&asserts, &pairs), (&new.asserts(8_192), &new.pairs(8_192)));
        assert_eq!(rows, table(form.family, 64));
        assert_eq!(again(form, &sheet, counts), new.sheet_of(counts));
        let mut buffer = vec![0xEE; new.sheet_of(counts).len() - 1];
        assert_eq!(write_sheet(form.family, &asserts, &pairs, &rows, &mut buffer), refusal(8, 0));
        assert!(buffer.iter().all(|octet| *octet == 0xEE));
        let (mut x, mut y) = (asserts.clone(), pairs.clone());
        let (assert_room, pair_room) = (x.len() - 1, y.len() - 1);
        assert_eq!(read_sheet(form.family, &sheet, &mut x[..assert_room], &mut y), refusal(8, 0));
        assert_eq!(read_sheet(form.family, &sheet, &mut x, &mut y[..pair_room]), refusal(8, 0));
    }
}

/// 12 + 16,384 is 0x400C, 8,192 more 0x600C, and 192 more 24,780. Written again
/// it has 28 + 20,480 (0x501C), 12,288 more (0x801C), and 256 more.
#[test]
fn the_greatest_sheet_of_the_base() {
    let counts = [1_024, 1_024, 16];
    let sheet = BASE.sheet_of(counts);
    assert_eq!((sheet.len(), &sheet[..12]), (24_780, &hex("0400 000C 0400 400C 0010 600C")[..]));
    assert_eq!(check_sheet(Family::Ipv4, &sheet), Ok(counts));
    let again = again(BASE, &sheet, counts);
    assert_eq!(again.len(), 28 + 20_480 + 12_288 + 256);
    assert_eq!(again[..28], hex("FFFF 0003 00000400 0000001C 00000400 0000501C 00000010 0000801C"));
    assert_eq!(again, THIRD.sheet_of(counts));
}

/// Each section alone, and all of them.
#[test]
fn at_the_limits() {
    for form in SHEET_FORMS {
        let [a, p, n] = form.most;
        for counts in [[a, 0, 0], [0, p, 0], [0, 0, n], [a, p, n], [a - 1, p - 1, n - 1]] {
            let sheet = form.sheet_of(counts);
            assert_eq!(again(form, &sheet, counts), SheetForm::written(form.family).sheet_of(counts));
        }
        for counts in
            [[a + 1, 0, 0], [0, p + 1, 0], [0, 0, n + 1], [a + 1, p, n], [a, p + 1, n], [a, p, n + 1]]
        {
            fault(form, &form.sheet_of(counts), 0);
        }
    }
}

/// The other forms may have what 01's may not.
#[test]
fn over_the_limits_of_the_base() {
    for counts in [[1_025, 0, 0], [0, 1_025, 0], [0, 0, 17], [1_025, 1_025, 17], [5_000, 3, 40]] {
        fault(BASE, &BASE.sheet_of(counts), 0);
        for form in [SECOND, THIRD, FOURTH] {
            let sheet = form.sheet_of(counts);
            assert_eq!(again(form, &sheet, counts), SheetForm::written(form.family).sheet_of(counts));
        }
    }
}

/// With offsets and end to match, as far as 16 bits hold them: 1,024 is the
/// last count that a sheet of 01's form may have.
#[test]
fn first_words_that_count() {
    for count in (0..40).chain(1_000..=1_024) {
        assert!(check_sheet(Family::Ipv4, &BASE.sheet_of([count, 0, 0])).is_ok());
        assert!(check_sheet(Family::Ipv4, &BASE.sheet_of([count, 1, 1])).is_ok());
    }
    for count in (1_025..1_060).chain([2_047, 2_048, 4_095, 4_096, 8_192, 32_768, 65_534, 65_535]) {
        fault(BASE, &BASE.sheet_of([count, 0, 0]), 0);
        fault(BASE, &BASE.sheet_of([count, 1, 1]), 0);
    }
}

#[test]
fn lists_over_the_limits() {
    for form in [THIRD, FOURTH] {
        let (family, rows) = (form.family, |n| table(form.family, n));
        let mut buffer = vec![0xEE; 700_000];
        let mut write = |a: usize, p: usize, table: &Table, room: usize| {
            let (asserts, pairs) = (form.asserts(a), form.pairs(p));
            let answer = write_sheet(family, &asserts, &pairs, table, &mut buffer[..room]);
            if answer.is_err() {
                assert!(buffer.iter().all(|octet| *octet == 0xEE));
            }
            buffer.fill(0xEE);
            answer
        };
        assert_eq!(write(8_193, 0, &rows(0), 700_000), refusal(14, 0));
        assert_eq!(write(0, 8_193, &rows(0), 700_000), refusal(14, 0));
        assert_eq!(write(0, 0, &Table { count: 65, ..rows(64) }, 700_000), refusal(14, 0));
        // 14 before 8.
        assert_eq!(write(8_193, 8_192, &rows(64), 0), refusal(14, 0));
        assert_eq!(write(8_192, 8_193, &rows(64), 0), refusal(14, 0));
        assert_eq!(write(8_192, 8_192, &rows(64), 0), refusal(8, 0));
        let [a, p, n] = form.sizes();
        assert_eq!(write(8_192, 0, &rows(0), 28 + 8_192 * a), Ok(28 + 8_192 * a));
        assert_eq!(write(0, 8_192, &rows(0), 28 + 8_192 * p), Ok(28 + 8_192 * p));
        assert_eq!(write(0, 0, &rows(64), 28 + 64 * n), Ok(28 + 64 * n));
        assert_eq!(write(0, 0, &rows(64), 27 + 64 * n), refusal(8, 0));
    }
}

/// Older sheets give the same entries with their family.
#[test]
fn older_sheets_written_again() {
    let mut rng = Rng::new(40);
    for _ in 0..2_000 {
        let counts = [rng.below(40), rng.below(40), rng.below(17)];
        let asserts = random_entries(&mut rng, counts[0]);
        let pairs = random_pairs(&mut rng, counts[1], 0);
        let bare = |entries: &[u8], size| -> Vec<u8> {
            entries.chunks(size).flat_map(|entry| entry[4..].to_vec()).collect()
        };
        let rows = neighbours(Family::Ipv4, counts[2]);
        for form in [BASE, SECOND] {
            let sheet = form.sheet(&bare(&asserts, 20), &bare(&pairs, 12), &form.rows(&rows));
            let given = (asserts.clone(), pairs.clone(), table(Family::Ipv4, counts[2]));
            assert_eq!(read(form, &sheet, counts), given);
            assert_eq!(again(form, &sheet, counts), THIRD.sheet(&asserts, &pairs, &THIRD.rows(&rows)));
        }
    }
}

/// Offsets count from the sheet's start, so that the first is 28, or 12: not
/// from the first count, from the end of the header, or as in another form.
#[test]
fn offsets_from_other_places() {
    let firsts = [0, 4, 8, 11, 12, 13, 16, 24, 27, 28, 29, 32, 40, 56];
    let counts = [[1, 2, 3], [0, 0, 0], [7, 0, 1]];
    for (form, counts) in SHEET_FORMS.iter().flat_map(|form| counts.map(|counts| (*form, counts))) {
        let body = &form.sheet_of(counts)[form.header()..];
        for first in firsts.into_iter().filter(|first| *first != form.header()) {
            let mut numbers = form.numbers(counts);
            for at in [1, 3, 5] {
                numbers[at] = numbers[at] + first - form.header().min(numbers[at] + first);
            }
            fault(form, &[&form.header_of(numbers), body].concat(), 0);
            // Only the first one is wrong.
            let mut numbers = form.numbers(counts);
            numbers[1] = first;
            fault(form, &[&form.header_of(numbers), body].concat(), 0);
        }
    }
}

/// Numbers of which the low 16 bits are right, and counts whose sections are
/// nothing in 32 bits.
#[test]
fn numbers_of_32_bits() {
    for form in [SECOND, THIRD, FOURTH] {
        let sheet = form.sheet_of([1, 2, 3]);
        for (at, bit) in (0..6).flat_map(|at| (16..32).map(move |bit| (at, bit))) {
            let mut numbers = form.numbers([1, 2, 3]);
            numbers[at] |= 1 << bit;
            fault(form, &[&form.header_of(numbers), &sheet[28..]].concat(), 0);
        }
        for (at, bit) in [0, 2, 4].into_iter().flat_map(|at| (26..32).map(move |bit| (at, bit))) {
            for count in [0, 1] {
                let mut counts = [0; 3];
                counts[at / 2] = count;
                let mut numbers = form.numbers(counts);
                numbers[at] += 1 << bit;
                fault(form, &[&form.header_of(numbers), &form.sheet_of(counts)[28..]].concat(), 0);
            }
        }
        fault(form, &form.header_of([0xFFFF_FFFF; 6]), 0);
    }
}

/// Entries far behind what 16 bits count: the last of each section, and the
/// first ones.
#[test]
fn places_in_the_greatest_sheets() {
    let counts = [8_192, 8_192, 64];
    for form in [SECOND, THIRD, FOURTH] {
        let sheet = form.sheet_of(counts);
        let mut all = sheet.clone();
        let entries = [(2, 63), (2, 0), (1, 8_191), (1, 4_000), (1, 0), (0, 8_191), (0, 4_000), (0, 0)];
        for (section, entry) in entries {
            let place = form.place(counts, section, entry);
            let at = place + form.prefix().len();
            let mut changed = sheet.clone();
            changed[at..at + form.family.width()].fill(0);
            fault(form, &changed, place);
            // The first of those that were changed so far.
            all[at..at + form.family.width()].fill(0);
            fault(form, &all, place);
        }
    }
}
