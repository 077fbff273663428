//! Stored sheets of all forms checked, read, written, and written again.

use super::forms::{section, SheetForm, AGAIN, BASE, NO_ROOM, SHEET_FORMS};
use super::lab::{of_number, Named, NEITHER};
use super::pack::misnamed;
use super::sources::{has_bad_prefix, is_bad, Accepted};
use super::tally::SAME_ENTRIES;
use super::{calls, expect, make, Run};
use second::neighbours::{packing_allowed, Table, ROWS};
use second::sheet::{check_sheet, read_sheet, write_sheet, ENTRIES_MOST};
use second::{Family, Path, Refusal};

/// First words about those that tell a form, and words after them.
const EDGES: [u16; 5] = [0, 1_024, 1_025, 65_534, 65_535];
const NUMBERS: [u16; 10] = [0, 1, 2, 3, 4, 5, 12, 28, 0x0200, 0x0300];

/// The forms of the family that is looked at.
fn forms(run: &Run) -> Vec<SheetForm> {
    SHEET_FORMS.into_iter().filter(|form| form.family == run.lab.family).collect()
}

pub fn compare(run: &mut Run) {
    for form in forms(run) {
        for counts in [[0, 0, 0], [1, 1, 1], [2, 3, 3], [0, 2, 0], [3, 0, 2]] {
            let sheet = make::sheet(&mut run.rng, form, counts);
            damaged(run, &sheet);
            headers(run, form, counts, &sheet);
        }
        limits(run, form);
        sources(run, form);
        addresses(run, form);
    }
    for _ in 0..run.rounds {
        forms(run).into_iter().for_each(|form| full(run, form));
        full_lists(run);
    }
    for _ in 0..12_000 * run.rounds {
        random_reading(run);
        random_writing(run);
    }
    for _ in 0..500 * run.rounds {
        shared(run);
    }
}

/// Each octet changed to several values, cut at each octet, octets more.
fn damaged(run: &mut Run, sheet: &[u8]) {
    read_rooms(run, sheet);
    for at in 0..sheet.len() {
        for octet in make::other_values(&mut run.rng, sheet[at]) {
            let mut changed = sheet.to_vec();
            changed[at] = octet;
            read_rooms(run, &changed);
        }
        read_rooms(run, &sheet[..at]);
    }
    for more in 1..20 {
        let long = [sheet, &make::octets(&mut run.rng, more)].concat();
        read_rooms(run, &long);
    }
}

/// A sheet with each number of its header changed; and with offsets that count
/// from other places, the first of them or all.
fn headers(run: &mut Run, form: SheetForm, counts: [usize; 3], sheet: &[u8]) {
    let numbers = form.numbers(counts);
    let mut with = |numbers| read_rooms(run, &[&form.header_of(numbers), &sheet[form.header..]].concat());
    for (at, number) in numbers.into_iter().enumerate() {
        for other in make::other_numbers(number, form) {
            let mut numbers = numbers;
            numbers[at] = other;
            with(numbers);
        }
    }
    for header in 0..60 {
        let mut numbers = SheetForm { header, ..form }.numbers(counts);
        with(numbers);
        numbers[1] = form.header;
        with(numbers);
    }
}

/// Each count at its limit, one over it, and more, the others any; and all of
/// them one over. Offsets and end are as the counts ask.
fn limits(run: &mut Run, form: SheetForm) {
    let with = |run: &mut Run, counts| {
        let sheet = make::sheet(&mut run.rng, form, counts);
        read_rooms(run, &sheet);
    };
    for (at, more) in (0..3).flat_map(|at| (0..120).map(move |more| (at, more / 4))) {
        for most in [BASE.most[at], form.most[at]] {
            let mut counts = [run.below(3), run.below(3), run.below(3)];
            counts[at] = most + more;
            with(run, counts);
        }
    }
    with(run, form.most.map(|most| most + 1));
}

/// Each source of a small sheet with each of the addresses, read and written:
/// alone, and with another fault before or after it.
fn sources(run: &mut Run, form: SheetForm) {
    let counts = [3, 3, 2];
    let (lab, width) = (run.lab, form.family.width());
    let sheet = make::sheet(&mut run.rng, form, counts);
    let table = make::table_of(lab, &mut run.rng, 2);
    let places: Vec<usize> =
        (0..2).flat_map(|section| (0..3).map(move |entry| form.place(counts, section, entry))).collect();
    for (entry, address) in places.iter().flat_map(|entry| lab.addresses().map(|address| (*entry, address))) {
        let mut sheet = sheet.clone();
        sheet[entry + form.prefix() + width..][..width].copy_from_slice(&lab.octets(address));
        read_rooms(run, &sheet);
        let [at_asserts, at_pairs, at_rows] = [0, 1, 2].map(|section| form.place(counts, section, 0));
        if form == SheetForm::written(form.family) {
            let exact = at_rows + form.sizes()[2] * table.count;
            for room in [exact, exact - 1] {
                write_one(run, &sheet[at_asserts..at_pairs], &sheet[at_pairs..at_rows], &table, room);
            }
        }
        for at in (run.below(2)..sheet.len()).step_by(2) {
            let mut changed = sheet.clone();
            changed[at] ^= 0x0F;
            read_rooms(run, &changed);
        }
    }
}

/// Each two of as many neighbours as there may be with the same address.
fn addresses(run: &mut Run, form: SheetForm) {
    let counts = [1, 1, form.most[2]];
    let (sheet, width) = (make::sheet(&mut run.rng, form, counts), form.family.width());
    let row = |i: usize| form.place(counts, 2, i) + form.prefix();
    for (first, later) in (0..counts[2]).flat_map(|later| (0..later).map(move |first| (first, later))) {
        let mut sheet = sheet.clone();
        sheet.copy_within(row(first)..row(first) + width, row(later));
        read_rooms(run, &sheet);
    }
}

/// Every first word before sheets of the forms by turns, and every number after
/// 0xFFFF; in each family.
pub fn compare_beginnings(run: &mut Run) {
    let sheets = SHEET_FORMS.map(|form| make::sheet(&mut run.rng, form, [1, 1, 1]));
    for (i, word) in (0..=u16::MAX).map(u16::to_be_bytes).enumerate() {
        let large = &sheets[1 + i % 3];
        for sheet in [&sheets[0], large] {
            read_either(run, &[&word, &sheet[2..]].concat());
        }
        read_either(run, &[&[0xFF, 0xFF], &word[..], &large[4..]].concat());
    }
    // Those at the edges before many sheets.
    for (first, number) in
        EDGES.iter().flat_map(|first| NUMBERS.map(|number| (first.to_be_bytes(), number.to_be_bytes())))
    {
        for form in SHEET_FORMS.repeat(40) {
            let counts = [run.below(4), run.below(4), run.below(4)];
            let sheet = make::sheet(&mut run.rng, form, counts);
            read_either(run, &[&first, &number, &sheet[4..]].concat());
        }
    }
}

/// A sheet as one of either family.
fn read_either(run: &mut Run, sheet: &[u8]) {
    let family = make::pick(&mut run.rng, &[Family::Ipv4, Family::Ipv4, Family::Ipv6]);
    read_as(run, family.number(), sheet);
}

/// The greatest sheet of a form, good and with one fault. Of most of them it is
/// only checked that they are one.
fn full(run: &mut Run, form: SheetForm) {
    let [asserts, pairs, neighbours] = form.most;
    let sheet = make::sheet(&mut run.rng, form, form.most);
    read_rooms(run, &sheet);
    let (all, rows) = (sheet.len(), form.sizes()[2] * neighbours);
    // Anywhere, in the header, and among the neighbours.
    for (from, octets) in [(0, all), (0, all), (0, form.header), (all - rows, rows)].repeat(80) {
        let mut changed = sheet.clone();
        let at = from + run.below(octets);
        changed[at] ^= 1 << run.below(8);
        one_in_rooms(run, 6, &changed);
    }
    for _ in 0..60 {
        let mut changed = sheet.clone();
        make::spoil_sheet(&mut run.rng, &mut changed, form, [asserts, pairs]);
        one_in_rooms(run, 6, &changed);
        let cut = run.below(sheet.len());
        one_in_rooms(run, 6, &sheet[..cut]);
    }
}

/// A sheet that is checked; one of so many is read too.
fn one_in_rooms(run: &mut Run, n: usize, sheet: &[u8]) {
    if run.rng.one_in(n) {
        read_rooms(run, sheet);
    } else {
        check_one(run, run.lab.family.number(), sheet);
    }
}

/// Lists at their limits and over them, good and with one entry at fault.
fn full_lists(run: &mut Run) {
    let (lab, family) = (run.lab, run.lab.family);
    for asserts in [ENTRIES_MOST, ENTRIES_MOST + 1] {
        for pairs in [ENTRIES_MOST, ENTRIES_MOST + 1] {
            let mut asserts = make::asserts(lab, &mut run.rng, asserts);
            let mut pairs = make::pairs(lab, &mut run.rng, pairs, true);
            let table = make::table_of(lab, &mut run.rng, ROWS);
            full_rooms(run, &asserts, &pairs, &table);
            make::spoil_entry(lab, &mut run.rng, &mut pairs, family.pair_entry());
            full_rooms(run, &asserts, &pairs, &table);
            make::spoil_entry(lab, &mut run.rng, &mut asserts, family.assert_entry());
            full_rooms(run, &asserts, &pairs, &table);
        }
    }
}

/// Rooms about the octets of the greatest sheet.
fn full_rooms(run: &mut Run, asserts: &[u8], pairs: &[u8], table: &Table) {
    let form = SheetForm::written(run.lab.family);
    let longest = form.place(form.most, 2, ROWS);
    for room in [longest - 1, longest, longest + 1, longest + 3_000] {
        write_one(run, asserts, pairs, table, room);
    }
}

fn random_reading(run: &mut Run) {
    let forms = forms(run);
    let form = make::pick(&mut run.rng, &forms);
    let neighbours = if run.rng.one_in(20) { form.most[2] + 1 } else { run.below(form.most[2] + 1) };
    let counts = [run.below(6), run.below(6), neighbours];
    let mut sheet = make::sheet(&mut run.rng, form, counts);
    read_rooms(run, &sheet);
    if run.rng.one_in(3) {
        make::spoil_sheet(&mut run.rng, &mut sheet, form, [counts[0], counts[1]]);
        read_rooms(run, &sheet);
    }
    for _ in 0..=run.below(2) {
        let at = run.below(sheet.len());
        sheet[at] = make::pick(&mut run.rng, &[0, 1, 2, 3, 0xE0, 0xFF]);
    }
    read_rooms(run, &sheet);
    let random = make::sheet_octets(&mut run.rng);
    read_rooms(run, &random);
}

/// Lists and a table, each sometimes at fault, and any room.
fn random_writing(run: &mut Run) {
    let (lab, family) = (run.lab, run.lab.family);
    let (asserts, pairs) = (run.below(5), run.below(5));
    let mut asserts = make::asserts(lab, &mut run.rng, asserts);
    let mut pairs = make::pairs(lab, &mut run.rng, pairs, true);
    let mut table = make::table(lab, &mut run.rng);
    if run.rng.one_in(4) {
        make::spoil_entry(lab, &mut run.rng, &mut asserts, family.assert_entry());
    }
    if run.rng.one_in(4) {
        make::spoil_entry(lab, &mut run.rng, &mut pairs, family.pair_entry());
    }
    if run.rng.one_in(8) {
        asserts.truncate(run.below(asserts.len() + 1));
    }
    if run.rng.one_in(8) {
        pairs.truncate(run.below(pairs.len() + 1));
    }
    if run.rng.one_in(4) {
        table = make::spoiled_table(lab, &mut run.rng);
    }
    let exact = 28 + asserts.len() + pairs.len() + family.sheet_row() * table.count.min(ROWS);
    for room in [exact, exact - 1, exact + 1 + run.below(20), run.below(exact)] {
        write_one(run, &asserts, &pairs, &table, room);
    }
}

/// One list lent both as asserts and as pairs, which a call only reads. Only an
/// empty one is both.
fn shared(run: &mut Run) {
    let (lab, count) = (run.lab, run.below(4));
    let asserts = make::asserts(lab, &mut run.rng, 9 * count);
    let pairs = make::pairs(lab, &mut run.rng, 5 * count, true);
    let list = if run.rng.one_in(2) { asserts } else { pairs };
    let lent = run.input("asserts and pairs", &list);
    let (table, family) = (make::table(lab, &mut run.rng), lab.family);
    for room in [4_000, 28 + 2 * list.len() + family.sheet_row() * table.count] {
        let mut buffer = run.room("buffer", room);
        let form = expect::table_form(&table);
        let first = calls::write_sheet(family.number(), &lent, &lent, form, &mut buffer);
        let answer = write_sheet(family, lent.second(), lent.second(), &table, buffer.second_mut());
        let numbers = format_args!("{family:?}, room {room}, {table:?}");
        run.tally.call("pim_write_sheet", numbers, &[&lent, &buffer], &first, &expect::length(answer));
    }
}

/// Both reading calls of the family that is looked at; and sometimes told
/// another, or none.
fn read_rooms(run: &mut Run, sheet: &[u8]) {
    read_as(run, run.lab.family.number(), sheet);
    if run.rng.one_in(16) {
        let family = misnamed(run).family;
        read_as(run, family, sheet);
    }
}

/// Both reading calls, the rooms less, exactly enough and more. What a good sheet
/// gives is written again.
fn read_as(run: &mut Run, number: u8, sheet: &[u8]) {
    check_one(run, number, sheet);
    let (Some(family), Ok([asserts, pairs, _])) =
        (Family::from_number(number), of_number(number, |family| check_sheet(family, sheet)))
    else {
        let (asserts, pairs) = (run.below(100), run.below(100));
        read_one(run, number, sheet, asserts, pairs);
        return;
    };
    let (asserts, pairs) = (family.assert_entry() * asserts, family.pair_entry() * pairs);
    if let Some((entries, table)) = read_one(run, number, sheet, asserts, pairs) {
        written_again(run, family, sheet, &entries, &table);
    }
    read_one(run, number, sheet, asserts.saturating_sub(1), pairs);
    read_one(run, number, sheet, asserts, pairs.saturating_sub(1));
    let (more, much) = (run.below(20), run.below(20));
    read_one(run, number, sheet, asserts + more, pairs + much);
}

fn check_one(run: &mut Run, number: u8, sheet: &[u8]) {
    let lent = run.input("sheet", sheet);
    let answer = of_number(number, |family| check_sheet(family, sheet));
    let (first, second) = (calls::check_sheet(number, &lent), expect::check(answer));
    run.tally.call("pim_check_sheet", format_args!("family {number}"), &[&lent], &first, &second);
    run.forms.named("pim_check_sheet", number);
    if let Some(family) = Family::from_number(number) {
        run.forms.checked(family, sheet, &answer);
    }
}

/// The asserts and the pairs that both gave, and the table.
type Given = ([Vec<u8>; 2], Table);

/// One call, and what it gave.
fn read_one(run: &mut Run, number: u8, sheet: &[u8], assert_room: usize, pair_room: usize) -> Option<Given> {
    let lent = run.input("sheet", sheet);
    let mut asserts = run.room("asserts", assert_room);
    let mut pairs = run.room("pairs", pair_room);
    let first = calls::read_sheet(number, &lent, &mut asserts, &mut pairs);
    let answer =
        of_number(number, |family| read_sheet(family, sheet, asserts.second_mut(), pairs.second_mut()));
    let second = expect::sheet(answer);
    let numbers = format_args!("family {number}, rooms {assert_room} and {pair_room}");
    run.tally.call("pim_read_sheet", numbers, &[&lent, &asserts, &pairs], &first, &second);
    run.forms.named("pim_read_sheet", number);
    let family = Family::from_number(number)?;
    match answer {
        Ok((count, others, table)) => {
            let sizes = [family.assert_entry(), family.pair_entry()];
            let entries = [&asserts.first()[..sizes[0] * count], &pairs.first()[..sizes[1] * others]];
            run.sources(family).accepted(Accepted::InSheet, entries[0], sizes[0]);
            run.sources(family).accepted(Accepted::InSheet, entries[1], sizes[1]);
            return Some((entries.map(<[u8]>::to_vec), table));
        }
        Err(Refusal { number: 14, place, .. }) if place > 0 => entry_at_fault(run, family, sheet, place),
        Err(Refusal { number: 8, .. }) => run.forms.of_sheet(NO_ROOM, sheet),
        Err(_) => (),
    }
    None
}

/// The entry of a sheet that begins at a place, by the header, which is good.
fn entry_at_fault(run: &mut Run, family: Family, sheet: &[u8], place: usize) {
    let Some(form) = SheetForm::of(sheet) else {
        return;
    };
    let Some(numbers) = form.read(sheet) else {
        return;
    };
    let [assert, pair, _] = form.sizes();
    // As it would stand in a list.
    let prefix = [family.number(), 0, 0, 0];
    let entry = |size: usize| [&prefix[..4 - form.prefix()], &sheet[place..place + size]].concat();
    match section(numbers, place) {
        0 => run.sources(family).entry("assert of a sheet read", &entry(assert)),
        1 => run.sources(family).entry("pair of a sheet read", &entry(pair)),
        _ => (),
    }
}

/// What a sheet gives, written again: the form of its family, with the same
/// sections behind each entry's prefix.
fn written_again(
    run: &mut Run,
    family: Family,
    sheet: &[u8],
    [asserts, pairs]: &[Vec<u8>; 2],
    table: &Table,
) {
    let Some(form) = SheetForm::of(sheet) else {
        return;
    };
    let new = SheetForm::written(family);
    let counts = [asserts.len() / new.sizes()[0], pairs.len() / new.sizes()[1], table.count];
    let prefix = &[family.number(), 0, 0, 0][..4 - form.prefix()];
    let mut same = new.header_of(new.numbers(counts));
    for section in 0..3 {
        for entry in 0..counts[section] {
            same.extend_from_slice(prefix);
            same.extend_from_slice(&sheet[form.place(counts, section, entry)..][..form.sizes()[section]]);
        }
    }
    let written = write_named(run, family.number(), asserts, pairs, table, same.len());
    let lent = run.input("sheet", sheet);
    run.tally.claim(SAME_ENTRIES, format_args!("counts {counts:?}"), &lent, written == same);
    run.forms.of_sheet(AGAIN, sheet);
}

/// One call, of the family that is looked at; sometimes another one that names
/// none, or the other.
fn write_one(run: &mut Run, asserts: &[u8], pairs: &[u8], table: &Table, room: usize) {
    write_named(run, run.lab.family.number(), asserts, pairs, table, room);
    if run.rng.one_in(16) {
        let other = run.lab.other().family.number();
        let family = if run.rng.one_in(2) { other } else { make::pick(&mut run.rng, &NEITHER) };
        write_named(run, family, asserts, pairs, table, room);
    }
}

/// All of the buffer that the first implementation was lent.
fn write_named(
    run: &mut Run,
    number: u8,
    asserts: &[u8],
    pairs: &[u8],
    table: &Table,
    room: usize,
) -> Vec<u8> {
    let (asserts, pairs) = (run.input("asserts", asserts), run.input("pairs", pairs));
    let mut buffer = run.room("buffer", room);
    let form = expect::table_form(table);
    let first = calls::write_sheet(number, &asserts, &pairs, form, &mut buffer);
    let answer = of_number(number, |family| {
        write_sheet(family, asserts.second(), pairs.second(), table, buffer.second_mut())
    });
    let numbers = format_args!("family {number}, room {room}, {table:?}");
    let second = expect::length(answer);
    run.tally.call("pim_write_sheet", numbers, &[&asserts, &pairs, &buffer], &first, &second);
    run.forms.named("pim_write_sheet", number);
    run.forms.of_table("pim_write_sheet", table.count);
    if let (Err(refusal), Some(lab)) = (answer, Named { family: number, path: Path::default() }.lab()) {
        let sizes = [lab.family.assert_entry(), lab.family.pair_entry()];
        let asserts = asserts.second().chunks(sizes[0]).map(|entry| ("assert of a sheet written", entry));
        let pairs = pairs.second().chunks(sizes[1]).map(|entry| ("pair of a sheet written", entry));
        let bad = asserts.chain(pairs).find(|(_, entry)| refusal.number == 7 && is_bad(lab, entry, true));
        if let Some((what, entry)) = bad {
            run.sources(lab.family).entry(what, entry);
            if has_bad_prefix(lab, entry) {
                run.forms.foreign("pim_write_sheet", number);
            }
        }
        if refusal.number == 14 && packing_allowed(Family::Ipv6, table).is_ok() && lab.is_ipv4() {
            run.forms.foreign("pim_write_sheet", number);
        }
    }
    buffer.first().to_vec()
}
