//! The neighbour table and the election.

use super::expect::address_form;
use super::lab::of_number;
use super::lent::Lent;
use super::pack::misnamed;
use super::sources::{HEARD, OWN};
use super::{calls, expect, ffi, make, Run};
use second::neighbours::*;
use second::{Address, Family};

pub fn compare(run: &mut Run) {
    run.tally.call(
        "pim_table_empty",
        format_args!("nothing"),
        &[],
        &calls::table_empty(),
        &expect::table_form(&Table::empty()),
    );
    for _ in 0..160 * run.rounds {
        let table = make::table(run.lab, &mut run.rng);
        history(run, Table::empty());
        history(run, table);
    }
    for _ in 0..20_000 * run.rounds {
        let table = make::table(run.lab, &mut run.rng);
        every_call(run, &table);
        let table = make::spoiled_table(run.lab, &mut run.rng);
        every_call(run, &table);
    }
    each_fault(run);
    each_two(run);
}

/// Elections over lent lists, which name no family.
pub fn compare_lists(run: &mut Run) {
    lists(run);
}

/// Neighbours that come and go, from a table on.
fn history(run: &mut Run, mut table: Table) {
    for _ in 0..80 {
        let (family, address) = (run.lab.family, any_address(run, &table));
        if run.rng.one_in(5) {
            forget_one(run, &table, address);
            table = forget(family, table, address).unwrap_or(table);
        } else {
            let said = said(run);
            hear_one(run, &table, address, said);
            table = hear(family, table, address, expect::said(said)).unwrap_or(table);
        }
        questions(run, &table, address);
    }
}

/// An address of the table, another one, one of all families and of IPv6 alone,
/// or 0.
fn any_address(run: &mut Run, table: &Table) -> Address {
    match run.below(12) {
        0 => Address::default(),
        1..=3 => table.rows[run.below(ROWS)].address,
        4 if run.rng.one_in(2) => make::pick(&mut run.rng, &run.lab.addresses()).into(),
        4 => make::pick(&mut run.rng, &[0x7FFF_FFFFu32, 0x8000_0000, 0xE000_0001, u32::MAX]).into(),
        5 => make::foreign(&mut run.rng),
        _ => make::address(run.lab, &mut run.rng),
    }
}

/// The family that a call is told: mostly the one of the lab.
fn told(run: &mut Run) -> u8 {
    if run.rng.one_in(16) {
        return misnamed(run).family;
    }
    run.lab.family.number()
}

/// A Hello; a priority may stand beside a flag of 0.
fn said(run: &mut Run) -> ffi::Hello {
    ffi::Hello {
        holdtime: make::pick(&mut run.rng, &[0, 1, 105, 105, 105, 0xFFFF]),
        has_priority: make::pick(&mut run.rng, &[0, 1, 1]),
        priority: make::pick(&mut run.rng, &[0, 1, 5, u32::MAX]),
        packing: make::pick(&mut run.rng, &[0, 1, 1]),
    }
}

fn every_call(run: &mut Run, table: &Table) {
    let address = any_address(run, table);
    let said = said(run);
    hear_one(run, table, address, said);
    forget_one(run, table, address);
    questions(run, table, address);
}

/// A full table with each row at fault in turn, and some with unused rows.
fn each_fault(run: &mut Run) {
    for count in [ROWS, ROWS - 1, 16, 9] {
        let table = make::table_of(run.lab, &mut run.rng, count);
        for row in 0..ROWS {
            for fault in 0..8 {
                let mut table = table;
                spoil(&mut table, row, fault);
                every_call(run, &table);
            }
        }
        for count in (0..ROWS + 4).chain([1 << 31, 1 << 32, usize::MAX]) {
            every_call(run, &Table { count, ..table });
        }
    }
}

/// Each two rows of a full table with the same address.
fn each_two(run: &mut Run) {
    let table = make::table_of(run.lab, &mut run.rng, ROWS);
    for (first, later) in (0..ROWS).flat_map(|later| (0..later).map(move |first| (first, later))) {
        let mut table = table;
        table.rows[later].address = table.rows[first].address;
        every_call(run, &table);
    }
}

fn spoil(table: &mut Table, row: usize, fault: usize) {
    let other = table.rows[(row + 1) % ROWS].address;
    let row = &mut table.rows[row];
    match fault {
        0 => row.address = Address::default(),
        1 => row.address = other,
        2 => (row.has_priority, row.priority) = (false, 1),
        3 => row.holdtime = 0,
        4 => row.packs = !row.packs,
        5 => row.address.high ^= 1 << 63,
        6 => row.address.low ^= 1 << 32,
        _ => row.has_priority = true,
    }
}

/// Whether a table of no other fault, or the address given, is not of IPv4.
fn is_foreign(table: &Table, address: Address) -> bool {
    let is_ipv4 = |address: Address| address.high == 0 && address.low >> 32 == 0;
    let rows = table.rows.iter().all(|row| is_ipv4(row.address));
    packing_allowed(Family::Ipv6, table).is_ok() && !(rows && is_ipv4(address))
}

/// Counts a call by the family that it was told, and by why it refused.
fn count(run: &mut Run, call: &'static str, family: u8, table: &Table, address: Address, number: u8) {
    run.forms.named(call, family);
    run.forms.of_table(call, table.count);
    if number == 14 && family == Family::Ipv4.number() && is_foreign(table, address) {
        run.forms.foreign(call, family);
    }
}

fn hear_one(run: &mut Run, table: &Table, address: Address, said: ffi::Hello) {
    let family = told(run);
    let first = calls::hear(family, expect::table_form(table), address_form(address), said);
    let answer = of_number(family, |family| hear(family, *table, address, expect::said(said)));
    let second = expect::table(table, answer);
    let numbers = format_args!("family {family}, {address:?}, {said:?}, {table:?}");
    run.tally.call("pim_hear", numbers, &[], &first, &second);
    count(run, "pim_hear", family, table, address, second.refusal.number);
    match (second.refusal.number, Family::from_number(family)) {
        (0, Some(family)) => {
            run.sources(family).count(HEARD, address.into());
            run.forms.heard(table.count, Some(second.table.count));
        }
        (11, _) => run.forms.heard(table.count, None),
        _ => (),
    }
}

fn forget_one(run: &mut Run, table: &Table, address: Address) {
    let family = told(run);
    let first = calls::forget(family, expect::table_form(table), address_form(address));
    let second = expect::table(table, of_number(family, |family| forget(family, *table, address)));
    let numbers = format_args!("family {family}, {address:?}, {table:?}");
    run.tally.call("pim_forget", numbers, &[], &first, &second);
    count(run, "pim_forget", family, table, address, second.refusal.number);
}

/// The calls that only look at a table.
fn questions(run: &mut Run, table: &Table, address: Address) {
    let (form, family) = (expect::table_form(table), told(run));
    let first = calls::packing_allowed(family, form);
    let second = expect::allowed(of_number(family, |family| packing_allowed(family, table)));
    run.tally.call("pim_packing_allowed", format_args!("family {family}, {table:?}"), &[], &first, &second);
    count(run, "pim_packing_allowed", family, table, Address::default(), second.refusal.number);

    let (family, priority) = (told(run), make::pick(&mut run.rng, &[0, 1, 5, u32::MAX]));
    let first = calls::elect(family, form, address_form(address), priority);
    let second = expect::elected(of_number(family, |family| elect(family, table, address, priority)));
    let numbers = format_args!("family {family}, {address:?}, priority {priority}, {table:?}");
    run.tally.call("pim_elect", numbers, &[], &first, &second);
    count(run, "pim_elect", family, table, address, second.refusal.number);
    if let (0, Some(family)) = (second.refusal.number, Family::from_number(family)) {
        run.sources(family).count(OWN, address.into());
    }

    among(run, &table.rows[..table.count.min(ROWS)]);
}

/// Lists of any number of rows, to more than a 16-bit number counts.
fn lists(run: &mut Run) {
    for count in (0..=40).chain([63, 64, 65, 100, 200, 255, 256, 257, 1_000, 5_000]) {
        for _ in 0..80 * run.rounds {
            let rows = make::rows(&mut run.rng, count);
            among(run, &rows);
        }
    }
    for count in (1..=18).chain([63, 64, 65, 200]) {
        for place in 0..count {
            at_place(run, count, place);
        }
    }
    for count in [65_535, 65_536, 65_537, 100_000] {
        for place in [0, count / 2, count - 1] {
            at_place(run, count, place);
        }
    }
}

/// Low rows, and at a place one that decides: by its priority, its address,
/// its want of a priority or its address 0.
fn at_place(run: &mut Run, count: usize, place: usize) {
    let mut rows = make::low_rows(&mut run.rng, count);
    let high = |run: &mut Run| make::pick(&mut run.rng, &[u128::from(u32::MAX), 1 << 64, u128::MAX]);
    for (address, has_priority, priority) in [
        (1, true, u32::MAX),
        (high(run), true, make::LOW),
        (high(run), true, 0),
        (high(run), false, 0),
        (1, false, u32::MAX),
        (0, true, u32::MAX),
    ] {
        let address = Address::from(address);
        rows[place] = Neighbour { address, priority, has_priority, ..rows[place] };
        among(run, &rows);
    }
}

fn among(run: &mut Run, rows: &[Neighbour]) {
    let form: Vec<ffi::Neighbour> = rows.iter().map(expect::row_form).collect();
    let lent = Lent::input(&mut run.rng, "rows", &form);
    let (first, second) = (calls::elect_among(&lent), expect::elected(elect_among(rows)));
    run.tally.call("pim_elect_among", format_args!("{} rows", rows.len()), &[&lent], &first, &second);
}
