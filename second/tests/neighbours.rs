//! The table, its refusals (7, 11, 12, 14) and the election.
mod common;
use common::*;
use second::hello::Hello;
use second::neighbours::{self, Neighbour, Table};
use second::{Address, Answer, Family};

/// A family, and the address before the first of its neighbours. Each is told by
/// a number behind it; 0 is address 0.
#[derive(Clone, Copy)]
struct Lab {
    family: Family,
    base: u128,
}

const LABS: [Lab; 4] = [
    Lab { family: Family::Ipv4, base: 0 },
    Lab { family: Family::Ipv6, base: 0 },
    Lab { family: Family::Ipv6, base: 0xFE80 << 112 },
    Lab { family: Family::Ipv6, base: (u64::MAX as u128) - 40 },
];

impl Lab {
    fn address(&self, number: u32) -> Address {
        match number {
            0 => Address::default(),
            number => (self.base + u128::from(number)).into(),
        }
    }

    fn number(&self, address: Address) -> u32 {
        let number = u128::from(address).saturating_sub(self.base);
        u32::try_from(number).expect("an address of the lab")
    }

    fn hear(&self, table: Table, number: u32, said: Hello) -> Answer<Table> {
        neighbours::hear(self.family, table, self.address(number), said)
    }

    fn forget(&self, table: Table, number: u32) -> Answer<Table> {
        neighbours::forget(self.family, table, self.address(number))
    }

    fn packing_allowed(&self, table: &Table) -> Answer<bool> {
        neighbours::packing_allowed(self.family, table)
    }

    fn elect(&self, table: &Table, number: u32, priority: u32) -> Answer<u32> {
        neighbours::elect(self.family, table, self.address(number), priority).map(|it| self.number(it))
    }

    fn elect_among(&self, rows: &[Neighbour]) -> Answer<u32> {
        neighbours::elect_among(rows).map(|it| self.number(it))
    }

    fn row(&self, number: u32, priority: Option<u32>) -> Neighbour {
        Neighbour {
            address: self.address(number),
            priority: priority.unwrap_or(0),
            has_priority: priority.is_some(),
            packs: true,
            holdtime: 105,
        }
    }

    /// 64 neighbours, each with its number as its priority.
    fn full(&self) -> Table {
        (1..=64).fold(Table::empty(), |table, i| self.hear(table, i, hello(9, Some(i), true)).unwrap())
    }
}

fn hello(holdtime: u16, priority: Option<u32>, packing: bool) -> Hello {
    Hello { holdtime, priority, packing }
}

#[test]
fn hearing() {
    LABS.iter().for_each(hearing_in);
}

fn hearing_in(lab: &Lab) {
    let table = lab.hear(Table::empty(), 5, hello(30, None, false)).unwrap();
    assert_eq!(table.count, 1);
    let expected = Neighbour { packs: false, holdtime: 30, ..lab.row(5, None) };
    assert_eq!(table.rows[0], expected);
    let table = lab.hear(table, 4, hello(30, Some(0), true)).unwrap();
    let table = lab.hear(table, 5, hello(31, Some(8), true)).unwrap();
    assert_eq!((table.count, table.rows[0].holdtime, table.rows[1].address), (2, 31, lab.address(4)));
    let table = lab.hear(table, 5, hello(0, Some(8), true)).unwrap();
    assert_eq!(
        (table.count, table.rows[0].address, table.rows[1]),
        (1, lab.address(4), Neighbour::default())
    );
    assert_eq!(lab.forget(table, 4), Ok(Table::empty()));
}

#[test]
fn numbers_11_and_12() {
    LABS.iter().for_each(numbers_11_and_12_in);
}

fn numbers_11_and_12_in(lab: &Lab) {
    let table = lab.full();
    assert_eq!(table.count, 64);
    assert_eq!(lab.hear(table, 65, hello(9, None, true)), refusal(11, 0));
    assert_eq!(lab.hear(table, 65, hello(0, None, true)), refusal(12, 0));
    assert_eq!(lab.forget(table, 65), refusal(12, 0));
    assert_eq!(lab.forget(Table::empty(), 65), refusal(12, 0));
    assert_eq!(lab.elect_among(&[]), refusal(12, 0));
    assert!(lab.hear(table, 64, hello(9, None, true)).is_ok());
    let table = lab.hear(lab.forget(table, 3).unwrap(), 65, hello(9, None, true)).unwrap();
    let addresses: Vec<u32> = table.rows.iter().map(|row| lab.number(row.address)).collect();
    assert_eq!(addresses, [1, 2].into_iter().chain(4..=65).collect::<Vec<u32>>());
    assert_eq!(lab.hear(table, 66, hello(9, None, true)), refusal(11, 0));
}

/// Each row is filled in turn, and 11 comes at none before the last.
#[test]
fn all_rows() {
    LABS.iter().for_each(all_rows_in);
}

fn all_rows_in(lab: &Lab) {
    let mut table = Table::empty();
    for i in 1..=64 {
        table = lab.hear(table, 1_000 - i, hello(i as u16, Some(i), i % 2 == 0)).unwrap();
        let row = Neighbour {
            address: lab.address(1_000 - i),
            priority: i,
            has_priority: true,
            packs: i % 2 == 0,
            holdtime: i as u16,
        };
        let at = i as usize;
        assert_eq!((table.count, table.rows[at - 1]), (at, row));
        assert!(table.rows[at..].iter().all(|row| *row == Neighbour::default()));
    }
    for i in 1..=64 {
        // Its row goes, those after it move up, and the last one is free.
        let less = lab.forget(table, 1_000 - i).unwrap();
        let rows: Vec<u32> = (1..=64).filter(|other| *other != i).map(|other| 1_000 - other).collect();
        let addresses: Vec<u32> = less.rows.iter().map(|row| lab.number(row.address)).collect();
        assert_eq!((less.count, addresses), (63, [&rows[..], &[0]].concat()));
        assert_eq!(less.rows[63], Neighbour::default());
        // It comes again, in the last row; a row that is heard again stays.
        let again = lab.hear(less, 1_000 - i, hello(7, None, true)).unwrap();
        assert_eq!((again.count, again.rows[63].address), (64, lab.address(1_000 - i)));
        let same = lab.hear(table, 1_000 - i, hello(7, None, true)).unwrap();
        assert_eq!((same.count, same.rows[i as usize - 1].holdtime), (64, 7));
        assert_eq!(lab.hear(table, 1_000 + i, hello(7, None, true)), refusal(11, 0));
    }
}

#[test]
fn number_7() {
    LABS.iter().for_each(number_7_in);
}

fn number_7_in(lab: &Lab) {
    assert_eq!(lab.hear(lab.full(), 0, hello(9, None, true)), refusal(7, 0));
    assert_eq!(lab.hear(lab.full(), 0, hello(0, None, true)), refusal(7, 0));
    assert_eq!(lab.forget(lab.full(), 0), refusal(7, 0));
    assert_eq!(lab.elect(&lab.full(), 0, 5), refusal(7, 0));
    assert_eq!(lab.elect_among(&[lab.row(1, None), lab.row(0, None)]), refusal(7, 0));
}

/// All calls refuse the table, before anything else.
fn refused(lab: &Lab, table: Table) {
    assert_eq!(lab.hear(table, 0, hello(9, None, true)), refusal(14, 0));
    assert_eq!(lab.hear(table, 99, hello(0, None, true)), refusal(14, 0));
    assert_eq!(lab.forget(table, 0), refusal(14, 0));
    assert_eq!(lab.packing_allowed(&table), refusal(14, 0));
    assert_eq!(lab.elect(&table, 0, 5), refusal(14, 0));
}

/// Whatever row is at fault, in use or not.
#[test]
fn number_14() {
    LABS.iter().for_each(number_14_in);
}

fn number_14_in(lab: &Lab) {
    for count in [65, 255, usize::MAX] {
        refused(lab, Table { count, ..lab.full() });
    }
    (0..64).for_each(|count| refused(lab, Table { count, ..lab.full() }));
    refused(lab, Table { count: 1, ..Table::empty() });
    let changes: [fn(&mut Neighbour); 3] =
        [|row| row.address = Address::default(), |row| row.holdtime = 0, |row| row.has_priority = false];
    let unused: [fn(&mut Neighbour); 6] = [
        |row| row.address.high = 9,
        |row| row.address.low = 9,
        |row| row.priority = 9,
        |row| row.has_priority = true,
        |row| row.packs = true,
        |row| row.holdtime = 9,
    ];
    for row in 0..64 {
        for change in changes {
            let mut table = lab.full();
            change(&mut table.rows[row]);
            refused(lab, table);
        }
        for change in unused {
            let mut table = Table::empty();
            change(&mut table.rows[row]);
            refused(lab, table);
        }
    }
}

/// An address that any two rows have, in tables of any count.
#[test]
fn number_14_addresses() {
    LABS.iter().for_each(number_14_addresses_in);
}

fn number_14_addresses_in(lab: &Lab) {
    let mut table = Table::empty();
    for i in 1..=64 {
        table = lab.hear(table, i, hello(9, None, true)).unwrap();
        assert_eq!(lab.packing_allowed(&table), Ok(true));
        for (first, later) in (0..table.count).flat_map(|later| (0..later).map(move |first| (first, later))) {
            let mut twice = table;
            twice.rows[later].address = twice.rows[first].address;
            assert_eq!(lab.packing_allowed(&twice), refusal(14, 0));
        }
    }
}

#[test]
fn packing() {
    LABS.iter().for_each(packing_in);
}

fn packing_in(lab: &Lab) {
    assert_eq!(lab.packing_allowed(&Table::empty()), Ok(true));
    assert_eq!(lab.packing_allowed(&lab.full()), Ok(true));
    for address in 1..=64 {
        let table = lab.hear(lab.full(), address, hello(9, Some(1), false)).unwrap();
        assert_eq!(lab.packing_allowed(&table), Ok(false));
    }
}

#[test]
fn electing() {
    LABS.iter().for_each(electing_in);
}

fn electing_in(lab: &Lab) {
    assert_eq!(lab.elect(&Table::empty(), 7, 0), Ok(7));
    assert_eq!(lab.elect(&lab.full(), 7, 64), Ok(64));
    assert_eq!(lab.elect(&lab.full(), 70, 64), Ok(70));
    assert_eq!(lab.elect(&lab.full(), 7, 65), Ok(7));
    assert_eq!(lab.elect(&lab.full(), 0xFFFF_FFFF, 0), Ok(64));
    let table = lab.hear(lab.full(), 1, hello(9, None, true)).unwrap();
    assert_eq!(lab.elect(&table, 7, 65), Ok(64));
    assert_eq!(lab.elect(&table, 0x8000_0000, 0), Ok(0x8000_0000));
    // Whatever row has the highest priority.
    for address in 1..=64 {
        let table = lab.hear(lab.full(), address, hello(9, Some(99), true)).unwrap();
        assert_eq!(lab.elect(&table, 7, 98), Ok(address));
    }
    // Over a list only the addresses are looked at.
    let odd = Neighbour { priority: 4, packs: false, holdtime: 0, ..lab.row(9, None) };
    assert_eq!(lab.elect_among(&[odd, odd, lab.row(8, Some(9))]), Ok(9));
    assert_eq!(lab.elect_among(&[lab.row(8, Some(9)), lab.row(9, Some(8)), lab.row(7, Some(9))]), Ok(8));
}

#[test]
fn electing_among_any_number() {
    LABS.iter().for_each(electing_among_any_number_in);
}

fn electing_among_any_number_in(lab: &Lab) {
    let many: Vec<Neighbour> = (1..=40).map(|i| lab.row(i, Some(i % 7))).collect();
    assert_eq!(lab.elect_among(&many), Ok(34));
    for count in [1, 2, 16, 17, 64, 65, 200, 70_000] {
        // The priority falls as the address grows.
        let mut rows: Vec<Neighbour> = (0..count).map(|i| lab.row(1 + i, Some(count - i))).collect();
        let last = rows.len() - 1;
        assert_eq!(lab.elect_among(&rows), Ok(1));
        rows[last] = lab.row(count, Some(u32::MAX));
        assert_eq!(lab.elect_among(&rows), Ok(count));
        rows[0] = lab.row(1, None);
        assert_eq!(lab.elect_among(&rows), Ok(count));
        rows[last].address = Address::default();
        assert_eq!(lab.elect_among(&rows), refusal(7, 0));
    }
}

#[test]
fn own_router_in_the_table() {
    LABS.iter().for_each(own_router_in_the_table_in);
}

fn own_router_in_the_table_in(lab: &Lab) {
    // Its row there counts as any other one.
    assert_eq!(lab.elect(&lab.full(), 3, 99), Ok(3));
    let table = lab.hear(lab.full(), 3, hello(9, Some(99), true)).unwrap();
    assert_eq!(lab.elect(&table, 3, 1), Ok(3));
    let table = lab.hear(lab.full(), 3, hello(9, None, true)).unwrap();
    assert_eq!(lab.elect(&table, 3, 99), Ok(64));
}

/// The address of a neighbour or of our own router is no source: only 0 is
/// refused.
#[test]
fn addresses_that_are_no_sources() {
    LABS.iter().for_each(addresses_that_are_no_sources_in);
}

fn addresses_that_are_no_sources_in(lab: &Lab) {
    for address in NO_SOURCES {
        let table = lab.hear(lab.full(), address, hello(9, Some(99), true));
        assert_eq!(table, refusal(11, 0));
        let table = lab.hear(lab.forget(lab.full(), 64).unwrap(), address, hello(9, Some(99), true)).unwrap();
        assert_eq!((table.count, table.rows[63].address), (64, lab.address(address)));
        assert_eq!(lab.packing_allowed(&table), Ok(true));
        // Its priority is the highest; without one the highest address counts.
        assert_eq!(lab.elect(&table, 7, 98), Ok(address));
        assert_eq!(lab.elect(&lab.full(), address, 65), Ok(address));
        assert_eq!(lab.elect(&lab.full(), address, 1), Ok(64));
        assert_eq!(lab.elect_among(&[lab.row(5, Some(1)), lab.row(address, None)]), Ok(address));
        assert_eq!(lab.forget(table, address), Ok(lab.forget(lab.full(), 64).unwrap()));
        assert_eq!(lab.forget(lab.full(), address), refusal(12, 0));
    }
}

/// An address that is none of IPv4: 14, in a row as well as given to the call,
/// together with the table and before 7. In IPv6 every number is an address.
#[test]
fn addresses_of_the_other_family() {
    let [lab, other, ..] = LABS;
    let others = [1 << 32, 0x0A00_0001 | 1 << 63, 1 << 64, 0xFE80 << 112 | 1, u128::MAX];
    for address in others.map(Address::from) {
        let said = hello(9, Some(1), true);
        assert_eq!(neighbours::hear(lab.family, lab.full(), address, said), refusal(14, 0));
        assert_eq!(neighbours::hear(lab.family, lab.full(), address, hello(0, None, true)), refusal(14, 0));
        assert_eq!(neighbours::forget(lab.family, lab.full(), address), refusal(14, 0));
        assert_eq!(neighbours::elect(lab.family, &lab.full(), address, 5), refusal(14, 0));
        assert_eq!(neighbours::hear(lab.family, Table::empty(), address, said), refusal(14, 0));
        for row in [0, 31, 63] {
            let mut table = lab.full();
            table.rows[row].address = address;
            refused(&lab, table);
            assert_eq!(other.packing_allowed(&table), Ok(true));
            assert_eq!(neighbours::elect(other.family, &table, Address::default(), 5), refusal(7, 0));
            assert!(neighbours::forget(other.family, table, address).is_ok());
        }
        // Over a list no family is named.
        assert_eq!(
            neighbours::elect_among(&[lab.row(9, None), Neighbour { address, ..lab.row(1, None) }]),
            Ok(address)
        );
    }
    // The greatest address of IPv4 is one.
    assert!(lab.hear(Table::empty(), u32::MAX, hello(9, None, true)).is_ok());
}

/// Addresses compare as numbers of 128 bits: the high half decides.
#[test]
fn halves_of_addresses() {
    let row = |high, low| Neighbour { address: Address { high, low }, ..LABS[1].row(1, Some(1)) };
    let rows = [row(1, u64::MAX), row(2, 0), row(0, u64::MAX)];
    assert_eq!(neighbours::elect_among(&rows), Ok(Address { high: 2, low: 0 }));
    let rows = [row(1 << 63, 0), row((1 << 63) - 1, u64::MAX), row(1 << 63, 1)];
    assert_eq!(neighbours::elect_among(&rows), Ok(Address { high: 1 << 63, low: 1 }));
    assert_eq!(neighbours::elect_among(&[row(1, 0)]), Ok(Address { high: 1, low: 0 }));
    assert_eq!(neighbours::elect_among(&[row(1, 0), row(0, 0)]), refusal(7, 0));
}

/// Addresses that differ in one half are two.
#[test]
fn addresses_alike_in_one_half() {
    let lab = LABS[1];
    let mut table = Table::empty();
    for i in 0..64u64 {
        let address = if i < 32 { Address { high: i, low: 7 } } else { Address { high: 7, low: i } };
        table = neighbours::hear(lab.family, table, address, hello(9, None, true)).unwrap();
    }
    assert_eq!(table.count, 64);
    assert_eq!(lab.packing_allowed(&table), Ok(true));
    table.rows[40].address = table.rows[3].address;
    assert_eq!(lab.packing_allowed(&table), refusal(14, 0));
}
