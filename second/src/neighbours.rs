//! The neighbour table, packing capability and the election of the
//! designated router.

use crate::family::{of_family, Address, Addresses, Family};
use crate::hello::Hello;
use crate::{refuse, Answer};

/// The most neighbours a table holds.
pub const ROWS: usize = 64;

/// A row of the table. A priority not announced is 0.
#[derive(Clone, Copy, Debug, Default, PartialEq, Eq)]
pub struct Neighbour {
    pub address: Address,
    pub priority: u32,
    pub has_priority: bool,
    pub packs: bool,
    pub holdtime: u16,
}

/// The rows in use are the first `count`; the others are all 0. Its family is
/// the one that its calls name.
#[derive(Clone, Copy, Debug, PartialEq, Eq)]
pub struct Table {
    pub count: usize,
    pub rows: [Neighbour; ROWS],
}

impl Table {
    pub fn empty() -> Table {
        Table { count: 0, rows: [Neighbour::default(); ROWS] }
    }

    /// The rows in use of a checked table.
    pub(crate) fn used(&self) -> &[Neighbour] {
        &self.rows[..self.count]
    }

    fn find(&self, address: Address) -> Option<usize> {
        self.used().iter().position(|row| row.address == address)
    }

    /// Without the row; the rows after it move up.
    fn without(mut self, row: usize) -> Table {
        self.rows.copy_within(row + 1..self.count, row);
        self.count -= 1;
        self.rows[self.count] = Neighbour::default();
        self
    }
}

/// A Hello heard from an address. Holdtime 0 forgets it.
pub fn hear(family: Family, mut table: Table, address: Address, hello: Hello) -> Answer<Table> {
    if hello.holdtime == 0 {
        return forget(family, table, address);
    }
    check_both(family, &table, address)?;
    let row = match table.find(address) {
        Some(row) => row,
        None if table.count == ROWS => return refuse(11, 0),
        None => {
            table.count += 1;
            table.count - 1
        }
    };
    table.rows[row] = Neighbour {
        address,
        priority: hello.priority.unwrap_or(0),
        has_priority: hello.priority.is_some(),
        packs: hello.packing,
        holdtime: hello.holdtime,
    };
    Ok(table)
}

/// The table without an address.
pub fn forget(family: Family, table: Table, address: Address) -> Answer<Table> {
    check_both(family, &table, address)?;
    match table.find(address) {
        Some(row) => Ok(table.without(row)),
        None => refuse(12, 0),
    }
}

/// True exactly if every neighbour announced packing.
pub fn packing_allowed(family: Family, table: &Table) -> Answer<bool> {
    check_table(family, table)?;
    Ok(table.used().iter().all(|row| row.packs))
}

/// The address elected over the rows and our own router.
pub fn elect(family: Family, table: &Table, own_address: Address, own_priority: u32) -> Answer<Address> {
    check_both(family, table, own_address)?;
    let own = Neighbour {
        address: own_address,
        priority: own_priority,
        has_priority: true,
        ..Neighbour::default()
    };
    Ok(best(own, table.used()))
}

/// The address elected over a lent list, of any family; only its addresses are
/// checked.
pub fn elect_among(rows: &[Neighbour]) -> Answer<Address> {
    for row in rows {
        check_address(row.address)?;
    }
    match rows.split_first() {
        Some((first, others)) => Ok(best(*first, others)),
        None => refuse(12, 0),
    }
}

fn best(first: Neighbour, others: &[Neighbour]) -> Address {
    let by_priority = first.has_priority && others.iter().all(|row| row.has_priority);
    let mut best = first;
    for row in others {
        if better(row, &best, by_priority) {
            best = *row;
        }
    }
    best.address
}

fn better(a: &Neighbour, b: &Neighbour, by_priority: bool) -> bool {
    if by_priority && a.priority != b.priority {
        return a.priority > b.priority;
    }
    a.address > b.address
}

fn check_address(address: Address) -> Answer<()> {
    if address.is_zero() {
        return refuse(7, 0);
    }
    Ok(())
}

/// A row that a sheet may hold, other rows apart.
#[inline(always)]
fn row_ok<F: Addresses>(row: &Neighbour) -> bool {
    F::has(row.address)
        && !row.address.is_zero()
        && row.holdtime != 0
        && (row.has_priority || row.priority == 0)
}

/// The number of the first row that a sheet may not hold, of no more than a
/// table has. Of an address given twice the later row is at fault.
pub(crate) fn first_bad_row<F: Addresses>(rows: &[Neighbour]) -> Option<usize> {
    if rows.iter().all(row_ok::<F>) && are_distinct::<F>(rows) {
        return None;
    }
    let is_again = |i: usize| rows[..i].iter().any(|row| row.address == rows[i].address);
    (0..rows.len()).find(|&i| !row_ok::<F>(&rows[i]) || is_again(i))
}

/// Whether good rows have each address once, told by short forms of them: two
/// addresses may have the same, and then it is not said. Each is counted among
/// all from its own sixteen on, and past the rows these are 0. There is no branch
/// for a single address.
fn are_distinct<F: Addresses>(rows: &[Neighbour]) -> bool {
    let mut addresses = [0; ROWS];
    for (address, row) in addresses.iter_mut().zip(rows) {
        *address = F::brief(row.address);
    }
    let (sixteens, _) = addresses[..rows.len().next_multiple_of(16)].as_chunks::<16>();
    let mut found = [0; 16];
    for (i, address) in addresses[..rows.len()].iter().enumerate() {
        for sixteen in &sixteens[i / 16..] {
            for (found, other) in found.iter_mut().zip(sixteen) {
                *found += u32::from(other == address);
            }
        }
    }
    found.iter().sum::<u32>() as usize == rows.len()
}

/// The whole table: 14 unless each used row is good and each address given
/// once and each unused row 0.
pub(crate) fn check_table(family: Family, table: &Table) -> Answer<()> {
    if of_family!(family, is_table(table)) {
        return Ok(());
    }
    refuse(14, 0)
}

/// The table, and an address that a call is given: 14 for one of the other
/// family too, then 7.
fn check_both(family: Family, table: &Table, address: Address) -> Answer<()> {
    if !of_family!(family, is_table_with(table, address)) {
        return refuse(14, 0);
    }
    check_address(address)
}

fn is_table_with<F: Addresses>(table: &Table, address: Address) -> bool {
    F::has(address) && is_table::<F>(table)
}

fn is_table<F: Addresses>(table: &Table) -> bool {
    let Some((used, unused)) = table.rows.split_at_checked(table.count) else {
        return false;
    };
    first_bad_row::<F>(used).is_none() && are_zero(unused)
}

/// Whether all fields are 0, without a branch for a single one.
fn are_zero(rows: &[Neighbour]) -> bool {
    let bits = |row: &Neighbour| {
        row.address.high
            | row.address.low
            | u64::from(row.priority)
            | u64::from(row.has_priority)
            | u64::from(row.packs)
            | u64::from(row.holdtime)
    };
    rows.iter().fold(0, |all, row| all | bits(row)) == 0
}
