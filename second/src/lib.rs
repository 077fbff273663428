//! PIM packed asserts and packed registers for IPv4 and IPv6: an independent
//! second implementation, for comparison. This file holds what all modules share.

pub mod brute;
pub mod checksum;
pub mod counters;
pub mod family;
pub mod hello;
pub mod neighbours;
pub mod pack;
pub mod popcount;
pub mod read;
pub mod report;
pub mod rng;
pub mod sheet;

pub use family::{Address, Family, Path};
use family::{Addresses, Octets};

/// The longest message, which is also the largest limit.
pub const MESSAGE_MOST: usize = 65_515;

/// A refusal: a number of the rule book's table and a place. Where reading
/// refuses by 6 or 7, the place is the first octet of the field at fault.
#[derive(Clone, Copy, Debug, PartialEq, Eq)]
pub struct Refusal {
    pub number: u8,
    pub place: usize,
    /// What the place was before it was the field's: the first octet of the
    /// record, option or attribute that has the field, 4 for Zero and Reserved.
    /// For other refusals it is the place.
    pub within: usize,
}

/// What every call gives.
pub type Answer<T> = Result<T, Refusal>;

pub(crate) fn refuse<T>(number: u8, place: usize) -> Answer<T> {
    Err(Refusal { number, place, within: place })
}

/// A fault in a record, option or attribute: its number, and how many octets
/// are left from the field at fault on. A reader of fields sees no more.
#[derive(Clone, Copy)]
pub(crate) struct Fault {
    number: u8,
    left: usize,
}

/// A fault at the head of what is left.
#[inline(always)]
pub(crate) fn fault(number: u8, rest: &[u8]) -> Fault {
    Fault { number, left: rest.len() }
}

impl Fault {
    /// The refusal, where all octets that were given to the reader, its record,
    /// option or attribute first, stand at `within`.
    #[inline(always)]
    pub(crate) fn refusal(self, within: usize, octets: &[u8]) -> Refusal {
        Refusal { number: self.number, place: within + (octets.len() - self.left), within }
    }
}

/// The first octets as a field, and what follows them; 6 if it is cut.
#[inline(always)]
pub(crate) fn field<T: Octets>(octets: &[u8]) -> Result<(&T, &[u8]), Fault> {
    T::first(octets).ok_or(fault(6, octets))
}

/// The six kinds of message, numbered from 0 in the rule book's order.
#[derive(Clone, Copy, Debug, PartialEq, Eq)]
pub enum Kind {
    Hello = 0,
    Assert = 1,
    Simple = 2,
    Aggregated = 3,
    NullRegister = 4,
    RegisterStop = 5,
}

impl Kind {
    pub const ALL: [Kind; 6] =
        [Kind::Hello, Kind::Assert, Kind::Simple, Kind::Aggregated, Kind::NullRegister, Kind::RegisterStop];

    pub fn number(self) -> u8 {
        self as u8
    }

    pub fn from_number(number: u8) -> Option<Kind> {
        Kind::ALL.get(usize::from(number)).copied()
    }
}

/// Group and source of an entry, behind its prefix.
#[inline(always)]
pub(crate) fn addresses_ok<F: Addresses>(both: &[u8], zero: bool) -> bool {
    F::is_group(F::Address::at(both, 0)) && F::is_source(F::Address::at(both, F::WIDTH), zero)
}

/// An assert entry without its prefix (group, source, R with preference,
/// metric); source 0 is allowed with R=1.
#[inline(always)]
pub(crate) fn assert_ok<F: Addresses>(rest: &[u8]) -> bool {
    addresses_ok::<F>(rest, rest[2 * F::WIDTH] & 0x80 != 0)
}

#[inline(always)]
fn prefix_ok<F: Addresses>(entry: &[u8]) -> bool {
    entry[..4] == F::PREFIX
}

/// An assert entry.
#[inline(always)]
pub(crate) fn assert_entry_ok<F: Addresses>(entry: &F::AssertEntry) -> bool {
    let entry = entry.as_ref();
    prefix_ok::<F>(entry) && assert_ok::<F>(&entry[4..])
}

/// A pair entry.
#[inline(always)]
pub(crate) fn pair_entry_ok<F: Addresses>(entry: &F::PairEntry, zero: bool) -> bool {
    let entry = entry.as_ref();
    prefix_ok::<F>(entry) && addresses_ok::<F>(&entry[4..], zero)
}

/// The number of the first entry that is not good. Four are asked in a turn of
/// the loop: most lists are long and good.
#[inline]
pub(crate) fn first_bad<T>(list: &[T], good: impl Fn(&T) -> bool) -> Option<usize> {
    let (fours, _) = list.as_chunks::<4>();
    let before = 4 * fours.iter().take_while(|four| four.iter().all(&good)).count();
    list[before..].iter().position(|entry| !good(entry)).map(|bad| before + bad)
}
