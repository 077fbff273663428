//! Octets that are cut and changed, with what reading has to say to them.

use super::refusal_within;
use second::Answer;
use std::ops::RangeInclusive;

/// A field; where the octets end if they are cut at its first octet, before its
/// last one, or between; its first octet; and that of what it belongs to.
pub type Cut = (&'static str, RangeInclusive<usize>, usize, usize);

/// What is wrong; octets put at a place for it; where the octets end; the
/// number, the place, and the first octet of what it belongs to.
pub type Wrong = (&'static str, usize, &'static [u8], RangeInclusive<usize>, (u8, usize, usize));

pub type Reading = fn(&[u8]) -> Answer<()>;

/// Each cut is 6 at its field. With the ends that cut no field, from the first
/// on, these are all ends. Whole, the octets are good.
pub fn cuts(octets: &[u8], table: &[Cut], first: usize, no_field: &[usize], read: Reading) {
    let mut ends = no_field.to_vec();
    for (field, range, place, within) in table {
        for end in range.clone() {
            assert_eq!(read(&octets[..end]), refusal_within(6, *place, *within), "{field} cut at {end}");
            ends.push(end);
        }
    }
    ends.sort();
    assert_eq!(ends, (first..octets.len()).collect::<Vec<_>>());
    assert_eq!(read(octets), Ok(()));
}

pub fn wrongs(octets: &[u8], table: &[Wrong], read: Reading) {
    for (what, at, put, range, (number, place, within)) in table {
        let mut wrong = octets.to_vec();
        wrong[*at..at + put.len()].copy_from_slice(put);
        for end in range.clone() {
            let expected = refusal_within(*number, *place, *within);
            assert_eq!(read(&wrong[..end]), expected, "{what}, {end} octets");
        }
    }
}
