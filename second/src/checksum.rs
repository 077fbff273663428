//! The Internet checksum over a whole message, in IPv6 with its pseudo-header.

use crate::family::{Addresses, Ipv6, Path};

/// The checksum, the carry added after each 16-bit word. Over a message with
/// its field as 0 this is the field; over a good message it is 0.
pub fn checksum(octets: &[u8]) -> u16 {
    after(0, octets)
}

/// The same in IPv6: the words of the pseudo-header come first. Its length is
/// that of the octets, in 32 bits.
pub fn checksum_ipv6(path: Path, octets: &[u8]) -> u16 {
    checksum_of::<Ipv6>(path, octets)
}

/// The checksum of a message of a family.
#[inline]
pub(crate) fn checksum_of<F: Addresses>(path: Path, octets: &[u8]) -> u16 {
    after(F::before(path, octets.len()), octets)
}

/// The checksum of words that come after a sum.
fn after(mut sum: u16, octets: &[u8]) -> u16 {
    let (words, odd) = octets.as_chunks::<2>();
    for word in words {
        sum = add(sum, u16::from_be_bytes(*word));
    }
    if let [last] = odd {
        sum = add(sum, u16::from_be_bytes([*last, 0]));
    }
    !sum
}

/// The one's complement sum of two words.
#[inline]
fn add(sum: u16, word: u16) -> u16 {
    let (sum, carry) = sum.overflowing_add(word);
    sum + u16::from(carry)
}

/// The same number, all carries folded in at the end.
pub fn checksum_deferred(octets: &[u8]) -> u16 {
    let (words, odd) = octets.as_chunks::<2>();
    let mut sum: u64 = words.iter().map(|word| u64::from(u16::from_be_bytes(*word))).sum();
    if let [last] = odd {
        sum += u64::from(*last) << 8;
    }
    while sum > 0xFFFF {
        sum = (sum & 0xFFFF) + (sum >> 16);
    }
    !(sum as u16)
}
