//! The report of a file of messages, each preceded by its length in 16 bits.
//! A message is accepted exactly if the call that reads its kind accepts it
//! with room enough. Its records are counted, and no entry is written. A file has
//! no addresses for a pseudo-header, so its messages are IPv4.

use crate::counters::Count;
use crate::family::{Ipv4, Path};
use crate::hello::check_options;
use crate::read::{check_aggregated, check_pairs, check_plain, check_simple, header_of};
use crate::{Answer, Kind};

/// What came of messages. Each number stays at its maximum.
#[derive(Clone, Copy, Debug, Default, PartialEq, Eq)]
pub struct Tally {
    /// Messages that were accepted and their records, in the order of the
    /// kinds' numbers.
    pub accepted: [Count; 6],
    /// Messages that were refused, by number; none is counted at 0.
    pub refused: [u64; 15],
}

#[derive(Clone, Copy, Debug, PartialEq, Eq)]
pub struct Fraction {
    pub numerator: u64,
    pub denominator: u64,
}

/// The report of a file. It is not whole if it ends in a length or a message.
#[derive(Clone, Copy, Debug, PartialEq, Eq)]
pub struct Report {
    pub tally: Tally,
    pub mean: Fraction,
    pub whole: bool,
}

/// The kinds that are packed: any but hello and assert.
const PACKED: [Kind; 4] = [Kind::Simple, Kind::Aggregated, Kind::NullRegister, Kind::RegisterStop];

/// The whole messages of a file, from the first on, and whether it is whole.
pub fn report(file: &[u8]) -> Report {
    let mut tally = Tally::default();
    let used = add_octets(&mut tally, file);
    Report { tally, mean: mean(&tally), whole: used == file.len() }
}

/// The messages more that stand whole at the head, each with its length before
/// it; how many octets they are. What is left is the start of a length or of a
/// message.
pub fn add_octets(tally: &mut Tally, octets: &[u8]) -> usize {
    let mut rest = octets;
    while let Some((message, after)) = first_message(rest) {
        add_message(tally, message);
        rest = after;
    }
    octets.len() - rest.len()
}

/// The message at the head and what follows it, unless it or its length is cut.
fn first_message(octets: &[u8]) -> Option<(&[u8], &[u8])> {
    let (length, rest) = octets.split_first_chunk::<2>()?;
    rest.split_at_checked(usize::from(u16::from_be_bytes(*length)))
}

/// One message more, accepted or refused.
pub fn add_message(tally: &mut Tally, m: &[u8]) {
    match records(m) {
        Ok((kind, records)) => tally.accepted[kind as usize].add(records as u64),
        Err(refusal) => {
            let refused = &mut tally.refused[usize::from(refusal.number)];
            *refused = refused.saturating_add(1);
        }
    }
}

/// The kind of a message and the number of its records, all of it checked.
fn records(m: &[u8]) -> Answer<(Kind, usize)> {
    let kind = header_of::<Ipv4>(Path::default(), m)?;
    let records = match kind {
        Kind::Hello => check_options(m).map(|_| 0),
        Kind::Assert => check_plain::<Ipv4>(m),
        Kind::Simple => check_simple::<Ipv4>(m),
        Kind::Aggregated => check_aggregated::<Ipv4>(m),
        Kind::NullRegister => check_pairs::<Ipv4>(m, false),
        Kind::RegisterStop => check_pairs::<Ipv4>(m, true),
    }?;
    Ok((kind, records))
}

/// The mean of records over the accepted packed messages, in lowest terms; 0/1
/// if there is none. Both sums stay at their maximum.
pub fn mean(tally: &Tally) -> Fraction {
    let packed = PACKED.map(|kind| tally.accepted[kind as usize]);
    let records = packed.iter().fold(0, |sum: u64, count| sum.saturating_add(count.records));
    let messages = packed.iter().fold(0, |sum: u64, count| sum.saturating_add(count.messages));
    if messages == 0 {
        return Fraction { numerator: 0, denominator: 1 };
    }
    let divisor = greatest_divisor(records, messages);
    Fraction { numerator: records / divisor, denominator: messages / divisor }
}

/// The greatest common divisor; 0 only of 0 and 0.
fn greatest_divisor(mut a: u64, mut b: u64) -> u64 {
    while b != 0 {
        (a, b) = (b, a % b);
    }
    a
}
