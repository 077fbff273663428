//! The places of refusals in reading, by two rules that share the number: the
//! field's place lies inside the record, option or attribute that the rule before
//! it named. And which fields were at fault.

use super::lent::Lent;
use super::tally::{CUT, INSIDE};
use super::Run;
use second::{Answer, Family, Refusal};
use std::collections::BTreeMap;

/// What a field belongs to; the number of the refusal; and the fields that it
/// has to occur at, counted from the first octet of what they belong to. In them
/// a group stands for 8 octets and a source for 6; in IPv6 each has 12 more.
const FIELDS: [(&str, u8, &[Field]); 20] = [
    ("Zero and Reserved", 6, &[(0, 0), (1, 0)]),
    ("assert record", 6, ASSERT),
    ("assert record", 7, PAIR),
    ("octets after a plain assert", 6, &[(0, 0)]),
    ("source aggregated record", 6, &[(0, 0), (4, 0), (8, 0), (14, 1), (16, 1), (18, 1), (26, 2)]),
    ("source aggregated record", 7, &[(8, 0), (18, 1), (26, 2)]),
    ("RP aggregated record", 6, RP),
    ("RP aggregated record", 7, &[(12, 0), (24, 1), (30, 2)]),
    ("null-register pair", 6, PAIR),
    ("null-register pair", 7, PAIR),
    ("register-stop pair", 6, PAIR),
    ("register-stop pair", 7, PAIR),
    ("single assert record", 6, ASSERT),
    ("single assert record", 7, PAIR),
    ("single null-register pair", 6, PAIR),
    ("single null-register pair", 7, PAIR),
    ("single register-stop pair", 6, PAIR),
    ("single register-stop pair", 7, PAIR),
    ("option", 6, &[(0, 0), (2, 0), (4, 0)]),
    ("attribute", 6, ATTRIBUTE),
];

/// A field's place in IPv4, and how many addresses stand before it.
type Field = (usize, usize);

const PAIR: &[Field] = &[(0, 0), (8, 1)];
const ASSERT: &[Field] = &[(0, 0), (8, 1), (14, 2), (18, 2)];
const RP: &[Field] = &[(0, 0), (4, 0), (8, 0), (10, 0), (12, 0), (20, 1), (22, 1), (24, 1), (30, 2)];
const ATTRIBUTE: &[Field] = &[
    (0, 0),
    (1, 0),
    (2, 0),
    (4, 0),
    (6, 0),
    (8, 0),
    (12, 0),
    (16, 0),
    (18, 0),
    (20, 0),
    (21, 0),
    (22, 0),
    (23, 0),
    (24, 0),
];

/// How often each field was at fault, by family.
#[derive(Default)]
pub struct Fields(BTreeMap<(Family, &'static str, u8, usize), u64>);

impl Fields {
    fn count(&mut self, family: Family, what: &'static str, refusal: &Refusal) {
        let field = (family, what, refusal.number, refusal.place - refusal.within);
        *self.0.entry(field).or_default() += 1;
    }

    /// The field that was at fault least, of those that have to be. Attributes are
    /// of no family, and are counted as of IPv4.
    pub fn least(&self) -> ((Family, &'static str, u8, usize), u64) {
        let of = |family: Family| {
            let wider = family.width() - 4;
            FIELDS.iter().filter(move |(what, ..)| family == Family::Ipv4 || *what != "attribute").flat_map(
                move |(what, number, fields)| {
                    fields.iter().map(move |(at, before)| (family, *what, *number, at + wider * before))
                },
            )
        };
        let all = Family::ALL.into_iter().flat_map(of);
        let counted = all.map(|field| (field, self.0.get(&field).copied().unwrap_or(0)));
        counted.min_by_key(|(_, count)| *count).expect("there are fields")
    }
}

/// What an assert's refusal is in: the octets of the message tell it.
pub fn in_assert(m: &[u8], refusal: &Refusal) -> &'static str {
    match (m[1] & 3, refusal.within) {
        (1 | 3, 4) => "Zero and Reserved",
        (0 | 2, 26 | 50) => "octets after a plain assert",
        (3, within) if m[within] & 0x80 == 0 => "source aggregated record",
        (3, _) => "RP aggregated record",
        _ => "assert record",
    }
}

/// What the refusal of a message of pairs is in.
pub fn in_pairs(m: &[u8]) -> &'static str {
    match m[1] >> 4 {
        0 => "null-register pair",
        _ => "register-stop pair",
    }
}

/// What the refusal of a record read singly is in.
pub fn in_single(kind: u8) -> &'static str {
    match kind {
        1 | 2 => "single assert record",
        4 => "single null-register pair",
        _ => "single register-stop pair",
    }
}

/// What holds of an answer to octets that were read. `again` reads the first of
/// them: cut where the field at fault begins, they are refused by 6 there, so the
/// reading of that record, option or attribute came just as far. Where its first
/// field is at fault, there is nothing to read before it.
pub fn claim<T>(
    run: &mut Run,
    family: Family,
    octets: &Lent,
    answer: &Answer<T>,
    what: impl Fn(&Refusal) -> &'static str,
    again: impl Fn(&[u8]) -> Answer<T>,
) {
    let Err(refusal) = answer else {
        return;
    };
    let numbers = format_args!("{refusal:?}");
    run.tally.claim(INSIDE, numbers, octets, inside(refusal, octets.length()));
    if !is_of_field(refusal) {
        return;
    }
    run.fields.count(family, what(refusal), refusal);
    if refusal.number == 7 {
        run.sources(family).field(what(refusal), octets.second(), refusal, &again);
    }
    if refusal.place != refusal.within {
        let cut = again(&octets.second()[..refusal.place]).err();
        run.tally.claim(CUT, numbers, octets, cut == Some(Refusal { number: 6, ..*refusal }));
    }
}

fn is_of_field(refusal: &Refusal) -> bool {
    refusal.number == 6 || refusal.number == 7
}

/// A field's place is not before that of what it belongs to, and not past the
/// end, unless reading was to begin there. Every other place is as it was.
fn inside(refusal: &Refusal, end: usize) -> bool {
    let Refusal { place, within, .. } = *refusal;
    place == within || is_of_field(refusal) && within < place && place <= end
}
