//! Addresses that are no sources, counted by what they were refused in; and
//! sources beside them, counted where they were accepted.

use super::lab::Lab;
use super::outcomes::KINDS;
use second::{Answer, Family, Refusal};
use std::collections::BTreeMap;

/// Records that are read: those that are told apart by R, and the others.
const ASSERT_RECORDS: [&str; 2] = ["assert record", "single assert record"];
const OTHER_RECORDS: [&str; 6] = [
    "source aggregated record",
    "RP aggregated record",
    "null-register pair",
    "register-stop pair",
    "single null-register pair",
    "single register-stop pair",
];

/// Assert entries, by the call that they are lent to; and pairs.
const ASSERT_ENTRIES: [&str; 6] = [
    "pim_pack_assert",
    "pim_pack_simple",
    "pim_pack_aggregated",
    "pim_pack_both",
    "assert of a sheet read",
    "assert of a sheet written",
];
const PAIR_ENTRIES: [&str; 4] =
    ["pim_pack_null_register", "pim_pack_register_stop", "pair of a sheet read", "pair of a sheet written"];

/// What is no source may still be the address of a router.
pub const HEARD: &str = "accepted as a neighbour";
pub const OWN: &str = "accepted as our own router";

/// Sources beside those that are refused, and 0.
const EDGES: [[(u128, &str); 5]; 2] = [
    [
        (0, "source 0.0.0.0"),
        (0xDFFF_FFFF, "source 223.255.255.255"),
        (0xF000_0000, "source 240.0.0.0"),
        (0xF000_0001, "source 240.0.0.1"),
        (0xFFFF_FFFE, "source 255.255.255.254"),
    ],
    [
        (0, "source ::"),
        (1, "source ::1"),
        (1 << 120, "source 100::"),
        (0x2001_0DB8 << 96 | 1, "source 2001:db8::1"),
        ((0xFF << 120) - 1, "source feff: and all ones"),
    ],
];

/// Where they were accepted.
#[derive(Clone, Copy)]
pub enum Accepted {
    Read,
    Packed,
    InSheet,
}

/// What came of one family.
pub struct Sources {
    lab: Lab,
    /// By name, those that are groups and those of all ones.
    none: BTreeMap<String, [u64; 2]>,
    /// By edge, in the order of `Accepted`.
    accepted: [[u64; 3]; 5],
}

/// By which rule an address is no source: the first, for a group, or the second,
/// for one of all ones, which in IPv6 is a group too.
fn rule(lab: Lab, address: u128) -> Option<usize> {
    match (lab.is_ipv4(), address) {
        (true, 0xE000_0000..=0xEFFF_FFFF) => Some(0),
        (true, 0xFFFF_FFFF) | (false, u128::MAX) => Some(1),
        (false, _) if address >> 120 == 0xFF => Some(0),
        _ => None,
    }
}

fn number(octets: &[u8]) -> u128 {
    octets.iter().fold(0, |number, octet| number << 8 | u128::from(*octet))
}

fn is_group(lab: Lab, first: u8) -> bool {
    if lab.is_ipv4() {
        first >> 4 == 14
    } else {
        first == 0xFF
    }
}

/// Group and source of an entry, and the octet with R, if it has one.
fn fields(lab: Lab, entry: &[u8]) -> (u8, u128, Option<u8>) {
    let width = lab.family.width();
    (entry[4], number(&entry[4 + width..4 + 2 * width]), entry.get(4 + 2 * width).copied())
}

/// Whether an entry does not begin with its family and three zeros.
pub fn has_bad_prefix(lab: Lab, entry: &[u8]) -> bool {
    entry[..4] != lab.prefix()
}

/// Whether an entry is bad: its prefix, its group is none, or its source. `zero`
/// says whether a pair may have source 0.
pub fn is_bad(lab: Lab, entry: &[u8], zero: bool) -> bool {
    let (group, source, r) = fields(lab, entry);
    let zero = r.map_or(zero, |r| r >> 7 == 1);
    has_bad_prefix(lab, entry) || !is_group(lab, group) || rule(lab, source).is_some() || source == 0 && !zero
}

impl Sources {
    pub fn new(family: Family) -> Sources {
        Sources { lab: Lab::of(family), none: BTreeMap::new(), accepted: Default::default() }
    }

    /// An address in something that has a name.
    pub fn count(&mut self, name: &str, address: u128) {
        if let Some(rule) = rule(self.lab, address) {
            self.none.entry(name.to_string()).or_default()[rule] += 1;
        }
    }

    /// A field that was at fault by 7 in octets that were read. It is a source if
    /// it is found as soon as its own octets are there.
    pub fn field<T>(
        &mut self,
        what: &str,
        octets: &[u8],
        refusal: &Refusal,
        again: impl Fn(&[u8]) -> Answer<T>,
    ) {
        let place = refusal.place;
        let end = place + self.lab.field_sizes()[1];
        let Some([family, 0, address @ ..]) = octets.get(place..end) else {
            return;
        };
        if *family != self.lab.family.number() || again(&octets[..end]).err() != Some(*refusal) {
            return;
        }
        let (address, r_word) = (number(address), octets.get(end..end + 4));
        match (ASSERT_RECORDS.contains(&what), r_word) {
            (false, _) => self.count(what, address),
            (true, None) => self.count(&format!("{what}, R cut"), address),
            (true, Some(r_word)) => self.count(&with_r(what, r_word[0]), address),
        }
    }

    /// An entry that was refused by its source, its group being one.
    pub fn entry(&mut self, what: &str, entry: &[u8]) {
        let (group, source, r) = fields(self.lab, entry);
        if has_bad_prefix(self.lab, entry) || !is_group(self.lab, group) {
            return;
        }
        match r {
            Some(r) => self.count(&with_r(what, r), source),
            None => self.count(what, source),
        }
    }

    /// Entries that were accepted.
    pub fn accepted(&mut self, place: Accepted, entries: &[u8], size: usize) {
        for entry in entries.chunks_exact(size) {
            let (_, source, _) = fields(self.lab, entry);
            if let Some(edge) = self.edges().iter().position(|(edge, _)| *edge == source) {
                self.accepted[edge][place as usize] += 1;
            }
        }
    }

    fn edges(&self) -> &'static [(u128, &'static str); 5] {
        &EDGES[usize::from(self.lab.family.number()) - 1]
    }

    /// All that an address has to be no source in, and how often it was.
    pub fn none_rows(&self) -> Vec<(String, Vec<u64>)> {
        let counts = |name: &String| self.none.get(name).copied().unwrap_or_default().to_vec();
        names(self.lab).into_iter().map(|name| (name.clone(), counts(&name))).collect()
    }

    /// All sources that have to be accepted, and how often they were.
    pub fn accepted_rows(&self) -> Vec<(String, Vec<u64>)> {
        self.edges()
            .iter()
            .zip(self.accepted)
            .map(|((_, name), counts)| (name.to_string(), counts.to_vec()))
            .collect()
    }
}

fn with_r(what: &str, r: u8) -> String {
    format!("{what}, R={}", r >> 7)
}

/// A message that is tallied, by the number of its kind.
pub fn tallied(kind: u8) -> String {
    format!("{}, tallied", KINDS[usize::from(kind)])
}

/// Reports are of IPv4.
fn names(lab: Lab) -> Vec<String> {
    let of_r = |what: &&str| ["R=0", "R=1", "R cut"].map(|r| format!("{what}, {r}"));
    let mut names: Vec<String> = ASSERT_RECORDS.iter().flat_map(of_r).collect();
    names.extend(OTHER_RECORDS.map(String::from));
    names.extend(ASSERT_ENTRIES.iter().flat_map(|what| [0, 0x80].map(|r| with_r(what, r))));
    names.extend(PAIR_ENTRIES.map(String::from));
    if lab.is_ipv4() {
        names.extend((1..=5).map(tallied));
    }
    names.extend([HEARD, OWN].map(String::from));
    names
}
