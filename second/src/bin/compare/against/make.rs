//! What the calls are given: messages, files of them, lists, tables, counters,
//! tallies, attributes and sheets, good and damaged. What has addresses is made
//! for a lab.

use super::forms::SheetForm;
use super::lab::Lab;
use second::counters::{Count, Counters};
use second::neighbours::{Neighbour, Table, ROWS};
use second::popcount::Own;
use second::report::Tally;
use second::rng::Rng;
use second::Address;

pub const R: u32 = 0x8000_0000;

// Small alphabets, so that neighbouring entries often join.
const PREFERENCES: [u32; 2] = [110, 0x7FFF_FFFF];
const METRICS: [u32; 2] = [20, 0xFFFF_FFFF];

pub fn pick<T: Copy>(rng: &mut Rng, list: &[T]) -> T {
    list[rng.below(list.len())]
}

pub fn words(numbers: &[u32]) -> Vec<u8> {
    numbers.iter().flat_map(|word| word.to_be_bytes()).collect()
}

/// Random octets, about half of them small.
pub fn octets(rng: &mut Rng, count: usize) -> Vec<u8> {
    (0..count).map(|_| rng.next_u32() as u8 & pick(rng, &[0xFF, 0x03])).collect()
}

// ---- sources

/// A source that is allowed, or 0.
fn good_source(lab: Lab, rng: &mut Rng) -> u128 {
    if rng.one_in(4) {
        return pick(rng, &lab.edges());
    }
    pick(rng, &lab.sources())
}

/// An address that is no source; half of them are of all ones.
fn no_source(lab: Lab, rng: &mut Rng) -> u128 {
    let [first, last, all_ones] = lab.no_sources();
    pick(rng, &[first, last, all_ones, all_ones])
}

/// A source, but for one in 16.
fn any_source(lab: Lab, rng: &mut Rng) -> u128 {
    if rng.one_in(16) {
        return no_source(lab, rng);
    }
    good_source(lab, rng)
}

/// The source, or another one instead of a 0 that is not allowed.
fn zero_if(lab: Lab, allowed: bool, source: u128) -> u128 {
    if source == 0 && !allowed {
        return lab.sources()[1];
    }
    source
}

// ---- entry lists

/// An assert entry as its numbers.
#[derive(Clone, Copy)]
pub struct Entry {
    pub group: u128,
    pub source: u128,
    pub r_preference: u32,
    pub metric: u32,
}

impl Entry {
    /// An entry with R=0 has a source.
    fn well_formed(self, lab: Lab) -> Entry {
        Entry { source: zero_if(lab, self.r_preference & R != 0, self.source), ..self }
    }

    pub fn octets(self, lab: Lab) -> Vec<u8> {
        [self.pair(lab), words(&[self.r_preference, self.metric])].concat()
    }

    /// The pair of its group and source.
    pub fn pair(self, lab: Lab) -> Vec<u8> {
        pair_entry(lab, self.group, self.source)
    }
}

fn pair_entry(lab: Lab, group: u128, source: u128) -> Vec<u8> {
    [&lab.prefix()[..], &lab.octets(group), &lab.octets(source)].concat()
}

fn entry_with(lab: Lab, rng: &mut Rng, source: u128) -> Entry {
    let r_preference = pick(rng, &[0, R]) | pick(rng, &PREFERENCES);
    let (group, metric) = (pick(rng, &lab.groups()), pick(rng, &METRICS));
    Entry { group, source, r_preference, metric }.well_formed(lab)
}

fn fresh_entry(lab: Lab, rng: &mut Rng) -> Entry {
    let source = good_source(lab, rng);
    entry_with(lab, rng, source)
}

/// The entry after one: the same, with another group or source or without one,
/// or any.
fn next_entry(lab: Lab, rng: &mut Rng, before: Entry) -> Entry {
    match rng.below(10) {
        0 | 1 => before,
        2..=4 => Entry { group: pick(rng, &lab.groups()), ..before },
        5..=7 => Entry { source: good_source(lab, rng), ..before }.well_formed(lab),
        8 => Entry { source: 0, ..before }.well_formed(lab),
        _ => fresh_entry(lab, rng),
    }
}

/// Good assert entries.
pub fn asserts(lab: Lab, rng: &mut Rng, count: usize) -> Vec<u8> {
    let mut entry = fresh_entry(lab, rng);
    let mut list = Vec::with_capacity(lab.family.assert_entry() * count);
    for _ in 0..count {
        list.extend(entry.octets(lab));
        entry = next_entry(lab, rng, entry);
    }
    list
}

/// Assert entries of one group and of two, many of them without a source, so
/// that group records are split and joined.
pub fn lone_asserts(lab: Lab, rng: &mut Rng, count: usize) -> Vec<u8> {
    let [group, other, _] = lab.groups();
    let entry = |rng: &mut Rng| Entry {
        group: pick(rng, &[group, group, group, other]),
        source: pick(rng, &[0, 0, 0, 0, lab.sources()[1]]),
        r_preference: R | PREFERENCES[0],
        metric: if rng.one_in(9) { METRICS[1] } else { METRICS[0] },
    };
    (0..count).flat_map(|_| entry(rng).octets(lab)).collect()
}

/// Assert entries that all go into one record.
pub fn one_run(lab: Lab, r: u32, count: usize) -> Vec<u8> {
    let (group, source) = (lab.groups()[0], lab.sources()[1]);
    let (preference, metric) = (PREFERENCES[0], METRICS[0]);
    let entry = |i: u128| match r {
        0 => Entry { group: group + i, source, r_preference: preference, metric },
        _ => Entry { group, source: i, r_preference: R | preference, metric },
    };
    (0..count as u128).flat_map(|i| entry(i).octets(lab)).collect()
}

/// Good pairs; `zero` allows source 0.
pub fn pairs(lab: Lab, rng: &mut Rng, count: usize, zero: bool) -> Vec<u8> {
    let pair = |rng: &mut Rng| {
        let source = zero_if(lab, zero, good_source(lab, rng));
        pair_entry(lab, pick(rng, &lab.groups()), source)
    };
    (0..count).flat_map(|_| pair(rng)).collect()
}

/// Spoils one entry of a list: its prefix, its group, its source, or its source
/// and R.
pub fn spoil_entry(lab: Lab, rng: &mut Rng, list: &mut [u8], size: usize) {
    let (count, width) = (list.len() / size, lab.family.width());
    if count == 0 {
        return;
    }
    let entry = &mut list[size * rng.below(count)..][..size];
    match rng.below(4) {
        0 => spoil_prefix(rng, entry),
        1 => entry[4..4 + width].copy_from_slice(&lab.octets(pick(rng, &lab.no_groups()))),
        2 => entry[4 + width..4 + 2 * width].copy_from_slice(&lab.octets(no_source(lab, rng))),
        _ => {
            entry[4 + width..4 + 2 * width].fill(0);
            if let Some(r) = entry.get_mut(4 + 2 * width) {
                *r &= 0x7F;
            }
        }
    }
}

/// The other family, none, or an octet that is not 0.
fn spoil_prefix(rng: &mut Rng, entry: &mut [u8]) {
    match rng.below(3) {
        0 => entry[0] ^= 3,
        1 => entry[0] = pick(rng, &[0, 3, 255]),
        _ => entry[1 + rng.below(3)] = 1 << rng.below(8),
    }
}

/// All assert entries of a small alphabet, for lists that are all tried.
pub fn alphabet(lab: Lab) -> Vec<Entry> {
    let [group, other, _] = lab.groups();
    let [none, source, last] = lab.sources();
    let entry = |group, source, r, metric: usize| Entry {
        group,
        source,
        r_preference: r | PREFERENCES[0],
        metric: METRICS[metric],
    };
    vec![
        entry(group, source, 0, 0),
        entry(other, source, 0, 0),
        entry(group, last, 0, 0),
        entry(group, none, R, 0),
        entry(group, source, R, 0),
        entry(other, none, R, 0),
        entry(other, source, R, 0),
        entry(group, none, R, 1),
    ]
}

/// Entries of the same groups whose source is bad: for its address, or as 0.
pub fn bad_alphabet(lab: Lab) -> Vec<Entry> {
    let [group, other, _] = lab.groups();
    let [first, last, all_ones] = lab.no_sources();
    let entry =
        |group, source, r| Entry { group, source, r_preference: r | PREFERENCES[0], metric: METRICS[0] };
    vec![
        entry(group, first, 0),
        entry(group, last, R),
        entry(group, all_ones, 0),
        entry(other, all_ones, R),
        entry(other, 0, 0),
    ]
}

// ---- messages

pub fn message(lab: Lab, first: u8, second: u8, body: &[u8]) -> Vec<u8> {
    lab.sealed(&[&[first, second, 0, 0], body].concat())
}

fn group(lab: Lab, flags: u8, address: u128) -> Vec<u8> {
    let mask = 8 * lab.family.width() as u8;
    [&[lab.family.number(), 0, flags, mask][..], &lab.octets(address)].concat()
}

fn source(lab: Lab, address: u128) -> Vec<u8> {
    [&[lab.family.number(), 0][..], &lab.octets(address)].concat()
}

/// A number of fields and two reserved octets.
fn number(count: u16, reserved: u16) -> Vec<u8> {
    [count.to_be_bytes(), reserved.to_be_bytes()].concat()
}

/// One record of a plain or simple assert.
fn assert_record(lab: Lab, entry: Entry) -> Vec<u8> {
    let numbers = words(&[entry.r_preference, entry.metric]);
    [group(lab, 0, entry.group), source(lab, entry.source), numbers].concat()
}

/// One with a preference and a metric that are always the same.
fn usual_record(lab: Lab, group: u128, source: u128, r: u32) -> Vec<u8> {
    assert_record(lab, Entry { group, source, r_preference: r | 110, metric: 20 })
}

fn pair_record(lab: Lab, address: u128, from: u128) -> Vec<u8> {
    [group(lab, 0, address), source(lab, from)].concat()
}

fn source_aggregated(lab: Lab, from: u128, groups: &[u128]) -> Vec<u8> {
    let mut octets = words(&[PREFERENCES[0], METRICS[0]]);
    octets.extend([source(lab, from), number(groups.len() as u16, 0)].concat());
    octets.extend(groups.iter().flat_map(|address| group(lab, 0, *address)));
    octets
}

fn group_record(lab: Lab, address: u128, sources: &[u128]) -> Vec<u8> {
    let mut octets = [group(lab, 0, address), number(sources.len() as u16, 0)].concat();
    octets.extend(sources.iter().flat_map(|address| source(lab, *address)));
    octets
}

fn rp_aggregated(count: usize, group_records: &[u8]) -> Vec<u8> {
    let head = [words(&[R | PREFERENCES[0], METRICS[0]]), number(count as u16, 0)].concat();
    [&head, group_records].concat()
}

/// Small good messages of all kinds.
pub fn small_messages(lab: Lab) -> Vec<Vec<u8>> {
    let mut list = small_hellos(lab);
    list.extend(small_asserts(lab));
    list.extend(small_aggregated(lab));
    list.extend(small_pairs(lab));
    list
}

fn small_hellos(lab: Lab) -> Vec<Vec<u8>> {
    let holdtime = [0, 1, 0, 2, 0, 210];
    let priority = [0, 19, 0, 4, 0x80, 0, 0, 1];
    let packing = [0, 40, 0, 0];
    let unknown = [0, 20, 0, 3, 7, 8, 9];
    vec![
        message(lab, 0x20, 0, &[]),
        message(lab, 0x20, 0xFF, &[&holdtime[..], &priority, &packing].concat()),
        message(lab, 0x20, 0, &[&unknown[..], &packing, &unknown, &holdtime].concat()),
    ]
}

fn small_asserts(lab: Lab) -> Vec<Vec<u8>> {
    let plain = usual_record(lab, lab.groups()[0], lab.sources()[1], 0);
    let rp = usual_record(lab, lab.groups()[1], 0, R);
    vec![
        message(lab, 0x25, 0, &plain),
        message(lab, 0x25, 0xFE, &rp),
        message(lab, 0x25, 1, &[&[0; 4][..], &plain].concat()),
        message(lab, 0x25, 0xF1, &[&[0, 9, 9, 9][..], &rp, &plain].concat()),
    ]
}

fn small_aggregated(lab: Lab) -> Vec<Vec<u8>> {
    let (groups, [_, first, last]) = (lab.groups(), lab.sources());
    let from_source = source_aggregated(lab, first, &groups);
    let one_group = source_aggregated(lab, last, &groups[..1]);
    let none = group_record(lab, groups[0], &[]);
    let zero = group_record(lab, groups[0], &[0]);
    let two = group_record(lab, groups[1], &[0, 0]);
    let bodies = [
        from_source.clone(),
        rp_aggregated(1, &none),
        rp_aggregated(2, &[&zero[..], &two].concat()),
        [&one_group[..], &rp_aggregated(1, &two), &one_group].concat(),
        [rp_aggregated(1, &none), rp_aggregated(1, &none), from_source].concat(),
    ];
    bodies.iter().map(|body| message(lab, 0x25, 3, &[&[0; 4], &body[..]].concat())).collect()
}

fn small_pairs(lab: Lab) -> Vec<Vec<u8>> {
    let pair = pair_record(lab, lab.groups()[0], lab.sources()[1]);
    let zero = pair_record(lab, lab.groups()[1], 0);
    vec![
        message(lab, 0x2D, 0, &pair),
        message(lab, 0x2D, 0x0F, &[&pair[..], &pair].concat()),
        message(lab, 0x2D, 0x10, &[&pair[..], &zero].concat()),
        message(lab, 0x2D, 0x1F, &zero),
    ]
}

/// Messages with a source 0 that is not allowed there: of an assert record with
/// R=0, of a source aggregated record, and of a Null-Register.
pub fn zero_sources(lab: Lab) -> Vec<Vec<u8>> {
    let (group, source) = (lab.groups()[0], lab.sources()[1]);
    let assert = usual_record(lab, group, source, 0);
    let zero_assert = usual_record(lab, group, 0, 0);
    let pair = pair_record(lab, group, source);
    let zero_pair = pair_record(lab, group, 0);
    vec![
        message(lab, 0x25, 0, &zero_assert),
        message(lab, 0x25, 1, &[&[0; 4][..], &zero_assert, &assert].concat()),
        message(lab, 0x25, 1, &[&[0; 4][..], &assert, &zero_assert].concat()),
        message(lab, 0x25, 3, &[&[0; 4][..], &source_aggregated(lab, 0, &lab.groups())].concat()),
        message(lab, 0x2D, 0, &[&zero_pair[..], &pair].concat()),
        message(lab, 0x2D, 0, &[&pair[..], &zero_pair].concat()),
    ]
}

/// A message with an address as the source of each form of record: of an assert
/// record with R=0 and with R=1, plain and beside another one; of a source
/// aggregated record and of a group record; and of a pair of each kind.
pub fn with_source(lab: Lab, address: u128) -> Vec<Vec<u8>> {
    let (groups, good) = (lab.groups(), lab.sources()[1]);
    let record = |r, from| usual_record(lab, groups[0], from, r);
    let pair = |from| pair_record(lab, groups[0], from);
    let group_records = [group_record(lab, groups[0], &[]), group_record(lab, groups[1], &[good, address])];
    vec![
        message(lab, 0x25, 0, &record(0, address)),
        message(lab, 0x25, 0, &record(R, address)),
        message(lab, 0x25, 1, &[vec![0; 4], record(0, address), record(R, good)].concat()),
        message(lab, 0x25, 1, &[vec![0; 4], record(0, good), record(R, address)].concat()),
        message(lab, 0x25, 3, &[vec![0; 4], source_aggregated(lab, address, &groups[..2])].concat()),
        message(lab, 0x25, 3, &[vec![0; 4], rp_aggregated(2, &group_records.concat())].concat()),
        message(lab, 0x2D, 0x00, &[pair(good), pair(address)].concat()),
        message(lab, 0x2D, 0x10, &[pair(address), pair(good)].concat()),
    ]
}

/// Short messages that are refused: by 1 to 7 in turn, and by 13.
pub fn refused_messages(lab: Lab) -> Vec<Vec<u8>> {
    let source = lab.sources()[1];
    vec![
        vec![0x20; 3],
        message(lab, 0x30, 0, &[]),
        vec![0x20, 0, 0, 0],
        message(lab, 0x21, 0, &[]),
        message(lab, 0x2D, 0x10, &[]),
        message(lab, 0x20, 0, &[0, 1, 0]),
        message(lab, 0x25, 0, &usual_record(lab, source, source, 0)),
        message(lab, 0x20, 0, &[0, 1, 0, 3]),
    ]
}

/// Other values for an octet.
pub fn other_values(rng: &mut Rng, old: u8) -> [u8; 10] {
    let random = rng.next_u32() as u8;
    [0, 1, 0x20, 0x7F, 0xE0, 0xFF, old ^ 1, old ^ 0x80, old.wrapping_add(2), random]
}

/// First octets of messages, mostly of the kinds that are read.
fn first_octets(rng: &mut Rng) -> [u8; 2] {
    let random = rng.next_u32().to_be_bytes();
    let first = pick(rng, &[0x20, 0x25, 0x25, 0x25, 0x2D, 0x2D, 0x21, 0x35, random[0]]);
    let second = pick(rng, &[0, 1, 3, 3, 0x10, 0x20, random[1]]);
    [first, second]
}

/// What makes random messages.
pub const RANDOM: [fn(Lab, &mut Rng) -> Vec<u8>; 5] =
    [random_message, random_fields, random_records, random_aggregated, random_hello];

/// Random octets behind plausible first ones.
pub fn random_message(lab: Lab, rng: &mut Rng) -> Vec<u8> {
    let [first, second] = first_octets(rng);
    let length = rng.below(90);
    let body = octets(rng, length);
    message(lab, first, second, &body)
}

/// Fields of messages in any order, so that faults stand deep in a record; some
/// are of the other family.
pub fn random_fields(lab: Lab, rng: &mut Rng) -> Vec<u8> {
    let [first, second] = first_octets(rng);
    let mut body = if first == 0x25 && second & 1 == 1 { vec![0; 4] } else { Vec::new() };
    for _ in 0..rng.below(9) {
        let of = if rng.one_in(20) { lab.other() } else { lab };
        body.extend(random_field(of, rng));
    }
    body.truncate(body.len() - rng.below(4).min(body.len()));
    message(lab, first, second, &body)
}

fn random_field(lab: Lab, rng: &mut Rng) -> Vec<u8> {
    let small = rng.below(3) as u16;
    match rng.below(10) {
        0..=2 => group(lab, rng.next_u32() as u8, pick(rng, &lab.groups())),
        3..=4 => source(lab, any_source(lab, rng)),
        5..=6 => words(&[pick(rng, &[0, R]) | 110, 20]),
        7 => number(small, 0),
        8 => [source(lab, lab.sources()[1]), number(small, 7)].concat(),
        _ => octets(rng, 4),
    }
}

/// A message of records or pairs that are good but for some sources.
pub fn random_records(lab: Lab, rng: &mut Rng) -> Vec<u8> {
    let count = 1 + rng.below(4);
    let records = |rng: &mut Rng| (0..count).flat_map(|_| random_record(lab, rng)).collect::<Vec<u8>>();
    let pairs =
        |rng: &mut Rng, zero| (0..count).flat_map(|_| random_pair(lab, rng, zero)).collect::<Vec<u8>>();
    match rng.below(4) {
        0 => message(lab, 0x25, 0, &random_record(lab, rng)),
        1 => message(lab, 0x25, 1, &[vec![0; 4], records(rng)].concat()),
        2 => message(lab, 0x2D, 0x00, &pairs(rng, false)),
        _ => message(lab, 0x2D, 0x10, &pairs(rng, true)),
    }
}

/// One in 30 is of the other family.
fn random_record(lab: Lab, rng: &mut Rng) -> Vec<u8> {
    let lab = if rng.one_in(30) { lab.other() } else { lab };
    let source = any_source(lab, rng);
    assert_record(lab, entry_with(lab, rng, source))
}

fn random_pair(lab: Lab, rng: &mut Rng, zero: bool) -> Vec<u8> {
    let lab = if rng.one_in(30) { lab.other() } else { lab };
    let source = zero_if(lab, zero, any_source(lab, rng));
    pair_record(lab, pick(rng, &lab.groups()), source)
}

/// An aggregated message of records of any form, joined or not, good but for
/// some sources.
pub fn random_aggregated(lab: Lab, rng: &mut Rng) -> Vec<u8> {
    let mut body = vec![0, rng.next_u32() as u8, 0, 1];
    for _ in 0..=rng.below(3) {
        body.extend(random_aggregated_record(lab, rng));
    }
    message(lab, 0x25, 3, &body)
}

fn random_aggregated_record(lab: Lab, rng: &mut Rng) -> Vec<u8> {
    let count = rng.below(4);
    if rng.one_in(2) {
        let groups: Vec<u128> = (0..=count).map(|_| pick(rng, &lab.groups())).collect();
        return source_aggregated(lab, zero_if(lab, false, any_source(lab, rng)), &groups);
    }
    let records: Vec<u8> = (0..=count).flat_map(|_| random_group_record(lab, rng)).collect();
    rp_aggregated(count + 1, &records)
}

fn random_group_record(lab: Lab, rng: &mut Rng) -> Vec<u8> {
    let sources: Vec<u128> = (0..rng.below(4)).map(|_| any_source(lab, rng)).collect();
    group_record(lab, pick(rng, &lab.groups()), &sources)
}

/// A Hello of known and unknown options, right or wrong, cut or not.
pub fn random_hello(lab: Lab, rng: &mut Rng) -> Vec<u8> {
    let mut body = Vec::new();
    for _ in 0..rng.below(5) {
        body.extend(random_option(rng));
    }
    if rng.one_in(4) {
        body.truncate(rng.below(body.len() + 1));
    }
    message(lab, 0x20, rng.next_u32() as u8, &body)
}

fn random_option(rng: &mut Rng) -> Vec<u8> {
    let (option, right) = pick(rng, &[(1u16, 2u16), (19, 4), (40, 0), (2, 4), (20, 4), (0xFFFF, 1)]);
    let length = if rng.one_in(9) { rng.below(6) as u16 } else { right };
    let value = octets(rng, usize::from(length));
    [&option.to_be_bytes()[..], &length.to_be_bytes(), &value].concat()
}

/// Cut, or one octet changed; mostly with a right checksum.
pub fn damaged(lab: Lab, rng: &mut Rng, m: &[u8]) -> Vec<u8> {
    let mut m = m.to_vec();
    if rng.one_in(2) {
        m.truncate(rng.below(m.len() + 1));
    } else {
        let at = rng.below(m.len());
        m[at] = pick(rng, &[0, 1, 2, 0x20, 0x80, 0xE0, 0xFF]);
    }
    if !rng.one_in(4) {
        lab.seal(&mut m);
    }
    m
}

/// Messages as long as they may be, or nearly.
pub fn large_messages(lab: Lab, rng: &mut Rng) -> Vec<Vec<u8>> {
    let [group_size, source_size] = lab.field_sizes();
    let first = lab.groups()[0];
    let (record, pair) = (group_size + source_size + 8, group_size + source_size);
    let records: Vec<u8> =
        (0..65_507 / record).flat_map(|_| assert_record(lab, fresh_entry(lab, rng))).collect();
    let register: Vec<u8> = (0..65_511 / pair).flat_map(|i| pair_record(lab, first, i as u128 + 1)).collect();
    let count = (65_515 - 8 - 12 - source_size) / group_size;
    let groups: Vec<u128> = (0..count).map(|i| first + i as u128).collect();
    let count = (65_515 - 8 - 12 - group_size - 4) / source_size;
    let sources: Vec<u128> = (0..count as u128).collect();
    let count = (65_515 - 20) / (group_size + 4);
    let lone: Vec<u8> =
        groups.iter().cycle().take(count).flat_map(|it| group_record(lab, *it, &[])).collect();
    let option = [&[0x77, 0x77, 0xFF, 0xE3][..], &octets(rng, 65_507)].concat();
    let from_first = group_record(lab, first, &sources);
    vec![
        message(lab, 0x20, 0, &option),
        message(lab, 0x25, 1, &[&[0; 4], &records[..]].concat()),
        message(lab, 0x25, 3, &[&[0; 4][..], &source_aggregated(lab, lab.sources()[1], &groups)].concat()),
        message(lab, 0x25, 3, &[&[0; 4][..], &rp_aggregated(1, &from_first)].concat()),
        message(lab, 0x25, 3, &[&[0; 4][..], &rp_aggregated(count, &lone)].concat()),
        message(lab, 0x2D, 0x00, &register),
        message(lab, 0x2D, 0x10, &register),
    ]
}

/// The large messages that end with a source, or with a record after it, with an
/// address as that source.
pub fn last_source(lab: Lab, large: &[Vec<u8>], address: u128) -> Vec<Vec<u8>> {
    // R word and metric follow it in the simple message.
    let last = |(message, after): (usize, usize)| {
        let mut m = large[message].clone();
        let at = m.len() - after - lab.family.width();
        m[at..at + lab.family.width()].copy_from_slice(&lab.octets(address));
        lab.seal(&mut m);
        m
    };
    [(1, 8), (3, 0), (5, 0), (6, 0)].map(last).to_vec()
}

// ---- files of messages

/// Each message with its length before it, as far as 16 bits say it.
pub fn file(messages: &[Vec<u8>]) -> Vec<u8> {
    messages.iter().flat_map(|m| [&(m.len() as u16).to_be_bytes()[..], m].concat()).collect()
}

/// Octets of any number that begin as a Hello with an unknown option, which
/// goes to the end.
pub fn hello_of(lab: Lab, length: usize) -> Vec<u8> {
    let value = vec![7; length.saturating_sub(8)];
    let option = [&[0x77, 0x77][..], &(value.len() as u16).to_be_bytes(), &value].concat();
    let mut m = message(lab, 0x20, 0, &option);
    m.truncate(length);
    lab.seal(&mut m);
    m
}

/// A message for a file: one of a list, damaged or not; one with a source of any
/// of the addresses; one of random records, options or fields; a long one; any
/// octets, or none.
pub fn any_message(lab: Lab, rng: &mut Rng, list: &[Vec<u8>]) -> Vec<u8> {
    let one = &list[rng.below(list.len())];
    let length = rng.below(12);
    match rng.below(14) {
        0..=4 => one.clone(),
        5 => damaged(lab, rng, one),
        6 => with_source(lab, pick(rng, &lab.addresses())).swap_remove(rng.below(8)),
        7 => random_records(lab, rng),
        8 => random_aggregated(lab, rng),
        9 => random_hello(lab, rng),
        10 => random_fields(lab, rng),
        11 => random_message(lab, rng),
        12 => hello_of(lab, length * pick(rng, &[1, 50, 100])),
        _ => octets(rng, length / 2),
    }
}

/// A file of fewer messages than a number.
pub fn any_file(lab: Lab, rng: &mut Rng, list: &[Vec<u8>], bound: usize) -> Vec<u8> {
    let messages: Vec<Vec<u8>> = (0..rng.below(bound)).map(|_| any_message(lab, rng, list)).collect();
    file(&messages)
}

// ---- neighbours and counters

/// Few addresses of neighbours, about twice as many as a table holds; some are
/// no sources.
pub fn address(lab: Lab, rng: &mut Rng) -> Address {
    let small = 1 + rng.below(40) as u128;
    let most = if lab.is_ipv4() { u128::from(u32::MAX) } else { u128::MAX };
    let near =
        [small, small + (lab.groups()[0] & !0xFF), lab.router().wrapping_mul(small) & most, most - small];
    let at = rng.below(5);
    let one = near.get(at).copied().unwrap_or(lab.router() + small);
    Address::from(if one == 0 { 1 } else { one })
}

/// An address that is none of IPv4.
pub fn foreign(rng: &mut Rng) -> Address {
    let small = rng.below(9) as u64;
    match rng.below(4) {
        0 => Address { high: 0, low: 1 << 32 | small },
        1 => Address { high: 0, low: 1 << 63 | small },
        2 => Address { high: 1 << rng.below(64), low: small },
        _ => Address { high: 0xFE80 << 48, low: small },
    }
}

fn row(rng: &mut Rng, address: Address) -> Neighbour {
    let has_priority = !rng.one_in(12);
    let priority = if has_priority { pick(rng, &[0, 1, 5, u32::MAX]) } else { 0 };
    let holdtime = 1 + rng.below(0xFFFF) as u16;
    Neighbour { address, priority, has_priority, packs: !rng.one_in(12), holdtime }
}

/// A row of which only the address has a rule: it is not 0.
pub fn any_row(rng: &mut Rng) -> Neighbour {
    let random = rng.next_u32();
    let low = pick(rng, &[1, 2, 3, 0x7FFF_FFFF, 0x8000_0000, 0xFFFF_FFFF, u64::MAX, u64::from(random) | 1]);
    let high = pick(rng, &[0, 0, 0, 0, 1, 1 << 63, 0xFE80 << 48, u64::MAX]);
    Neighbour {
        address: Address { high, low: if high != 0 && rng.one_in(9) { 0 } else { low } },
        priority: pick(rng, &[0, 1, 0x7FFF_FFFF, 0x8000_0000, u32::MAX, random]),
        has_priority: rng.one_in(2),
        packs: rng.one_in(2),
        holdtime: pick(rng, &[0, 105, random as u16]),
    }
}

/// A list of any rows. In most lists all of them have a priority, so that it
/// decides; in some one row or few have an address of 0.
pub fn rows(rng: &mut Rng, count: usize) -> Vec<Neighbour> {
    let mut rows: Vec<Neighbour> = (0..count).map(|_| any_row(rng)).collect();
    if !rng.one_in(4) {
        rows.iter_mut().for_each(|row| row.has_priority = true);
    }
    if rng.one_in(4) && count > 0 {
        let without = rng.below(count);
        rows[without].has_priority = false;
    }
    for _ in 0..pick(rng, &[0, 0, 0, 0, 0, 1, 2]).min(count) {
        let zero = rng.below(count);
        rows[zero].address = Address::default();
    }
    rows
}

/// The highest priority of a low row.
pub const LOW: u32 = 5;

/// Rows with low addresses and low priorities.
pub fn low_rows(rng: &mut Rng, count: usize) -> Vec<Neighbour> {
    let low = |rng: &mut Rng| Neighbour {
        address: Address::from(2 + rng.below(90) as u128),
        priority: 1 + rng.below(LOW as usize) as u32,
        has_priority: true,
        ..any_row(rng)
    };
    (0..count).map(|_| low(rng)).collect()
}

/// A good table: short, of any length, or full, or nearly.
pub fn table(lab: Lab, rng: &mut Rng) -> Table {
    let (short, any) = (rng.below(17), rng.below(ROWS + 1));
    let count = pick(rng, &[short, short, short, short, any, any, ROWS - 1, ROWS]);
    table_of(lab, rng, count)
}

pub fn table_of(lab: Lab, rng: &mut Rng, count: usize) -> Table {
    let mut table = Table { count, ..Table::empty() };
    table.rows[..count].copy_from_slice(&good_rows(lab, rng, count));
    table
}

/// Rows that a sheet may hold, to more than a table does.
fn good_rows(lab: Lab, rng: &mut Rng, count: usize) -> Vec<Neighbour> {
    let mut rows: Vec<Neighbour> = Vec::with_capacity(count);
    while rows.len() < count {
        let address = address(lab, rng);
        if rows.iter().all(|row| row.address != address) {
            rows.push(row(rng, address));
        }
    }
    rows
}

/// A table with one fault or more.
pub fn spoiled_table(lab: Lab, rng: &mut Rng) -> Table {
    let mut table = table(lab, rng);
    for _ in 0..=rng.below(2) {
        spoil_table(rng, &mut table);
    }
    table
}

fn spoil_table(rng: &mut Rng, table: &mut Table) {
    let rows = pick(rng, &[table.count.clamp(1, ROWS), ROWS]);
    let (one, other) = (rng.below(rows), rng.below(rows));
    match rng.below(11) {
        0 => table.count = pick(rng, &[65, 66, 128, 1 << 16, 1 << 32, usize::MAX]),
        1 => table.count = rng.below(ROWS + 1),
        2 => table.rows[one].address = table.rows[other].address,
        3 => table.rows[one].address = Address::default(),
        4 => table.rows[one].has_priority = !table.rows[one].has_priority,
        5 => table.rows[one].holdtime = 0,
        6 => table.rows[one].priority = 7,
        7 => table.rows[one].packs = true,
        8 => table.rows[one].address = foreign(rng),
        9 => table.rows[one].address.high = 1,
        _ => table.rows[ROWS - 1].holdtime = 1,
    }
}

/// A number that is small, any, or near its maximum.
pub fn total(rng: &mut Rng) -> u64 {
    match rng.below(4) {
        0 => rng.below(3) as u64,
        1 => rng.next_u64(),
        2 => u64::MAX,
        _ => u64::MAX - rng.below(4) as u64,
    }
}

pub fn counters(rng: &mut Rng) -> Counters {
    let mut counters = Counters::default();
    for count in counters.sent.iter_mut().chain(&mut counters.received) {
        *count = Count { messages: total(rng), records: total(rng) };
    }
    counters
}

// ---- tallies

/// A tally of any numbers, also of those that no message is counted under.
pub fn tally(rng: &mut Rng) -> Tally {
    let mut tally = Tally::default();
    tally.accepted.fill_with(|| Count { messages: total(rng), records: total(rng) });
    tally.refused.fill_with(|| total(rng));
    tally
}

/// A tally whose packed messages, and their records, have given sums. The other
/// numbers are any.
pub fn tally_of(rng: &mut Rng, messages: u64, records: u64) -> Tally {
    let mut tally = tally(rng);
    let (messages, records) = (parts(rng, messages), parts(rng, records));
    for (i, count) in tally.accepted[2..].iter_mut().enumerate() {
        *count = Count { messages: messages[i], records: records[i] };
    }
    tally
}

/// Four numbers with a sum, in any order; often some of them are 0.
fn parts(rng: &mut Rng, sum: u64) -> [u64; 4] {
    let mut parts = [0; 4];
    let mut left = sum;
    for _ in 0..3 {
        let any = rng.next_u64() % left.max(1);
        let part = pick(rng, &[0, left, left / 2, any]);
        parts[rng.below(4)] += part;
        left -= part;
    }
    parts[rng.below(4)] += left;
    parts
}

// ---- Pop-Count

/// Speeds of few sizes, each in several encodings.
pub fn speed(rng: &mut Rng) -> u16 {
    let speeds = [(0, 1000), (1, 100), (2, 10), (3, 1), (0, 0), (63, 0), (1, 1000), (4, 1), (63, 1023)];
    let (exponent, significand): (u16, u16) = pick(rng, &speeds);
    if rng.one_in(5) {
        return rng.next_u32() as u16;
    }
    exponent << 10 | significand
}

/// A count that is small, any, or at its maximum.
fn value(rng: &mut Rng, size: usize) -> Vec<u8> {
    match rng.below(3) {
        0 => (rng.below(200) as u32).to_be_bytes()[4 - size..].to_vec(),
        1 => vec![0xFF; size],
        _ => rng.next_u32().to_be_bytes()[..size].to_vec(),
    }
}

fn option_value(rng: &mut Rng, bit: u16, size: usize) -> Vec<u8> {
    if bit & 0x3000 != 0 {
        return speed(rng).to_be_bytes().to_vec();
    }
    value(rng, size)
}

/// A good attribute with given options. With unallocated ones there may be
/// octets beyond the known values.
pub fn attribute_of(rng: &mut Rng, options: u16) -> Vec<u8> {
    if options & 0xFF == 0 {
        return attribute_with(rng, options, 0);
    }
    let most = pick(rng, &[1, 5, 230]);
    let more = rng.below(most);
    attribute_with(rng, options, more)
}

/// The same with so many of these octets.
pub fn attribute_with(rng: &mut Rng, options: u16, more: usize) -> Vec<u8> {
    let mut values = Vec::new();
    for (i, size) in [4, 4, 2, 2, 1, 1, 1, 1].into_iter().enumerate() {
        let bit = 0x8000 >> i;
        if options & bit != 0 {
            values.extend(option_value(rng, bit, size));
        }
    }
    values.extend(octets(rng, more));
    let head = [3 | pick(rng, &[0, 0x40]), 6 + values.len() as u8];
    let (mtu, flags) = (rng.next_u32() as u16, rng.next_u32() as u16);
    let numbers = [mtu.to_be_bytes(), flags.to_be_bytes(), options.to_be_bytes()].concat();
    [&head[..], &numbers, &values].concat()
}

/// A good attribute; most have all options that are merged.
pub fn attribute(rng: &mut Rng) -> Vec<u8> {
    let known = rng.next_u32() as u16 & 0xFF00 | pick(rng, &[0xF600, 0xF600, 0xFF00, 0]);
    let options = known | if rng.one_in(4) { rng.below(256) as u16 } else { 0 };
    attribute_of(rng, options)
}

pub fn own(rng: &mut Rng) -> Own {
    let count = |rng: &mut Rng| pick(rng, &[0, 1, u32::MAX - 5, u32::MAX]);
    Own {
        mtu: rng.next_u32() as u16,
        flags: rng.next_u32() as u16,
        transit: count(rng),
        stub: count(rng),
        least_speed: speed(rng),
        greatest_speed: speed(rng),
    }
}

// ---- sheets

/// A sheet of so many asserts, pairs and neighbours. They are good, and the
/// sheet is too unless its form allows fewer.
pub fn sheet(rng: &mut Rng, form: SheetForm, counts: [usize; 3]) -> Vec<u8> {
    let lab = Lab::of(form.family);
    let mut octets = form.header_of(form.numbers(counts));
    let (assert, pair) = (form.family.assert_entry(), form.family.pair_entry());
    octets.extend(bare(form, &asserts(lab, rng, counts[0]), assert));
    octets.extend(bare(form, &pairs(lab, rng, counts[1], true), pair));
    octets.extend(good_rows(lab, rng, counts[2]).iter().flat_map(|row| row_octets(form, row)));
    octets
}

/// Entries of so many octets as a form has them: the older ones without prefix.
fn bare(form: SheetForm, entries: &[u8], size: usize) -> Vec<u8> {
    entries.chunks(size).flat_map(|entry| entry[4 - form.prefix()..].to_vec()).collect()
}

fn row_octets(form: SheetForm, row: &Neighbour) -> Vec<u8> {
    let lab = Lab::of(form.family);
    let flags = u32::from(row.has_priority) | u32::from(row.packs) << 1;
    let numbers = words(&[row.priority, flags << 24 | u32::from(row.holdtime)]);
    [&lab.prefix()[4 - form.prefix()..], &lab.octets(row.address.into()), &numbers].concat()
}

/// Puts an address that is no source into an entry of a sheet of so many asserts
/// and pairs, or spoils its prefix.
pub fn spoil_sheet(rng: &mut Rng, sheet: &mut [u8], form: SheetForm, [asserts, pairs]: [usize; 2]) {
    let (lab, width) = (Lab::of(form.family), form.family.width());
    if asserts + pairs == 0 {
        return;
    }
    let entry = rng.below(asserts + pairs);
    let [assert, pair, _] = form.sizes();
    let at = form.header + assert * entry.min(asserts) + pair * entry.saturating_sub(asserts);
    if form.prefix() > 0 && rng.one_in(3) {
        spoil_prefix(rng, &mut sheet[at..at + 4]);
        return;
    }
    let at = at + form.prefix() + width;
    sheet[at..at + width].copy_from_slice(&lab.octets(no_source(lab, rng)));
}

/// Numbers for a header, beside one that it has: about it, about the limits, and
/// such as are it, or nothing, in fewer bits.
pub fn other_numbers(number: usize, form: SheetForm) -> Vec<usize> {
    let near = [0, 1, number.wrapping_sub(1), number + 1, number + 16];
    let limits = form.most.iter().flat_map(|most| [*most, most + 1]);
    let bits = [15, 16, 28, 29, 30, 31].into_iter().flat_map(|bit| [1 << bit, number | 1 << bit]);
    near.into_iter().chain(limits).chain(bits).chain([0xFFFF, 0xFFFF_FFFF]).collect()
}

/// Random octets, mostly behind those that a sheet of a form begins with.
pub fn sheet_octets(rng: &mut Rng) -> Vec<u8> {
    let number = rng.below(6) as u8;
    let marked = [0xFF, 0xFF, 0, number];
    let begin: &[u8] = pick(rng, &[&[], &[0xFF, 0xFF], &marked, &[0, 0, 0, 12]]);
    let length = rng.below(50);
    [begin, &octets(rng, length)].concat()
}
