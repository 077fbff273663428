//! Pop-Count attributes read, speeds compared, and attributes merged.

use super::{calls, expect, make, places, Run};
use second::popcount::{compare_speeds, merge, read_attribute, Own};
use second::Family;

/// Options, and octets beyond the known values.
const SHAPES: [(u16, usize); 8] =
    [(0xFF00, 0), (0xF600, 0), (0x4400, 0), (0, 0), (0x8001, 0), (0x2201, 2), (0xFFFF, 7), (0x0080, 249)];

pub fn compare(run: &mut Run) {
    speeds(run);
    let alone = (0..8).map(|bit| (0x8000 >> bit, 0));
    for (options, more) in SHAPES.into_iter().chain(alone) {
        let attribute = make::attribute_with(&mut run.rng, options, more);
        damaged(run, &attribute);
    }
    for _ in 0..80_000 * run.rounds {
        random_attribute(run);
        random_merge(run);
    }
    for contributors in 0..=20 {
        maxima(run, contributors);
    }
}

/// Speeds about the borders of their fields, and random ones.
fn speeds(run: &mut Run) {
    let mut borders = Vec::new();
    for exponent in [0u16, 1, 2, 3, 4, 5, 31, 61, 62, 63] {
        for significand in [0, 1, 2, 9, 10, 11, 99, 100, 101, 102, 999, 1000, 1001, 1022, 1023] {
            borders.push(exponent << 10 | significand);
        }
    }
    for a in &borders {
        for b in &borders {
            speed_pair(run, *a, *b);
        }
    }
    for _ in 0..400_000 * run.rounds {
        let (a, b) = (run.rng.next_u32() as u16, run.rng.next_u32() as u16);
        speed_pair(run, a, b);
        let (a, b) = (make::speed(&mut run.rng), make::speed(&mut run.rng));
        speed_pair(run, a, b);
    }
}

fn speed_pair(run: &mut Run, a: u16, b: u16) {
    let (first, second) = (calls::popcount_compare_speeds(a, b), expect::order(compare_speeds(a, b)));
    run.tally.call("pim_popcount_compare_speeds", format_args!("{a:04x} and {b:04x}"), &[], &first, &second);
}

/// Each octet changed to each value, the end cut at each octet, alone and
/// between good attributes; places past the end.
fn damaged(run: &mut Run, attribute: &[u8]) {
    for at in 0..attribute.len().min(30) {
        for octet in 0..=255 {
            let mut changed = attribute.to_vec();
            changed[at] = octet;
            both_calls(run, &changed);
        }
    }
    for length in 0..=attribute.len() {
        both_calls(run, &attribute[..length]);
    }
    for at in [0, 1, attribute.len(), attribute.len() + 1, 1 << 32, usize::MAX - 3, usize::MAX] {
        read_one(run, attribute, at);
    }
}

/// Octets read as an attribute, and merged after a good one.
fn both_calls(run: &mut Run, octets: &[u8]) {
    read_one(run, octets, 0);
    let before = make::attribute(&mut run.rng);
    let list = [&before[..], octets].concat();
    read_one(run, &list, before.len());
    let own = make::own(&mut run.rng);
    merge_one(run, &own, &list, 22);
}

fn random_attribute(run: &mut Run) {
    let mut octets = make::attribute(&mut run.rng);
    read_one(run, &octets, 0);
    spoil(run, &mut octets);
    read_one(run, &octets, 0);
    let at = run.below(octets.len() + 2);
    read_one(run, &octets, at);
    let length = run.below(40);
    let random = make::octets(&mut run.rng, length);
    read_one(run, &[&[3], &random[..]].concat(), 0);
}

/// Cuts the octets, or changes one of the first.
fn spoil(run: &mut Run, octets: &mut Vec<u8>) {
    if run.rng.one_in(2) {
        octets.truncate(run.below(octets.len() + 1));
    } else {
        let at = run.below(8);
        octets[at] = octets[at].wrapping_add(make::pick(&mut run.rng, &[1, 0xFF, 0x80, 4]));
    }
}

/// A few contributors, sometimes one at fault, and any room.
fn random_merge(run: &mut Run) {
    let own = make::own(&mut run.rng);
    let mut list = Vec::new();
    for _ in 0..run.below(6) {
        let mut next = make::attribute(&mut run.rng);
        if run.rng.one_in(12) {
            spoil(run, &mut next);
        }
        list.extend(next);
    }
    let room = run.below(30);
    merge_one(run, &own, &list, room);
    merge_one(run, &own, &list, 30);
}

/// Contributors with all that is merged, at the maxima; each room.
fn maxima(run: &mut Run, contributors: usize) {
    let mut list = Vec::new();
    for _ in 0..contributors {
        let mut next = make::attribute_of(&mut run.rng, 0xF600);
        next[4..6].fill(0xFF);
        next[8..16].fill(make::pick(&mut run.rng, &[0xFF, 0x0C]));
        next[20..22].fill(make::pick(&mut run.rng, &[0xFF, 0xFE, 12]));
        list.extend(next);
    }
    for room in 0..=24 {
        let own = make::own(&mut run.rng);
        merge_one(run, &own, &list, room);
        merge_one(run, &Own { flags: 0xFFFF, transit: u32::MAX, ..own }, &list, room);
    }
}

fn read_one(run: &mut Run, octets: &[u8], at: usize) {
    let lent = run.input("octets", octets);
    let first = calls::popcount_read(&lent, at);
    let answer = read_attribute(octets, at);
    let second = expect::attribute(answer);
    run.tally.call("pim_popcount_read", format_args!("at {at}"), &[&lent], &first, &second);
    places::claim(run, Family::Ipv4, &lent, &answer, |_| "attribute", |cut| read_attribute(cut, at));
}

fn merge_one(run: &mut Run, own: &Own, contributors: &[u8], room: usize) {
    let e = run.rng.one_in(2);
    let lent = run.input("contributors", contributors);
    let mut buffer = run.room("buffer", room);
    let first = calls::popcount_merge(expect::own_form(own), e, &lent, &mut buffer);
    let answer = merge(*own, contributors, e, buffer.second_mut());
    let second = expect::length(answer);
    let numbers = format_args!("e {e}, room {room}, {own:?}");
    run.tally.call("pim_popcount_merge", numbers, &[&lent, &buffer], &first, &second);
    places::claim(run, Family::Ipv4, &lent, &answer, |_| "attribute", |cut| merge(*own, cut, e, &mut []));
}
