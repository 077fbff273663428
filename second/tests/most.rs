//! The most entries that a message of so many octets can give, as `pim.h` has
//! it, against the shortest message of each number of entries.

use second::Family;

const LONGEST: usize = 65_515;

/// PIM_IPV4_MOST_ASSERTS.
fn ipv4_most_asserts(n: usize) -> usize {
    match n {
        0..26 => 0,
        26..42 => 1,
        42..44 => 2,
        _ => (n.min(LONGEST) - 32) / 6,
    }
}

/// PIM_IPV6_MOST_ASSERTS.
fn ipv6_most_asserts(n: usize) -> usize {
    match n {
        0..44 => 0,
        44..116 => (n - 20) / 24,
        _ => (n.min(LONGEST) - 44) / 18,
    }
}

/// PIM_IPV4_MOST_PAIRS and PIM_IPV6_MOST_PAIRS.
fn most_pairs(family: Family, n: usize) -> usize {
    let pair = if family == Family::Ipv4 { 14 } else { 38 };
    if n < 4 + pair {
        return 0;
    }
    (n.min(LONGEST) - 4) / pair
}

/// The least octets of group records that give so many entries: one of p=0 gives
/// one, one of p sources gives p. Each number from those before it.
fn group_records(family: Family, most: usize) -> Vec<usize> {
    let (head, source) = (8 + family.width(), 2 + family.width());
    // The least with a last group record of one source or more, and of all.
    let mut all = vec![0];
    let mut named = usize::MAX / 2;
    for entries in 1..=most {
        named = (named + source).min(all[entries - 1] + head + source);
        all.push(named.min(all[entries - 1] + head));
    }
    all
}

/// The least octets of aggregated records that give so many entries.
fn records(family: Family, most: usize) -> Vec<usize> {
    let (group, source) = (4 + family.width(), 2 + family.width());
    let in_rp = group_records(family, most);
    let one = |entries: usize| (12 + in_rp[entries]).min(12 + source + group * entries);
    let mut all = vec![0];
    for entries in 1..=most {
        // One record; or, for few, any last record behind others.
        let split = (1..entries.min(60)).map(|last| all[entries - last] + one(last)).min();
        all.push(one(entries).min(split.unwrap_or(usize::MAX)));
    }
    all
}

/// The shortest message that gives so many entries: plain, simple or aggregated.
fn shortest(family: Family, most: usize) -> Vec<usize> {
    let record = 14 + 2 * family.width();
    let records = records(family, most);
    let of = |entries: usize| match entries {
        0 => 0,
        1 => (4 + record).min(8 + records[1]),
        _ => (8 + record * entries).min(8 + records[entries]),
    };
    (0..=most).map(of).collect()
}

fn compare(family: Family, most: impl Fn(usize) -> usize, entries: usize) {
    let shortest = shortest(family, entries);
    assert!(shortest[1..].is_sorted() && shortest[entries] > LONGEST);
    let mut count = 0;
    for n in 0..=LONGEST + 100 {
        while shortest[count + 1] <= n.min(LONGEST) {
            count += 1;
        }
        assert_eq!(most(n), count, "{family:?}, {n} octets");
    }
    assert_eq!(most(usize::MAX), count);
}

#[test]
fn asserts() {
    compare(Family::Ipv4, ipv4_most_asserts, 10_915);
    compare(Family::Ipv6, ipv6_most_asserts, 3_640);
}

#[test]
fn pairs() {
    for (family, pair) in [(Family::Ipv4, 14), (Family::Ipv6, 38)] {
        let mut count = 0;
        for n in 0..=LONGEST + 100 {
            while 4 + pair * (count + 1) <= n.min(LONGEST) {
                count += 1;
            }
            assert_eq!(most_pairs(family, n), count, "{family:?}, {n} octets");
        }
    }
}

/// The longest sheets: a header, 8,192 asserts, as many pairs, 64 neighbours.
#[test]
fn longest_sheets() {
    let longest =
        |family: Family| 28 + 8_192 * (family.assert_entry() + family.pair_entry()) + 64 * family.sheet_row();
    assert_eq!(Family::ALL.map(longest), [263_196, 657_180]);
    assert_eq!(Family::ALL.map(Family::assert_entry), [20, 44]);
    assert_eq!(Family::ALL.map(Family::pair_entry), [12, 36]);
    assert_eq!(Family::ALL.map(Family::sheet_row), [16, 28]);
    assert_eq!(Family::ALL.map(Family::least_limit), [38, 62]);
}
