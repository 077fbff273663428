//! Cut and changed messages, and random octets: every call ends with an
//! answer, and a refusal changes nothing lent.
mod common;
use common::sheets::*;
use common::*;
use second::checksum::*;
use second::hello::{read_hello, write_hello};
use second::pack::*;
use second::popcount::*;
use second::read::*;
use second::rng::Rng;
use second::sheet::{check_sheet, read_sheet, write_sheet};
use second::{Family, Kind};

/// All reading calls on one message.
fn read_all(family: Family, m: &[u8], entries: &mut [u8]) {
    entries.fill(0x77);
    let _ = read_hello(family, v6::PATH, m);
    assert!(body(family, v6::PATH, m).len() <= m.len().saturating_sub(4));
    match read_asserts(family, v6::PATH, m, entries) {
        Ok((_, count)) => {
            assert!(entries[family.assert_entry() * count..].iter().all(|octet| *octet == 0x77))
        }
        Err(_) => assert!(entries.iter().all(|octet| *octet == 0x77)),
    }
    entries.fill(0x77);
    match read_pairs(family, v6::PATH, m, entries) {
        Ok((_, count)) => {
            assert!(entries[family.pair_entry() * count..].iter().all(|octet| *octet == 0x77))
        }
        Err(_) => assert!(entries.iter().all(|octet| *octet == 0x77)),
    }
    for kind in Kind::ALL {
        let _ = read_record(family, kind, m, 4);
    }
}

fn seal(family: Family, m: &mut [u8]) {
    match family {
        Family::Ipv4 => common::seal(m),
        Family::Ipv6 => v6::seal(m),
    }
}

fn entries_of(family: Family, rng: &mut Rng, count: usize) -> Vec<u8> {
    match family {
        Family::Ipv4 => random_entries(rng, count),
        Family::Ipv6 => v6::random_entries(rng, count),
    }
}

fn pairs_of(family: Family, rng: &mut Rng, count: usize) -> Vec<u8> {
    match family {
        Family::Ipv4 => random_pairs(rng, count, 1),
        Family::Ipv6 => v6::random_pairs(rng, count, 1),
    }
}

/// One message of each kind.
fn messages(family: Family) -> Vec<Vec<u8>> {
    let mut rng = Rng::new(1);
    let asserts = entries_of(family, &mut rng, 9);
    let pairs = pairs_of(family, &mut rng, 5);
    let mut hello = hex("2000 0000 0001 0002 0012 0013 0004 00000001 0028 0000 0014 0002 0000");
    seal(family, &mut hello);
    let mut list = vec![hello];
    for pack in [pack_assert, pack_simple, pack_aggregated] {
        let mut buffer = vec![0; 300];
        let (length, _) = pack(family, v6::PATH, &asserts, 0, 300, &mut buffer).unwrap();
        list.push(buffer[..length].to_vec());
    }
    for pack in [pack_null_register, pack_register_stop] {
        let mut buffer = vec![0; 300];
        let (length, _) = pack(family, v6::PATH, &pairs, 0, 300, &mut buffer).unwrap();
        list.push(buffer[..length].to_vec());
    }
    list
}

/// Each message of each family, read as either.
fn all_messages() -> impl Iterator<Item = (Family, Vec<u8>)> {
    Family::ALL.into_iter().flat_map(|family| messages(family).into_iter().map(move |m| (family, m)))
}

#[test]
fn cut_at_every_octet() {
    let mut entries = vec![0; 1000];
    for (_, m) in all_messages() {
        for (family, length) in Family::ALL.into_iter().flat_map(|it| (0..m.len()).map(move |n| (it, n))) {
            let mut cut = m[..length].to_vec();
            read_all(family, &cut, &mut entries);
            if length >= 4 {
                seal(family, &mut cut);
                read_all(family, &cut, &mut entries);
                read_all(family, &cut, &mut [0; 9]);
            }
        }
    }
}

#[test]
fn single_octets_changed() {
    let mut entries = vec![0; 1000];
    for (family, m) in all_messages() {
        for at in 0..m.len() {
            for octet in 0..=255 {
                let mut changed = m.clone();
                changed[at] = octet;
                assert_eq!(header(family, v6::PATH, &changed).is_ok(), octet == m[at]);
                read_all(family, &changed, &mut entries);
                seal(family, &mut changed);
                read_all(family, &changed, &mut entries);
            }
        }
    }
}

#[test]
fn random_octets() {
    let mut rng = Rng::new(77);
    let mut entries = vec![0; 4000];
    for i in 0..200_000 {
        let family = Family::ALL[i % 2];
        let mut m = vec![0; rng.below(120)];
        rng.fill(&mut m);
        for octet in &mut m {
            if rng.one_in(2) {
                *octet &= 3;
            }
        }
        let _ = read_attribute(&m, rng.below(12));
        let _ = check_sheet(family, &m);
        if m.len() >= 4 {
            m[0] = [0x20, 0x25, 0x2D][rng.below(3)];
            seal(family, &mut m);
            read_all(family, &m, &mut entries);
        }
    }
}

#[test]
fn packing_any_octets() {
    let mut rng = Rng::new(78);
    for i in 0..80_000 {
        let family = Family::ALL[i % 2];
        let count = rng.below(6);
        let mut list = entries_of(family, &mut rng, count);
        if rng.one_in(3) && !list.is_empty() {
            let at = rng.below(list.len());
            list[at] = 0;
        }
        if rng.one_in(9) {
            list.push(0xE0);
        }
        let mut buffer = vec![0x55; rng.below(150)];
        let before = buffer.clone();
        let (start, limit) = (rng.below(8), 30 + rng.below(130));
        for pack in [pack_assert, pack_simple, pack_aggregated, pack_null_register, pack_register_stop] {
            let answer = pack(family, v6::PATH, &list, start, limit, &mut buffer);
            let length = answer.map_or(0, |answer| answer.0);
            assert_eq!(buffer[length..], before[length..]);
            buffer.fill(0x55);
        }
    }
}

#[test]
fn hellos_into_any_room() {
    let mut rng = Rng::new(81);
    let mut entries = vec![0; 100];
    for i in 0..80_000 {
        let family = Family::ALL[i % 2];
        let mut buffer = vec![0; rng.below(40)];
        rng.fill(&mut buffer);
        let before = buffer.clone();
        let said = random_hello(&mut rng);
        let length = write_hello(family, v6::PATH, said, &mut buffer).unwrap_or(0);
        assert_eq!(buffer[length..], before[length..]);
        // What was written, whole and cut.
        read_all(family, &buffer[..length], &mut entries);
        read_all(family, &buffer[..rng.below(length + 1)], &mut entries);
    }
}

#[test]
fn changed_sheets() {
    for form in SHEET_FORMS {
        let (family, good) = (form.family, form.sheet_of([3, 3, 3]));
        for (at, octet) in (0..good.len()).flat_map(|at| (0..=255).map(move |octet| (at, octet))) {
            let mut sheet = good.clone();
            sheet[at] = octet;
            let mut x = vec![0; 3 * family.assert_entry()];
            let mut y = vec![0; 3 * family.pair_entry()];
            let Ok((3, 3, table)) = read_sheet(family, &sheet, &mut x, &mut y) else {
                assert!(x.iter().chain(&y).all(|octet| *octet == 0));
                continue;
            };
            // What is read gives, written, a sheet that gives the same.
            let mut again = vec![0; 1_000];
            let length = write_sheet(family, &x, &y, &table, &mut again).unwrap();
            let (mut v, mut w) = (x.clone(), y.clone());
            assert_eq!(read_sheet(family, &again[..length], &mut v, &mut w), Ok((3, 3, table)));
            assert_eq!((v, w), (x, y));
        }
    }
}

/// Headers of counts and offsets that are small, large or right, before octets
/// of any number.
#[test]
fn any_headers_of_sheets() {
    let mut rng = Rng::new(82);
    let (mut x, mut y) = (vec![0x55; 44 * 40], vec![0x55; 36 * 40]);
    for _ in 0..200_000 {
        let form = SHEET_FORMS[rng.below(4)];
        let counts = [rng.below(40), rng.below(40), rng.below(70)];
        let mut numbers = form.numbers(counts);
        for _ in 0..rng.below(3) {
            let large = [form.most[rng.below(3)] + rng.below(3), rng.next_u32() as usize, 0xFFFF_FFFF];
            numbers[rng.below(6)] = [rng.below(100), large[rng.below(3)]][rng.below(2)];
        }
        let [assert, pair, row] = form.sizes();
        let length = assert * counts[0] + pair * counts[1] + row * counts[2] + rng.below(2);
        let mut octets = vec![0; length];
        rng.fill(&mut octets[..length.min(40)]);
        let sheet = [form.header_of(numbers), octets].concat();
        let family = Family::ALL[rng.below(2)];
        if read_sheet(family, &sheet, &mut x, &mut y).is_err() {
            assert!(x.iter().chain(&y).all(|octet| *octet == 0x55));
        }
        x.fill(0x55);
        y.fill(0x55);
    }
}

#[test]
fn changed_attributes() {
    let good = hex("03 16 05DC 0013 FF00 00000001 00000002 0C9B 1828 03 04 05 06");
    let own = Own { mtu: 1, flags: 2, transit: 3, stub: 4, least_speed: 5, greatest_speed: 6 };
    for at in 0..good.len() {
        for octet in 0..=255 {
            let mut octets = [good.clone(), good.clone()].concat();
            octets[at] = octet;
            let mut buffer = [0x55; 30];
            match merge(own, &octets, true, &mut buffer) {
                Ok(length) => assert_eq!(read_attribute(&buffer, 0).unwrap().1, length),
                Err(_) => assert_eq!(buffer, [0x55; 30]),
            }
        }
    }
}

#[test]
fn checksums_agree() {
    let mut rng = Rng::new(80);
    for length in 0..2000 {
        let mut octets = vec![if rng.one_in(3) { 0xFF } else { 0 }; length];
        if rng.one_in(2) {
            rng.fill(&mut octets);
        }
        assert_eq!(checksum(&octets), checksum_deferred(&octets));
    }
    assert_eq!(checksum(&[]), 0xFFFF);
    assert_eq!(checksum(&[0xFF]), 0x00FF);
    assert_eq!(checksum(&hex("0001 F203 F4F5 F6F7")), !0xDDF2);
    let long = vec![0xFF; 1 << 20];
    assert_eq!(checksum(&long), checksum_deferred(&long));
}
