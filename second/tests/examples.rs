//! The eight examples of the rule book.
mod common;
use common::v4::*;
use common::*;
use second::hello::Hello;
use second::neighbours::Table;
use second::read::{AssertRecord, Record};
use second::Kind;

fn example() -> Vec<u8> {
    hex("25 01 E5 58 00 00 00 00 01 00 00 20 E8 01 01 01 01 00 0A 00 00 01 00 00 00 6E 00 00 00 14")
}

#[test]
fn one_simple_record() {
    let mut entries = [0xAA; 24];
    assert_eq!(header(&example()), Ok(Kind::Simple));
    assert_eq!(read_asserts(&example(), &mut entries), Ok((Kind::Simple, 1)));
    assert_eq!(entries[..20], entry(0xE801_0101, 0x0A00_0001, 110, 20));
    assert_eq!(entries[20..], [0xAA; 4]);
    assert_eq!(body(&example()), &example()[4..]);
    let record = AssertRecord {
        group: 0xE801_0101u32.into(),
        source: 0x0A00_0001u32.into(),
        r_preference: 110,
        metric: 20,
    };
    assert_eq!(read_record(&example(), 8, Kind::Simple), Ok((Record::Assert(record), 30)));
    let mut buffer = [0xBB; 40];
    assert_eq!(pack_simple(&entries[..20], 0, 38, &mut buffer), Ok((30, 1)));
    assert_eq!(buffer[..30], example());
    assert_eq!(buffer[30..], [0xBB; 10]);
}

#[test]
fn last_octet_changed() {
    let mut m = example();
    m[29] = 0x15;
    assert_eq!(header(&m), refusal(3, 0));
    assert_eq!(read_asserts(&m, &mut [0; 20]), refusal(3, 0));
    assert!(body(&m).is_empty());
}

#[test]
fn simple_entries_left() {
    let list = same_source(67);
    let mut buffer = [0; 1480];
    assert_eq!(pack_simple(&list, 0, 1480, &mut buffer), Ok((1460, 66)));
    assert_eq!(pack_simple(&list, 1, 1480, &mut buffer), Ok((1460, 66)));
}

#[test]
fn three_of_one_source() {
    let list = same_source(3);
    let mut buffer = [0; 50];
    assert_eq!(pack_aggregated(&list, 0, 50, &mut buffer), Ok((50, 3)));
    assert_eq!(pack_aggregated(&list, 0, 49, &mut buffer), Ok((42, 2)));
    // The first half says two groups.
    assert_eq!(buffer[8 + 14..8 + 18], [0, 2, 0, 0]);
    assert_eq!(pack_aggregated(&list, 2, 49, &mut buffer), Ok((34, 1)));
    assert_eq!(pack_aggregated(&list, 3, 49, &mut buffer), Ok((0, 0)));
}

#[test]
fn one_rp_entry() {
    let mut buffer = [0; 64];
    let zero = entry(0xE801_0101, 0, R | 5, 6);
    assert_eq!(pack_aggregated(&zero, 0, 38, &mut buffer), Ok((32, 1)));
    let mut back = [0; 20];
    assert_eq!(read_asserts(&buffer[..32], &mut back), Ok((Kind::Aggregated, 1)));
    assert_eq!(back[..], zero);
    let other = entry(0xE801_0101, 7, R | 5, 6);
    assert_eq!(pack_aggregated(&other, 0, 38, &mut buffer), Ok((38, 1)));
    assert_eq!(pack_aggregated(&other, 0, 37, &mut buffer), refusal(9, 0));
}

#[test]
fn two_rp_entries_with_source_zero() {
    let zero = entry(0xE801_0101, 0, R | 5, 6);
    let list = [zero.clone(), zero].concat();
    let mut buffer = [0; 64];
    assert_eq!(pack_aggregated(&list, 0, 64, &mut buffer), Ok((44, 2)));
    assert_eq!(buffer[8 + 8..8 + 12], [0, 1, 0, 0]);
    assert_eq!(buffer[20 + 8..20 + 12], [0, 2, 0, 0]);
}

#[test]
fn election() {
    let hello = |priority| Hello { holdtime: 105, priority, packing: true };
    let table = hear(Table::empty(), 0x0A00_0001, hello(Some(9))).unwrap();
    assert_eq!(elect(&table, 0x0A00_0002, 5), Ok(0x0A00_0001));
    let table = hear(table, 0x0A00_0000, hello(None)).unwrap();
    assert_eq!(elect(&table, 0x0A00_0002, 5), Ok(0x0A00_0002));
    let table = hear(table, 0x0A00_0003, hello(Some(0))).unwrap();
    assert_eq!(elect(&table, 0x0A00_0002, 5), Ok(0x0A00_0003));
}

#[test]
fn empty_list() {
    for limit in [0, 38, 39, 556, 1480, 65_515] {
        let mut buffer = vec![0x55; 65_515];
        let mut other = vec![0x55; 65_515];
        assert_eq!(pack_assert(&[], 0, limit, &mut buffer), Ok((0, 0)));
        assert_eq!(pack_simple(&[], 0, limit, &mut buffer), Ok((0, 0)));
        assert_eq!(pack_aggregated(&[], 0, limit, &mut buffer), Ok((0, 0)));
        assert_eq!(pack_null_register(&[], 0, limit, &mut buffer), Ok((0, 0)));
        assert_eq!(pack_register_stop(&[], 0, limit, &mut buffer), Ok((0, 0)));
        assert_eq!(pack_both(&[], 0, limit, &mut buffer, &mut other), Ok((false, 0, 0)));
        assert!(buffer.iter().chain(&other).all(|octet| *octet == 0x55));
    }
}
