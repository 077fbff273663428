//! Where reading refuses by 6 and 7: at the first octet of the field at fault.
//! The tables have every field of every kind, with its octets counted by hand,
//! and beside each place the first octet of its record, option or attribute.
mod common;
use common::damage::*;
use common::v4::*;
use common::*;
use second::popcount::{merge, read_attribute, Own};
use second::{Answer, Kind};

/// Reads entries of a message with its checksum set. Refused, they stay.
fn entries(m: &[u8], read: Read) -> Answer<()> {
    let mut m = m.to_vec();
    seal(&mut m);
    let mut entries = [0x77; 200];
    let answer = read(&m, &mut entries);
    assert!(answer.is_ok() || entries == [0x77; 200]);
    answer.map(drop)
}

fn asserts(m: &[u8]) -> Answer<()> {
    entries(m, read_asserts)
}

fn pairs(m: &[u8]) -> Answer<()> {
    entries(m, read_pairs)
}

fn hello(m: &[u8]) -> Answer<()> {
    let mut m = m.to_vec();
    seal(&mut m);
    read_hello(&m).map(drop)
}

// ---- a plain assert

/// Group 4 to 11, source 12 to 17, R word 18 to 21, metric 22 to 25.
const PLAIN: &str = "2500 0000 01000020E8010101 01000A000001 0000006E 00000014";

#[test]
fn plain_cut() {
    let table = [
        ("group", 4..=11, 4, 4),
        ("source", 12..=17, 12, 4),
        ("R word", 18..=21, 18, 4),
        ("metric", 22..=25, 22, 4),
    ];
    cuts(&hex(PLAIN), &table, 4, &[], asserts);
}

#[test]
fn plain_wrong() {
    let table: [Wrong; 19] = [
        ("group of family 2", 4, &[2], 12..=26, (7, 4, 4)),
        ("group of encoding 1", 5, &[1], 12..=26, (7, 4, 4)),
        ("mask of 24", 7, &[24], 12..=26, (7, 4, 4)),
        ("group 223.1.1.1", 8, &[223], 12..=26, (7, 4, 4)),
        ("group 240.1.1.1", 8, &[240], 12..=26, (7, 4, 4)),
        ("source of family 2", 12, &[2], 18..=26, (7, 12, 4)),
        ("source of encoding 1", 13, &[1], 18..=26, (7, 12, 4)),
        ("source 0, R=0", 14, &[0; 4], 22..=26, (7, 12, 4)),
        ("group bad and cut", 4, &[2], 5..=11, (6, 4, 4)),
        ("source bad and cut", 12, &[2], 13..=17, (6, 12, 4)),
        ("source 0, R word cut", 14, &[0; 4], 18..=21, (6, 18, 4)),
        ("source 224.0.0.0", 14, &[224, 0, 0, 0], 18..=26, (7, 12, 4)),
        ("source 239.255.255.255, R=1", 14, &[239, 255, 255, 255, 0x80], 18..=26, (7, 12, 4)),
        ("source 255.255.255.255", 14, &[255; 4], 18..=26, (7, 12, 4)),
        ("source 255.255.255.255, R=1", 14, &[255; 5], 18..=26, (7, 12, 4)),
        ("source 224.0.0.0 and cut", 14, &[224, 0, 0, 0], 12..=17, (6, 12, 4)),
        ("source 255.255.255.255 and cut", 14, &[255; 4], 12..=17, (6, 12, 4)),
        ("source 240.0.0.0, R word cut", 14, &[240, 0, 0, 0], 18..=21, (6, 18, 4)),
        ("source 255.255.255.254, metric cut", 14, &[255, 255, 255, 254], 22..=25, (6, 22, 4)),
    ];
    wrongs(&hex(PLAIN), &table, asserts);
}

#[test]
fn plain_followed() {
    let long = [hex(PLAIN), vec![0; 30]].concat();
    for end in [27, 28, 48, 56] {
        assert_eq!(asserts(&long[..end]), refusal(6, 26));
    }
    // A fault before them is found first: source 0, R=0.
    let zero = [&long[..14], &[0; 4], &long[18..]].concat();
    assert_eq!(asserts(&zero), refusal_within(7, 12, 4));
}

// ---- a simple message

/// Zero 4, Reserved 5 to 7. Records at 8 and 30, each of group (8 octets),
/// source (6), R word (4) and metric (4); the second has R=1 and source 0.
const SIMPLE: &str = "2501 0000 00 000000 01000020E8010101 01000A000001 0000006E 00000014
                      01000020E8010102 010000000000 8000006E 00000014";

const SIMPLE_CUTS: [Cut; 10] = [
    ("Zero", 4..=4, 4, 4),
    ("Reserved", 5..=7, 5, 4),
    ("first group", 9..=15, 8, 8),
    ("first source", 16..=21, 16, 8),
    ("first R word", 22..=25, 22, 8),
    ("first metric", 26..=29, 26, 8),
    ("second group", 31..=37, 30, 30),
    ("second source", 38..=43, 38, 30),
    ("second R word", 44..=47, 44, 30),
    ("second metric", 48..=51, 48, 30),
];

#[test]
fn simple_cut() {
    cuts(&hex(SIMPLE), &SIMPLE_CUTS, 4, &[8, 30], asserts);
    // No record, and one record.
    assert_eq!(asserts(&hex(SIMPLE)[..8]), refusal(5, 8));
    assert_eq!(asserts(&hex(SIMPLE)[..30]), Ok(()));
}

#[test]
fn simple_wrong() {
    let table: [Wrong; 19] = [
        ("Zero of 1", 4, &[1], 5..=52, (5, 4, 4)),
        ("first group of family 2", 8, &[2], 16..=52, (7, 8, 8)),
        ("first mask of 33", 11, &[33], 16..=52, (7, 8, 8)),
        ("first source of encoding 1", 17, &[1], 22..=52, (7, 16, 8)),
        ("first source 0, R=0", 18, &[0; 4], 26..=52, (7, 16, 8)),
        ("first source 0, R word cut", 18, &[0; 4], 22..=25, (6, 22, 8)),
        ("second group of encoding 1", 31, &[1], 38..=52, (7, 30, 30)),
        ("second group 10.1.1.2", 34, &[10], 38..=52, (7, 30, 30)),
        ("second source of family 0", 38, &[0], 44..=52, (7, 38, 30)),
        ("second source of encoding 255", 39, &[255], 44..=52, (7, 38, 30)),
        ("second source 0, R=0", 44, &[0x7F], 48..=52, (7, 38, 30)),
        ("second source 0, R word cut", 44, &[0x7F], 45..=47, (6, 44, 30)),
        ("both groups bad", 8, &[2; 30], 16..=52, (7, 8, 8)),
        ("first source 224.0.0.1", 18, &[224], 22..=52, (7, 16, 8)),
        ("first source 224.0.0.1 and cut", 18, &[224], 16..=21, (6, 16, 8)),
        ("second source 239.0.0.0, R=1", 40, &[239], 44..=52, (7, 38, 30)),
        ("second source 239.0.0.0, R=0", 40, &[239, 0, 0, 0, 0], 44..=52, (7, 38, 30)),
        ("second source 255.255.255.255", 40, &[255; 4], 44..=52, (7, 38, 30)),
        ("second source 255.255.255.255 and cut", 40, &[255; 4], 38..=43, (6, 38, 30)),
    ];
    wrongs(&hex(SIMPLE), &table, asserts);
}

// ---- an aggregated message

/// Zero 4, Reserved 5 to 7. At 8 a source record: R word 8 to 11, metric 12 to
/// 15, source 16 to 21, number 22 and 23, reserved 24 and 25, groups from 26 and
/// from 34. At 42 an RP record: R word 42 to 45, metric 46 to 49, number 50 and
/// 51, reserved 52 and 53. Its group records: group 54 to 61, number 62 and 63,
/// reserved 64 and 65, sources from 66 and from 72; group 78 to 85, number 86 and
/// 87, reserved 88 and 89, no source.
const AGGREGATED: &str = "2503 0000 00 000000
    0000006E 00000014 01000A000001 0002 0000 01000020E8010101 01000020E8010102
    8000006E 00000014 0002 0000
    01000020E8010103 0002 0000 01000A000001 010000000000 01000020E8010104 0000 0000";

const AGGREGATED_CUTS: [Cut; 21] = [
    ("Zero", 4..=4, 4, 4),
    ("Reserved", 5..=7, 5, 4),
    ("R word, R=0", 9..=11, 8, 8),
    ("metric", 12..=15, 12, 8),
    ("source", 16..=21, 16, 8),
    ("number of groups", 22..=23, 22, 8),
    ("reserved", 24..=25, 24, 8),
    ("first group", 26..=33, 26, 8),
    ("second group", 34..=41, 34, 8),
    ("R word, R=1", 43..=45, 42, 42),
    ("metric", 46..=49, 46, 42),
    ("number of group records", 50..=51, 50, 42),
    ("reserved", 52..=53, 52, 42),
    ("group of the first", 54..=61, 54, 42),
    ("number of sources", 62..=63, 62, 42),
    ("reserved", 64..=65, 64, 42),
    ("first source", 66..=71, 66, 42),
    ("second source", 72..=77, 72, 42),
    ("group of the second", 78..=85, 78, 42),
    ("number of no sources", 86..=87, 86, 42),
    ("reserved", 88..=89, 88, 42),
];

#[test]
fn aggregated_cut() {
    cuts(&hex(AGGREGATED), &AGGREGATED_CUTS, 4, &[8, 42], asserts);
    assert_eq!(asserts(&hex(AGGREGATED)[..8]), refusal(5, 8));
    assert_eq!(asserts(&hex(AGGREGATED)[..42]), Ok(()));
}

#[test]
fn source_aggregated_wrong() {
    let table: [Wrong; 17] = [
        ("source of family 2", 16, &[2], 22..=90, (7, 16, 8)),
        ("source of encoding 1", 17, &[1], 22..=90, (7, 16, 8)),
        ("source 0", 18, &[0; 4], 22..=90, (7, 16, 8)),
        ("source 0 and cut", 18, &[0; 4], 16..=21, (6, 16, 8)),
        // Also where the reserved octets are cut.
        ("number 0", 22, &[0, 0], 24..=90, (6, 22, 8)),
        ("first group of family 2", 26, &[2], 34..=90, (7, 26, 8)),
        ("first group of encoding 1", 27, &[1], 34..=90, (7, 26, 8)),
        ("second mask of 24", 37, &[24], 42..=90, (7, 34, 8)),
        ("second group 10.1.1.2", 38, &[10], 42..=90, (7, 34, 8)),
        ("second group bad and cut", 38, &[10], 39..=41, (6, 34, 8)),
        ("more groups than there are", 23, &[3], 42..=42, (6, 42, 8)),
        ("a third group, cut", 23, &[3], 43..=49, (6, 42, 8)),
        ("a third group of family 128", 23, &[3], 50..=90, (7, 42, 8)),
        ("source 224.0.0.1", 18, &[224], 22..=90, (7, 16, 8)),
        ("source 255.255.255.255", 18, &[255; 4], 22..=90, (7, 16, 8)),
        ("source 224.0.0.1 and cut", 18, &[224], 16..=21, (6, 16, 8)),
        ("source 224.0.0.1 and number 0", 18, &[224, 0, 0, 1, 0, 0], 22..=90, (7, 16, 8)),
    ];
    wrongs(&hex(AGGREGATED), &table, asserts);
}

#[test]
fn rp_aggregated_wrong() {
    let table: [Wrong; 18] = [
        ("number 0", 50, &[0, 0], 52..=90, (6, 50, 42)),
        ("first group of family 2", 54, &[2], 62..=90, (7, 54, 42)),
        ("first group 15.1.1.3", 58, &[15], 62..=90, (7, 54, 42)),
        ("first source of family 2", 66, &[2], 72..=90, (7, 66, 42)),
        ("second source of encoding 1", 73, &[1], 78..=90, (7, 72, 42)),
        ("second source bad and cut", 73, &[1], 74..=77, (6, 72, 42)),
        ("second group of encoding 1", 79, &[1], 86..=90, (7, 78, 42)),
        ("second mask of 0", 81, &[0], 86..=90, (7, 78, 42)),
        ("more group records than there are", 51, &[3], 90..=90, (6, 90, 42)),
        ("more sources than there are", 87, &[1], 90..=90, (6, 90, 42)),
        ("a third source, cut", 63, &[3], 78..=83, (6, 78, 42)),
        // 0100 and 0020E801 are a source too; of a group after it there is too little.
        ("a third source out of a group", 63, &[3], 84..=90, (6, 84, 42)),
        // What was a source is a group with a mask of 0.
        ("no source", 63, &[0], 74..=90, (7, 66, 42)),
        ("first source 224.0.0.1", 68, &[224], 72..=90, (7, 66, 42)),
        ("first source 224.0.0.1 and cut", 68, &[224], 66..=71, (6, 66, 42)),
        ("second source 239.0.0.0", 74, &[239], 78..=90, (7, 72, 42)),
        ("second source 255.255.255.255", 74, &[255; 4], 78..=90, (7, 72, 42)),
        ("second source 255.255.255.255 and cut", 74, &[255; 4], 72..=77, (6, 72, 42)),
    ];
    wrongs(&hex(AGGREGATED), &table, asserts);
}

// ---- pairs

/// Pairs at 4 and 18, each of group (8 octets) and source (6).
const PAIRS: &str = "01000020E8010101 01000A000001 01000020E8010102 01000A000002";

fn null_register() -> Vec<u8> {
    [hex("2D00 0000"), hex(PAIRS)].concat()
}

fn register_stop() -> Vec<u8> {
    [hex("2D10 0000"), hex(PAIRS)].concat()
}

#[test]
fn pairs_cut() {
    let table = [
        ("first group", 5..=11, 4, 4),
        ("first source", 12..=17, 12, 4),
        ("second group", 19..=25, 18, 18),
        ("second source", 26..=31, 26, 18),
    ];
    for m in [null_register(), register_stop()] {
        cuts(&m, &table, 4, &[4, 18], pairs);
        assert_eq!(pairs(&m[..4]), refusal(5, 4));
        assert_eq!(pairs(&m[..18]), Ok(()));
    }
}

#[test]
fn pairs_wrong() {
    let table: [Wrong; 14] = [
        ("first group of family 2", 4, &[2], 12..=32, (7, 4, 4)),
        ("first mask of 24", 7, &[24], 12..=32, (7, 4, 4)),
        ("first source of family 2", 12, &[2], 18..=32, (7, 12, 4)),
        ("first source of encoding 1", 13, &[1], 18..=32, (7, 12, 4)),
        ("second group of encoding 1", 19, &[1], 26..=32, (7, 18, 18)),
        ("second group 240.1.1.2", 22, &[240], 26..=32, (7, 18, 18)),
        ("second group bad and cut", 22, &[240], 23..=25, (6, 18, 18)),
        ("second source of encoding 1", 27, &[1], 32..=32, (7, 26, 18)),
        ("second source bad and cut", 27, &[1], 28..=31, (6, 26, 18)),
        ("first source 224.0.0.1", 14, &[224], 18..=32, (7, 12, 4)),
        ("first source 255.255.255.255", 14, &[255; 4], 18..=32, (7, 12, 4)),
        ("first source 255.255.255.255 and cut", 14, &[255; 4], 12..=17, (6, 12, 4)),
        ("second source 239.0.0.2", 28, &[239], 32..=32, (7, 26, 18)),
        ("second source 239.0.0.2 and cut", 28, &[239], 26..=31, (6, 26, 18)),
    ];
    wrongs(&null_register(), &table, pairs);
    wrongs(&register_stop(), &table, pairs);
    let zero: [Wrong; 3] = [
        ("first source 0", 14, &[0; 4], 18..=32, (7, 12, 4)),
        ("second source 0", 28, &[0; 4], 32..=32, (7, 26, 18)),
        ("second source 0 and cut", 28, &[0; 4], 26..=31, (6, 26, 18)),
    ];
    wrongs(&null_register(), &zero, pairs);
}

// ---- a record read singly

/// At 3: group 3 to 10, source 11 to 16, R word 17 to 20, metric 21 to 24.
const SINGLE: &str = "FFFFFF 01000020E8010101 01000A000001 0000006E 00000014";

fn single_assert(octets: &[u8]) -> Answer<()> {
    let answer = read_record(octets, 3, Kind::Simple);
    assert_eq!(answer, read_record(octets, 3, Kind::Assert));
    answer.map(drop)
}

fn single_null_register(octets: &[u8]) -> Answer<()> {
    read_record(octets, 3, Kind::NullRegister).map(drop)
}

fn single_register_stop(octets: &[u8]) -> Answer<()> {
    read_record(octets, 3, Kind::RegisterStop).map(drop)
}

#[test]
fn single_cut() {
    // Octets that end before the record have no group either.
    let table = [
        ("group", 0..=10, 3, 3),
        ("source", 11..=16, 11, 3),
        ("R word", 17..=20, 17, 3),
        ("metric", 21..=24, 21, 3),
    ];
    cuts(&hex(SINGLE), &table, 0, &[], single_assert);
    cuts(&hex(SINGLE)[..17], &table[..2], 0, &[], single_null_register);
    cuts(&hex(SINGLE)[..17], &table[..2], 0, &[], single_register_stop);
}

#[test]
fn single_wrong() {
    let table: [Wrong; 7] = [
        ("group of family 2", 3, &[2], 11..=25, (7, 3, 3)),
        ("group 10.1.1.1", 7, &[10], 11..=25, (7, 3, 3)),
        ("source of encoding 1", 12, &[1], 17..=25, (7, 11, 3)),
        ("source bad and cut", 12, &[1], 13..=16, (6, 11, 3)),
        ("source 224.0.0.1", 13, &[224], 17..=25, (7, 11, 3)),
        ("source 255.255.255.255", 13, &[255; 4], 17..=25, (7, 11, 3)),
        ("source 255.255.255.255 and cut", 13, &[255; 4], 11..=16, (6, 11, 3)),
    ];
    for read in [single_assert, single_null_register, single_register_stop] {
        wrongs(&hex(SINGLE), &table, read);
    }
    let zero: [Wrong; 2] = [
        ("source 0, R=0", 13, &[0; 4], 21..=25, (7, 11, 3)),
        ("source 0, R word cut", 13, &[0; 4], 17..=20, (6, 17, 3)),
    ];
    wrongs(&hex(SINGLE), &zero, single_assert);
    let zero: [Wrong; 1] = [("source 0", 13, &[0; 4], 17..=25, (7, 11, 3))];
    wrongs(&hex(SINGLE), &zero, single_null_register);
}

#[test]
fn single_past_the_end() {
    for at in [25, 26, 1 << 32, usize::MAX - 21, usize::MAX - 13, usize::MAX] {
        for kind in [Kind::Assert, Kind::Simple, Kind::NullRegister, Kind::RegisterStop] {
            assert_eq!(read_record(&hex(SINGLE), at, kind), refusal(6, at));
            assert_eq!(read_record(&[], at, kind), refusal(6, at));
        }
    }
}

// ---- a Hello

/// Options at 4, 10, 18 and 25, each of type (2 octets), length (2) and value.
const HELLO: &str = "2000 0000 0001 0002 00D2 0013 0004 00000005 0014 0003 070809 0028 0000";

#[test]
fn hello_cut() {
    let table = [
        ("type of holdtime", 5..=5, 4, 4),
        ("length of holdtime", 6..=7, 6, 4),
        ("holdtime", 8..=9, 8, 4),
        ("type of priority", 11..=11, 10, 10),
        ("length of priority", 12..=13, 12, 10),
        ("priority", 14..=17, 14, 10),
        ("an unknown type", 19..=19, 18, 18),
        ("length of an unknown option", 20..=21, 20, 18),
        ("value of an unknown option", 22..=24, 22, 18),
        ("type of packing", 26..=26, 25, 25),
        ("length of packing", 27..=28, 27, 25),
    ];
    cuts(&hex(HELLO), &table, 4, &[4, 10, 18, 25], hello);
    for end in [4, 10, 18, 25] {
        assert_eq!(hello(&hex(HELLO)[..end]), Ok(()));
    }
}

/// Wrong lengths and repetitions stay at the option, found before the value.
#[test]
fn hello_wrong() {
    let table: [Wrong; 6] = [
        ("holdtime of length 3", 7, &[3], 8..=29, (13, 4, 4)),
        ("holdtime again", 10, &[0, 1, 0, 2], 14..=29, (13, 10, 10)),
        ("priority of length 260", 12, &[1], 14..=29, (13, 10, 10)),
        ("priority again", 18, &[0, 19, 0, 4], 22..=29, (13, 18, 18)),
        ("packing of length 1", 28, &[1], 29..=29, (13, 25, 25)),
        ("a value longer than the message", 20, &[255, 255], 22..=29, (6, 22, 18)),
    ];
    wrongs(&hex(HELLO), &table, hello);
}

// ---- a Pop-Count attribute

/// All options, an unallocated one, and three octets for it: 6 + 16 + 3 = 25.
const ALL: &str = "03 19 05DC 0013 FF01 00000001 00000002 0C9B 1828 03 04 05 06 AAAAAA";

const ALL_CUTS: [Cut; 14] = [
    ("octet 0", 0..=0, 0, 0),
    ("length", 1..=1, 1, 0),
    ("MTU", 2..=3, 2, 0),
    ("flags", 4..=5, 4, 0),
    ("options", 6..=7, 6, 0),
    ("transit", 8..=11, 8, 0),
    ("stub", 12..=15, 12, 0),
    ("least speed", 16..=17, 16, 0),
    ("greatest speed", 18..=19, 18, 0),
    ("domain", 20..=20, 20, 0),
    ("node", 21..=21, 21, 0),
    ("diameter", 22..=22, 22, 0),
    ("time zone", 23..=23, 23, 0),
    ("ignored octets", 24..=26, 24, 0),
];

fn attribute(octets: &[u8]) -> Answer<()> {
    read_attribute(octets, 0).map(drop)
}

#[test]
fn attribute_cut() {
    cuts(&hex(ALL), &ALL_CUTS, 0, &[], attribute);
    for at in [27, 28, 1 << 32, usize::MAX] {
        assert_eq!(read_attribute(&hex(ALL), at), refusal(6, at));
    }
}

#[test]
fn attribute_with_some_options_cut() {
    // Stub and node.
    let table = [("stub", 8..=11, 8, 0), ("node", 12..=12, 12, 0)];
    cuts(&hex("03 0B 0001 0000 4400 FFFFFFFF 07"), &table, 8, &[], attribute);
    // Least speed, diameter, and 5 octets that are ignored.
    let table =
        [("least speed", 8..=9, 8, 0), ("diameter", 10..=10, 10, 0), ("ignored octets", 11..=15, 11, 0)];
    cuts(&hex("03 0E 0001 0000 2201 0C9B 05 AAAAAAAAAA"), &table, 8, &[], attribute);
    // No option that is known.
    cuts(&hex("03 08 0001 0000 0080 AAAA"), &[("ignored octets", 8..=9, 8, 0)], 8, &[], attribute);
}

/// Each option alone: the high octet of the options, the length, the end.
#[test]
fn attribute_with_one_option_cut() {
    let options = [(0x80, 10, 12), (0x40, 10, 12), (0x20, 8, 10), (0x10, 8, 10)];
    let counts = [(0x08, 7, 9), (0x04, 7, 9), (0x02, 7, 9), (0x01, 7, 9)];
    for (option, length, whole) in options.into_iter().chain(counts) {
        let octets = [3, length, 0, 1, 0, 0, option, 0, 0, 0, 0, 0];
        for end in 8..whole {
            assert_eq!(attribute(&octets[..end]), refusal_within(6, 8, 0), "{option:02x} cut at {end}");
        }
        assert_eq!(attribute(&octets[..whole]), Ok(()));
    }
}

/// 13 stays at the attribute, and goes before what is cut after it.
#[test]
fn attribute_wrong() {
    let table: [Wrong; 6] = [
        ("F set", 0, &[0x83], 1..=27, (13, 0, 0)),
        ("type 2", 0, &[2], 1..=27, (13, 0, 0)),
        ("length 5", 1, &[5], 2..=27, (13, 0, 0)),
        ("length 21, under the known options'", 1, &[21], 8..=27, (13, 0, 0)),
        ("length 21, options cut", 1, &[21], 6..=7, (6, 6, 0)),
        ("length 25 without an unallocated option", 7, &[0], 8..=27, (13, 0, 0)),
    ];
    wrongs(&hex(ALL), &table, attribute);
}

/// Behind a contributor of 8 octets. Nothing is written, whatever the room.
fn merged(octets: &[u8]) -> Answer<()> {
    let own = Own { mtu: 1, flags: 2, transit: 3, stub: 4, least_speed: 5, greatest_speed: 6 };
    let contributors = [&hex("03 06 0001 0000 0000"), octets].concat();
    let mut buffer = [0x77; 22];
    let answer = merge(own, &contributors, true, &mut buffer);
    assert!(answer.is_ok() || buffer == [0x77; 22]);
    assert!(answer.is_ok() || answer == merge(own, &contributors, true, &mut []));
    answer.map(drop)
}

/// In merging, places count in the contributors' octets.
#[test]
fn contributors_cut() {
    let table = ALL_CUTS.map(|(field, ends, place, within)| (field, ends, 8 + place, 8 + within));
    // Without its octet 0 there is no second contributor.
    cuts(&hex(ALL), &table[1..], 0, &[0], merged);
    assert_eq!(merged(&[]), Ok(()));
    assert_eq!(merged(&hex("03 05")), refusal(13, 8));
    // A fault of the second goes before one of the third.
    let three = [hex("03 07 0001 0000 0400 09"), hex("03 0A 0001 0000 8000 0000")].concat();
    assert_eq!(merged(&three), refusal_within(6, 25, 17));
    assert_eq!(merged(&[hex("03 08 0001 0000 0400 09"), three].concat()), refusal(13, 8));
}
