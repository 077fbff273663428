//! Where reading refuses a message of IPv6 by 6 and 7. The tables have every
//! field of every kind, with its octets counted by hand, and beside each place
//! the first octet of its record. A group has 20 octets, a source 18.
mod common;
use common::damage::*;
use common::*;
use second::hello::Hello;
use second::{Answer, Kind};

/// Reads entries of a message with its checksum set. Refused, they stay.
fn entries(m: &[u8], read: Read) -> Answer<()> {
    let mut m = m.to_vec();
    v6::seal(&mut m);
    let mut entries = [0x77; 400];
    let answer = read(&m, &mut entries);
    assert!(answer.is_ok() || entries == [0x77; 400]);
    answer.map(drop)
}

fn asserts(m: &[u8]) -> Answer<()> {
    entries(m, v6::read_asserts)
}

fn pairs(m: &[u8]) -> Answer<()> {
    entries(m, v6::read_pairs)
}

fn hello(m: &[u8]) -> Answer<()> {
    let mut m = m.to_vec();
    v6::seal(&mut m);
    v6::read_hello(&m).map(drop)
}

// ---- a plain assert

/// Group 4 to 23, source 24 to 41, R word 42 to 45, metric 46 to 49.
const PLAIN: &str = "2500 0000 02000080 FF3E0102030405060708090A0B0C0D0E
    0200 20010DB81112131415161718191A1B1C 0000006E 00000014";

#[test]
fn plain_cut() {
    let table = [
        ("group", 4..=23, 4, 4),
        ("source", 24..=41, 24, 4),
        ("R word", 42..=45, 42, 4),
        ("metric", 46..=49, 46, 4),
    ];
    cuts(&hex(PLAIN), &table, 4, &[], asserts);
}

#[test]
fn plain_wrong() {
    let table: [Wrong; 20] = [
        ("group of family 1", 4, &[1], 24..=50, (7, 4, 4)),
        ("group of family 0", 4, &[0], 24..=50, (7, 4, 4)),
        ("group of encoding 1", 5, &[1], 24..=50, (7, 4, 4)),
        ("mask of 32", 7, &[32], 24..=50, (7, 4, 4)),
        ("mask of 127", 7, &[127], 24..=50, (7, 4, 4)),
        ("group fe3e::", 8, &[0xFE], 24..=50, (7, 4, 4)),
        ("group 0f3e::", 8, &[0x0F], 24..=50, (7, 4, 4)),
        ("source of family 1", 24, &[1], 42..=50, (7, 24, 4)),
        ("source of encoding 1", 25, &[1], 42..=50, (7, 24, 4)),
        ("source 0, R=0", 26, &[0; 16], 46..=50, (7, 24, 4)),
        ("source 0, R word cut", 26, &[0; 16], 42..=45, (6, 42, 4)),
        ("group bad and cut", 4, &[1], 5..=23, (6, 4, 4)),
        ("source bad and cut", 24, &[1], 25..=41, (6, 24, 4)),
        ("source ff01::", 26, &[0xFF], 42..=50, (7, 24, 4)),
        ("source of all ones", 26, &[0xFF; 16], 42..=50, (7, 24, 4)),
        ("source of all ones, R=1", 26, &[0xFF; 17], 42..=50, (7, 24, 4)),
        ("source ff01:: and cut", 26, &[0xFF], 27..=41, (6, 24, 4)),
        ("source fe01::, R word cut", 26, &[0xFE], 42..=45, (6, 42, 4)),
        ("source 0001::, metric cut", 26, &[0], 46..=49, (6, 46, 4)),
        (
            "source 0, R=1, metric cut",
            26,
            &[0, 0, 0, 0, 0, 0, 0, 0, 0, 0, 0, 0, 0, 0, 0, 0, 0x80],
            46..=49,
            (6, 46, 4),
        ),
    ];
    wrongs(&hex(PLAIN), &table, asserts);
}

#[test]
fn plain_followed() {
    let long = [hex(PLAIN), vec![0; 60]].concat();
    for end in [51, 52, 96, 110] {
        assert_eq!(asserts(&long[..end]), refusal(6, 50));
    }
    // A fault before them is found first: source 0, R=0.
    let zero = [&long[..26], &[0; 16], &long[42..]].concat();
    assert_eq!(asserts(&zero), refusal_within(7, 24, 4));
}

/// Every octet of the two addresses that is not looked at may be any.
#[test]
fn plain_allowed() {
    for (at, octet) in (9..24).chain(27..42).flat_map(|at| (0..=255).map(move |octet| (at, octet))) {
        let mut m = hex(PLAIN);
        m[at] = octet;
        assert_eq!(asserts(&m), Ok(()), "{octet} at {at}");
    }
    for octet in 0..=255 {
        let mut m = hex(PLAIN);
        // Flags of the group; the first octet of a source.
        m[6] = octet;
        assert_eq!(asserts(&m), Ok(()));
        m[26] = octet;
        assert_eq!(asserts(&m).is_ok(), octet != 255);
    }
    // One bit of a source is enough.
    for bit in 0..128 {
        let mut m = hex(PLAIN);
        m[26..42].copy_from_slice(&(1u128 << bit).to_be_bytes());
        assert_eq!(asserts(&m), Ok(()));
    }
}

// ---- a simple message

/// Zero 4, Reserved 5 to 7. Records at 8 and 54, each of group (20 octets),
/// source (18), R word (4) and metric (4); the second has R=1 and source 0.
const SIMPLE: &str = "2501 0000 00 000000
    02000080 FF3E0102030405060708090A0B0C0D0E 0200 20010DB81112131415161718191A1B1C 0000006E 00000014
    02000080 FF0E2122232425262728292A2B2C2D2E 0200 00000000000000000000000000000000 8000006E 00000014";

#[test]
fn simple_cut() {
    let table = [
        ("Zero", 4..=4, 4, 4),
        ("Reserved", 5..=7, 5, 4),
        ("first group", 9..=27, 8, 8),
        ("first source", 28..=45, 28, 8),
        ("first R word", 46..=49, 46, 8),
        ("first metric", 50..=53, 50, 8),
        ("second group", 55..=73, 54, 54),
        ("second source", 74..=91, 74, 54),
        ("second R word", 92..=95, 92, 54),
        ("second metric", 96..=99, 96, 54),
    ];
    cuts(&hex(SIMPLE), &table, 4, &[8, 54], asserts);
    // No record, and one record.
    assert_eq!(asserts(&hex(SIMPLE)[..8]), refusal(5, 8));
    assert_eq!(asserts(&hex(SIMPLE)[..54]), Ok(()));
}

#[test]
fn simple_wrong() {
    let table: [Wrong; 15] = [
        ("Zero of 1", 4, &[1], 5..=100, (5, 4, 4)),
        ("first group of family 1", 8, &[1], 28..=100, (7, 8, 8)),
        ("first mask of 129", 11, &[129], 28..=100, (7, 8, 8)),
        ("first source of encoding 1", 29, &[1], 46..=100, (7, 28, 8)),
        ("first source 0, R=0", 30, &[0; 16], 50..=100, (7, 28, 8)),
        ("first source 0, R word cut", 30, &[0; 16], 46..=49, (6, 46, 8)),
        ("second group of encoding 1", 55, &[1], 74..=100, (7, 54, 54)),
        ("second group 0a0e::", 58, &[10], 74..=100, (7, 54, 54)),
        ("second source of family 1", 74, &[1], 92..=100, (7, 74, 54)),
        ("second source of encoding 255", 75, &[255], 92..=100, (7, 74, 54)),
        ("second source 0, R=0", 92, &[0x7F], 96..=100, (7, 74, 54)),
        ("second source 0, R word cut", 92, &[0x7F], 93..=95, (6, 92, 54)),
        ("both groups bad", 8, &[1; 60], 28..=100, (7, 8, 8)),
        ("second source ff00::, R=1", 76, &[0xFF], 92..=100, (7, 74, 54)),
        ("second source ff00:: and cut", 76, &[0xFF], 77..=91, (6, 74, 54)),
    ];
    wrongs(&hex(SIMPLE), &table, asserts);
}

// ---- an aggregated message

/// Zero 4, Reserved 5 to 7. At 8 a source record: R word 8 to 11, metric 12 to
/// 15, source 16 to 33, number 34 and 35, reserved 36 and 37, groups from 38 and
/// from 58. At 78 an RP record: R word 78 to 81, metric 82 to 85, number 86 and
/// 87, reserved 88 and 89. Its group records: group 90 to 109, number 110 and
/// 111, reserved 112 and 113, sources from 114 and from 132; group 150 to 169,
/// number 170 and 171, reserved 172 and 173, no source.
const AGGREGATED: &str = "2503 0000 00 000000
    0000006E 00000014 0200 20010DB81112131415161718191A1B1C 0002 0000
    02000080 FF3E0102030405060708090A0B0C0D0E 02000080 FF0E2122232425262728292A2B2C2D2E
    8000006E 00000014 0002 0000
    02000080 FF353132333435363738393A3B3C3D3E 0002 0000
    0200 20010DB84142434445464748494A4B4C 0200 00000000000000000000000000000000
    02000080 FF355152535455565758595A5B5C5D5E 0000 0000";

#[test]
fn aggregated_cut() {
    let table = [
        ("Zero", 4..=4, 4, 4),
        ("Reserved", 5..=7, 5, 4),
        ("R word, R=0", 9..=11, 8, 8),
        ("metric", 12..=15, 12, 8),
        ("source", 16..=33, 16, 8),
        ("number of groups", 34..=35, 34, 8),
        ("reserved", 36..=37, 36, 8),
        ("first group", 38..=57, 38, 8),
        ("second group", 58..=77, 58, 8),
        ("R word, R=1", 79..=81, 78, 78),
        ("metric", 82..=85, 82, 78),
        ("number of group records", 86..=87, 86, 78),
        ("reserved", 88..=89, 88, 78),
        ("group of the first", 90..=109, 90, 78),
        ("number of sources", 110..=111, 110, 78),
        ("reserved", 112..=113, 112, 78),
        ("first source", 114..=131, 114, 78),
        ("second source", 132..=149, 132, 78),
        ("group of the second", 150..=169, 150, 78),
        ("number of no sources", 170..=171, 170, 78),
        ("reserved", 172..=173, 172, 78),
    ];
    cuts(&hex(AGGREGATED), &table, 4, &[8, 78], asserts);
    assert_eq!(asserts(&hex(AGGREGATED)[..8]), refusal(5, 8));
    assert_eq!(asserts(&hex(AGGREGATED)[..78]), Ok(()));
}

#[test]
fn source_aggregated_wrong() {
    let table: [Wrong; 15] = [
        ("source of family 1", 16, &[1], 34..=174, (7, 16, 8)),
        ("source of encoding 1", 17, &[1], 34..=174, (7, 16, 8)),
        ("source 0", 18, &[0; 16], 34..=174, (7, 16, 8)),
        ("source 0 and cut", 18, &[0; 16], 16..=33, (6, 16, 8)),
        // Also where the reserved octets are cut.
        ("number 0", 34, &[0, 0], 36..=174, (6, 34, 8)),
        ("first group of family 1", 38, &[1], 58..=174, (7, 38, 8)),
        ("first group of encoding 1", 39, &[1], 58..=174, (7, 38, 8)),
        ("second mask of 64", 61, &[64], 78..=174, (7, 58, 8)),
        ("second group 0a0e::", 62, &[10], 78..=174, (7, 58, 8)),
        ("second group bad and cut", 62, &[10], 63..=77, (6, 58, 8)),
        ("more groups than there are", 35, &[3], 78..=78, (6, 78, 8)),
        ("a third group, cut", 35, &[3], 79..=97, (6, 78, 8)),
        ("a third group of family 128", 35, &[3], 98..=174, (7, 78, 8)),
        ("source ff01::", 18, &[0xFF], 34..=174, (7, 16, 8)),
        ("source ff01:: and cut", 18, &[0xFF], 19..=33, (6, 16, 8)),
    ];
    wrongs(&hex(AGGREGATED), &table, asserts);
}

#[test]
fn rp_aggregated_wrong() {
    let table: [Wrong; 16] = [
        ("number 0", 86, &[0, 0], 88..=174, (6, 86, 78)),
        ("first group of family 1", 90, &[1], 110..=174, (7, 90, 78)),
        ("first group 0f35::", 94, &[15], 110..=174, (7, 90, 78)),
        ("first source of family 1", 114, &[1], 132..=174, (7, 114, 78)),
        ("second source of encoding 1", 133, &[1], 150..=174, (7, 132, 78)),
        ("second source bad and cut", 133, &[1], 134..=149, (6, 132, 78)),
        ("second group of encoding 1", 151, &[1], 170..=174, (7, 150, 78)),
        ("second mask of 0", 153, &[0], 170..=174, (7, 150, 78)),
        ("more group records than there are", 87, &[3], 174..=174, (6, 174, 78)),
        ("more sources than there are", 171, &[1], 174..=174, (6, 174, 78)),
        ("a third source, cut", 111, &[3], 150..=167, (6, 150, 78)),
        // 0200 and 0080FF35 are a source too; of a group after it there is too little.
        ("a third source out of a group", 111, &[3], 168..=174, (6, 168, 78)),
        // What was a source is a group with a mask of 1.
        ("no source", 111, &[0], 134..=174, (7, 114, 78)),
        ("first source ff01::", 116, &[0xFF], 132..=174, (7, 114, 78)),
        ("second source of all ones", 134, &[0xFF; 16], 150..=174, (7, 132, 78)),
        ("second source of all ones and cut", 134, &[0xFF; 16], 132..=149, (6, 132, 78)),
    ];
    wrongs(&hex(AGGREGATED), &table, asserts);
}

// ---- pairs

/// Pairs at 4 and 42, each of group (20 octets) and source (18).
const PAIRS: &str = "02000080 FF3E0102030405060708090A0B0C0D0E 0200 20010DB81112131415161718191A1B1C
    02000080 FF0E2122232425262728292A2B2C2D2E 0200 FE803132333435363738393A3B3C3D3E";

fn null_register() -> Vec<u8> {
    [hex("2D00 0000"), hex(PAIRS)].concat()
}

fn register_stop() -> Vec<u8> {
    [hex("2D10 0000"), hex(PAIRS)].concat()
}

#[test]
fn pairs_cut() {
    let table = [
        ("first group", 5..=23, 4, 4),
        ("first source", 24..=41, 24, 4),
        ("second group", 43..=61, 42, 42),
        ("second source", 62..=79, 62, 42),
    ];
    for m in [null_register(), register_stop()] {
        cuts(&m, &table, 4, &[4, 42], pairs);
        assert_eq!(pairs(&m[..4]), refusal(5, 4));
        assert_eq!(pairs(&m[..42]), Ok(()));
    }
}

#[test]
fn pairs_wrong() {
    let table: [Wrong; 13] = [
        ("first group of family 1", 4, &[1], 24..=80, (7, 4, 4)),
        ("first mask of 32", 7, &[32], 24..=80, (7, 4, 4)),
        ("first source of family 1", 24, &[1], 42..=80, (7, 24, 4)),
        ("first source of encoding 1", 25, &[1], 42..=80, (7, 24, 4)),
        ("second group of encoding 1", 43, &[1], 62..=80, (7, 42, 42)),
        ("second group f00e::", 46, &[0xF0], 62..=80, (7, 42, 42)),
        ("second group bad and cut", 46, &[0xF0], 47..=61, (6, 42, 42)),
        ("second source of encoding 1", 63, &[1], 80..=80, (7, 62, 42)),
        ("second source bad and cut", 63, &[1], 64..=79, (6, 62, 42)),
        ("first source ff01::", 26, &[0xFF], 42..=80, (7, 24, 4)),
        ("first source ff01:: and cut", 26, &[0xFF], 27..=41, (6, 24, 4)),
        ("second source of all ones", 64, &[0xFF; 16], 80..=80, (7, 62, 42)),
        ("second source of all ones and cut", 64, &[0xFF; 16], 62..=79, (6, 62, 42)),
    ];
    wrongs(&null_register(), &table, pairs);
    wrongs(&register_stop(), &table, pairs);
    let zero: [Wrong; 3] = [
        ("first source 0", 26, &[0; 16], 42..=80, (7, 24, 4)),
        ("second source 0", 64, &[0; 16], 80..=80, (7, 62, 42)),
        ("second source 0 and cut", 64, &[0; 16], 62..=79, (6, 62, 42)),
    ];
    wrongs(&null_register(), &zero, pairs);
    let mut m = register_stop();
    m[64..].fill(0);
    assert_eq!(pairs(&m), Ok(()));
}

// ---- a record read singly

/// At 3: group 3 to 22, source 23 to 40, R word 41 to 44, metric 45 to 48.
fn single() -> Vec<u8> {
    [&[0xEE; 3], &hex(PLAIN)[4..]].concat()
}

fn single_assert(octets: &[u8]) -> Answer<()> {
    v6::read_record(octets, 3, Kind::Simple).map(drop)
}

fn single_pair(octets: &[u8]) -> Answer<()> {
    v6::read_record(octets, 3, Kind::NullRegister).map(drop)
}

#[test]
fn single_cut() {
    let table = [
        ("group", 3..=22, 3, 3),
        ("source", 23..=40, 23, 3),
        ("R word", 41..=44, 41, 3),
        ("metric", 45..=48, 45, 3),
    ];
    cuts(&single(), &table, 3, &[], single_assert);
    cuts(&single()[..41], &table[..2], 3, &[], single_pair);
}

#[test]
fn single_wrong() {
    let table: [Wrong; 5] = [
        ("group of family 1", 3, &[1], 23..=49, (7, 3, 3)),
        ("group fe3e::", 7, &[0xFE], 23..=49, (7, 3, 3)),
        ("source of encoding 1", 24, &[1], 41..=49, (7, 23, 3)),
        ("source of all ones", 25, &[0xFF; 16], 41..=49, (7, 23, 3)),
        ("source bad and cut", 24, &[1], 25..=40, (6, 23, 3)),
    ];
    wrongs(&single(), &table, single_assert);
    wrongs(&single(), &table, single_pair);
    wrongs(&single(), &[("source 0, R=0", 25, &[0; 16], 45..=49, (7, 23, 3))], single_assert);
    wrongs(&single(), &[("source 0, R word cut", 25, &[0; 16], 41..=44, (6, 41, 3))], single_assert);
    wrongs(&single(), &[("source 0", 25, &[0; 16], 41..=49, (7, 23, 3))], single_pair);
}

// ---- headers and Hellos

#[test]
fn numbers_1_to_4() {
    for length in 0..4 {
        assert_eq!(v6::header(&[0x10; 4][..length]), refusal(1, 0));
    }
    assert_eq!(v6::header(&vec![0x20; 65_516]), refusal(1, 0));
    let mut longest = vec![0; 65_515];
    longest[0] = 0x20;
    v6::seal(&mut longest);
    assert_eq!(v6::header(&longest), Ok(Kind::Hello));
    assert_eq!(v6::header(&[0x30, 0, 0, 0]), refusal(2, 0));
    assert_eq!(v6::header(&[0x20, 0, 0, 0]), refusal(3, 0));
    assert_eq!(v6::header(&v6::message(0x21, 0, &[])), refusal(4, 0));
    assert_eq!(v6::header(&v6::message(0x2D, 0x20, &[])), refusal(4, 0));
    // FDF8 + 0004 + 2000 = 1_1DFC, so 1DFD; FFFF - 1DFD = E202.
    assert_eq!(v6::header(&hex("2000 E202")), Ok(Kind::Hello));
    for (read, m) in
        [(asserts as fn(&[u8]) -> Answer<()>, null_register()), (pairs, hex(PLAIN)), (hello, hex(PLAIN))]
    {
        assert_eq!(read(&m), refusal(4, 0));
    }
}

/// Holdtime 4 to 9, priority 10 to 17, packing 18 to 21.
const HELLO: &str = "2000 0000 0001 0002 0069 0013 0004 12345678 0028 0000";

#[test]
fn hello_cut() {
    let table = [
        ("type", 5..=5, 4, 4),
        ("length", 6..=7, 6, 4),
        ("value", 8..=9, 8, 4),
        ("type", 11..=11, 10, 10),
        ("length", 12..=13, 12, 10),
        ("value", 14..=17, 14, 10),
        ("type", 19..=19, 18, 18),
        ("length", 20..=21, 20, 18),
    ];
    cuts(&hex(HELLO), &table, 4, &[4, 10, 18], hello);
    for (at, octet, place) in [(7, 3, 4), (13, 16, 10), (21, 1, 18), (11, 1, 10)] {
        let mut m = hex(HELLO);
        m[at] = octet;
        assert_eq!(hello(&m), refusal(13, place));
    }
}

#[test]
fn hellos_in_any_room() {
    for said in edge_hellos() {
        let length = 10 + 8 * usize::from(said.priority.is_some()) + 4 * usize::from(said.packing);
        for room in 0..=30 {
            let mut buffer = [0x77; 30];
            let answer = v6::write_hello(said, &mut buffer[..room]);
            assert_eq!(answer, if room < length { refusal(8, 0) } else { Ok(length) });
            let written = answer.unwrap_or(0);
            assert!(buffer[written..].iter().all(|octet| *octet == 0x77));
            if written > 0 {
                assert_eq!(v6::read_hello(&buffer[..written]), Ok(said));
            }
        }
    }
}

/// A Hello without options, and octet 1, which is ignored.
#[test]
fn hellos_of_others() {
    let none = Hello { holdtime: 105, priority: None, packing: false };
    for second in [0, 1, 0xFF] {
        assert_eq!(v6::read_hello(&v6::message(0x20, second, &[])), Ok(none));
    }
}
