//! Messages of IPv6 worked out by hand, read and written, octet by octet; and
//! what an address of the other family, another path or another length does.
mod common;
use common::*;
use second::checksum::{checksum, checksum_ipv6};
use second::hello::{self, Hello};
use second::pack::*;
use second::read::{self, AssertRecord, PairRecord, Record};
use second::{Address, Answer, Family, Kind, Path};

const SIX: Family = Family::Ipv6;

/// fe80::a1b2:c3d4 to ff02::d. Its words, and next header 103, have the sum
/// FE80 + A1B2 = 1_A032, so A033; + C3D4 = 1_6407, so 6408; + FF02 = 1_630A, so
/// 630B; + 000D = 6318; + 0067 = 637F. The message's length comes to it, and then
/// the sum of each line of the message.
const PATH: Path = Path {
    source: Address { high: 0xFE80_0000_0000_0000, low: 0xA1B2_C3D4 },
    destination: Address { high: 0xFF02_0000_0000_0000, low: 0xD },
};

// Entries: family and zeros, group, source, R with preference, metric.
const GROUP: &str = "FF3E 2122 2324 2526 2728 292A 2B2C 2D2E";
const OTHER_GROUP: &str = "FF0E 3132 3334 3536 3738 393A 3B3C 3D3E";
const SOURCE: &str = "2001 0DB8 1112 1314 1516 1718 191A 1B1C";
const NO_SOURCE: &str = "0000 0000 0000 0000 0000 0000 0000 0000";

fn entries(parts: &[&str]) -> Vec<u8> {
    hex(&parts.concat())
}

type Pack = fn(Family, Path, &[u8], usize, usize, &mut [u8]) -> Answer<(usize, usize)>;
type Read = fn(Family, Path, &[u8], &mut [u8]) -> Answer<(Kind, usize)>;

/// The message reads as the entries, and they pack into it, with limits from its
/// own length on.
fn both_ways(message: &str, entries: &[u8], kind: Kind, length: usize, read: Read, pack: Pack) {
    let message = hex(message);
    assert_eq!(message.len(), length);
    assert_eq!(read::header(SIX, PATH, &message), Ok(kind));
    assert_eq!(read::body(SIX, PATH, &message), &message[4..]);
    assert_eq!(checksum_ipv6(PATH, &message), 0);
    let size = if kind == Kind::NullRegister || kind == Kind::RegisterStop { 36 } else { 44 };
    let count = entries.len() / size;
    let mut there = vec![0xEE; entries.len() + 3];
    assert_eq!(read(SIX, PATH, &message, &mut there), Ok((kind, count)));
    assert_eq!(there, [entries, &[0xEE; 3]].concat());
    let mut less = vec![0xEE; entries.len() - 1];
    assert_eq!(read(SIX, PATH, &message, &mut less), refusal(8, 0));
    assert_eq!(less, vec![0xEE; entries.len() - 1]);
    for limit in [length.max(62), length.max(62) + 1, 1_480] {
        let mut buffer = vec![0xEE; limit];
        assert_eq!(pack(SIX, PATH, entries, 0, limit, &mut buffer), Ok((length, count)));
        assert_eq!(buffer[..length], message);
        assert!(buffer[length..].iter().all(|octet| *octet == 0xEE));
    }
    // IPv4 has no pseudo-header: the checksum is another.
    assert_eq!(read::header(Family::Ipv4, PATH, &message), refusal(3, 0));
}

/// 637F + 004E = 63CD; + 2503 = 88D0; + 1014 = 98E4; + B443 = 1_4D27, so 4D28; +
/// 0002 = 4D2A; + 13D8 = 6102; + 8418 = E51A; FFFF - E51A = 1AE5.
const SOURCE_AGGREGATED: &str = "2503 1AE5 0000 0000
    0102 0304 0506 0708
    0200 2001 0DB8 1112 1314 1516 1718 191A 1B1C
    0002 0000
    0200 0080 FF3E 2122 2324 2526 2728 292A 2B2C 2D2E
    0200 0080 FF0E 3132 3334 3536 3738 393A 3B3C 3D3E";

#[test]
fn source_aggregated() {
    let numbers = "0102 0304 0506 0708";
    let list = entries(&["02000000", GROUP, SOURCE, numbers, "02000000", OTHER_GROUP, SOURCE, numbers]);
    both_ways(SOURCE_AGGREGATED, &list, Kind::Aggregated, 78, read::read_asserts, pack_aggregated);
}

/// 637F + 0044 = 63C3; + 2503 = 88C6; + 9014 = 1_18DA, so 18DB; + 0002 = 18DD; +
/// 13D8 = 2CB5; + 0000; + 13D8 = 408D; + 0000; FFFF - 408D = BF72.
const TWO_LONE: &str = "2503 BF72 0000 0000
    8102 0304 0506 0708
    0002 0000
    0200 0080 FF3E 2122 2324 2526 2728 292A 2B2C 2D2E
    0000 0000
    0200 0080 FF3E 2122 2324 2526 2728 292A 2B2C 2D2E
    0000 0000";

/// Two entries of one group without a source: two group records, 68 octets.
#[test]
fn two_without_a_source() {
    let one = entries(&["02000000", GROUP, NO_SOURCE, "8102 0304 0506 0708"]);
    both_ways(TWO_LONE, &one.repeat(2), Kind::Aggregated, 68, read::read_asserts, pack_aggregated);
    // At 67 they are two messages of 44.
    let mut buffer = [0; 67];
    assert_eq!(pack_aggregated(SIX, PATH, &one.repeat(2), 0, 67, &mut buffer), Ok((44, 1)));
    assert_eq!(pack_aggregated(SIX, PATH, &one.repeat(2), 1, 67, &mut buffer), Ok((44, 1)));
}

/// 637F + 0050 = 63CF; + 2503 = 88D2; + D014 = 1_58E6, so 58E7; + 0001 = 58E8; +
/// F4AF = 1_4D97, so 4D98; + 0002 = 4D9A; + 35C5 = 835F; + 0200 = 855F; FFFF -
/// 855F = 7AA0.
const ZERO_INSIDE: &str = "2503 7AA0 0000 0000
    C102 0304 0506 0708
    0001 0000
    0200 0080 FF35 4142 4344 4546 4748 494A 4B4C 4D4E
    0002 0000
    0200 2001 0DB8 5152 5354 5556 5758 595A 5B5C
    0200 0000 0000 0000 0000 0000 0000 0000 0000";

/// One group record of two sources, the second 0.
#[test]
fn a_zero_inside() {
    let (group, numbers) = ("FF35 4142 4344 4546 4748 494A 4B4C 4D4E", "C102 0304 0506 0708");
    let source = "2001 0DB8 5152 5354 5556 5758 595A 5B5C";
    let list = entries(&["02000000", group, source, numbers, "02000000", group, NO_SOURCE, numbers]);
    both_ways(ZERO_INSIDE, &list, Kind::Aggregated, 80, read::read_asserts, pack_aggregated);
}

/// 637F + 0050 = 63CF; + 2D00 = 90CF; + 13D8 = A4A7; + B443 = 1_58EA, so 58EB; +
/// 8418 = DD03; + 63EB = 1_40EE, so 40EF; FFFF - 40EF = BF10.
const NULL_REGISTER: &str = "2D00 BF10
    0200 0080 FF3E 2122 2324 2526 2728 292A 2B2C 2D2E
    0200 2001 0DB8 1112 1314 1516 1718 191A 1B1C
    0200 0080 FF0E 3132 3334 3536 3738 393A 3B3C 3D3E
    0200 FE80 5152 5354 5556 5758 595A 5B5C 5D5E";

#[test]
fn null_register() {
    let other = "FE80 5152 5354 5556 5758 595A 5B5C 5D5E";
    let list = entries(&["02000000", GROUP, SOURCE, "02000000", OTHER_GROUP, other]);
    both_ways(NULL_REGISTER, &list, Kind::NullRegister, 80, read::read_pairs, pack_null_register);
}

/// 637F + 0050 = 63CF; + 2D10 = 90DF; + 13D8 = A4B7; + B443 = 1_58FA, so 58FB; +
/// 8418 = DD13; + 0200 = DF13; FFFF - DF13 = 20EC.
const REGISTER_STOP: &str = "2D10 20EC
    0200 0080 FF3E 2122 2324 2526 2728 292A 2B2C 2D2E
    0200 2001 0DB8 1112 1314 1516 1718 191A 1B1C
    0200 0080 FF0E 3132 3334 3536 3738 393A 3B3C 3D3E
    0200 0000 0000 0000 0000 0000 0000 0000 0000";

#[test]
fn register_stop() {
    let list = entries(&["02000000", GROUP, SOURCE, "02000000", OTHER_GROUP, NO_SOURCE]);
    both_ways(REGISTER_STOP, &list, Kind::RegisterStop, 80, read::read_pairs, pack_register_stop);
}

/// 637F + 0032 = 63B1; + 2500 = 88B1; + 13D8 = 9C89; + B443 = 1_50CC, so 50CD; +
/// 1014 = 60E1; FFFF - 60E1 = 9F1E.
const PLAIN: &str = "2500 9F1E
    0200 0080 FF3E 2122 2324 2526 2728 292A 2B2C 2D2E
    0200 2001 0DB8 1112 1314 1516 1718 191A 1B1C
    0102 0304 0506 0708";

#[test]
fn plain() {
    let list = entries(&["02000000", GROUP, SOURCE, "0102 0304 0506 0708"]);
    both_ways(PLAIN, &list, Kind::Assert, 50, read::read_asserts, pack_assert);
    // A record read singly, with what follows it.
    let octets = [&[0xEE; 3], &hex(PLAIN)[4..], &[0xEE; 5]].concat();
    let group = Address { high: 0xFF3E_2122_2324_2526, low: 0x2728_292A_2B2C_2D2E };
    let source = Address { high: 0x2001_0DB8_1112_1314, low: 0x1516_1718_191A_1B1C };
    let (r_preference, metric) = (0x0102_0304, 0x0506_0708);
    let record = Record::Assert(AssertRecord { group, source, r_preference, metric });
    let pair = Record::Pair(PairRecord { group, source });
    for kind in [Kind::Assert, Kind::Simple] {
        assert_eq!(read::read_record(SIX, kind, &octets, 3), Ok((record, 49)));
    }
    for kind in [Kind::NullRegister, Kind::RegisterStop] {
        assert_eq!(read::read_record(SIX, kind, &octets, 3), Ok((pair, 41)));
    }
    for kind in [Kind::Hello, Kind::Aggregated] {
        assert_eq!(read::read_record(SIX, kind, &octets, 3), refusal(4, 0));
    }
    for at in [54, 55, 1 << 32, usize::MAX - 45, usize::MAX] {
        assert_eq!(read::read_record(SIX, Kind::Assert, &octets, at), refusal(6, at));
    }
}

/// 637F + 0064 = 63E3; + 2501 = 88E4; + 13D8 = 9CBC; + B443 = 1_50FF, so 5100; +
/// 1014 = 6114; + 8418 = E52C; + 0200 = E72C; + BF9D = 1_A6C9, so A6CA; FFFF -
/// A6CA = 5935.
const SIMPLE: &str = "2501 5935 0000 0000
    0200 0080 FF3E 2122 2324 2526 2728 292A 2B2C 2D2E
    0200 2001 0DB8 1112 1314 1516 1718 191A 1B1C
    0102 0304 0506 0708
    0200 0080 FF0E 3132 3334 3536 3738 393A 3B3C 3D3E
    0200 0000 0000 0000 0000 0000 0000 0000 0000
    8901 2345 6789 ABCD";

#[test]
fn simple() {
    let first = ["02000000", GROUP, SOURCE, "0102 0304 0506 0708"];
    let second = ["02000000", OTHER_GROUP, NO_SOURCE, "8901 2345 6789 ABCD"];
    let list = entries(&[first, second].concat());
    both_ways(SIMPLE, &list, Kind::Simple, 100, read::read_asserts, pack_simple);
}

/// 637F + 0016 = 6395; + 2000 = 8395; + 006C = 8401; + 68C3 = ECC4; + 0028 = ECEC;
/// FFFF - ECEC = 1313.
const HELLO: &str = "2000 1313
    0001 0002 0069
    0013 0004 1234 5678
    0028 0000";

#[test]
fn a_hello() {
    let said = Hello { holdtime: 105, priority: Some(0x1234_5678), packing: true };
    let message = hex(HELLO);
    assert_eq!(hello::read_hello(SIX, PATH, &message), Ok(said));
    let mut buffer = [0xEE; 25];
    assert_eq!(hello::write_hello(SIX, PATH, said, &mut buffer), Ok(22));
    assert_eq!(buffer, *[&message[..], &[0xEE; 3]].concat());
    assert_eq!(hello::write_hello(SIX, PATH, said, &mut buffer[..21]), refusal(8, 0));
    assert_eq!(hello::read_hello(Family::Ipv4, PATH, &message), refusal(3, 0));
    // The IPv4 message has no pseudo-header: 2000 + 006C + 68C3 + 0028 = 8957; FFFF - 8957 = 76A8.
    assert_eq!(hello::write_hello(Family::Ipv4, PATH, said, &mut buffer), Ok(22));
    assert_eq!(buffer[..4], hex("2000 76A8"));
    assert_eq!(hello::read_hello(SIX, PATH, &buffer[..22]), refusal(3, 0));
}

const ALL: [&str; 8] =
    [SOURCE_AGGREGATED, TWO_LONE, ZERO_INSIDE, NULL_REGISTER, REGISTER_STOP, PLAIN, SIMPLE, HELLO];

/// Every bit of the path, and every other length.
#[test]
fn other_paths_and_lengths() {
    for message in ALL.map(hex) {
        for bit in 0..64 {
            let mut others = [PATH; 4];
            others[0].source.high ^= 1 << bit;
            others[1].source.low ^= 1 << bit;
            others[2].destination.high ^= 1 << bit;
            others[3].destination.low ^= 1 << bit;
            for other in others {
                assert_eq!(read::header(SIX, other, &message), refusal(3, 0));
                assert!(read::body(SIX, other, &message).is_empty());
                assert_eq!(read::read_asserts(SIX, other, &message, &mut [0; 200]), refusal(3, 0));
                assert_eq!(read::read_pairs(SIX, other, &message, &mut [0; 200]), refusal(3, 0));
                assert_eq!(hello::read_hello(SIX, other, &message), refusal(3, 0));
            }
        }
        // Two octets of 0 more leave the words' sum as it is, but not the length.
        let longer = [&message[..], &[0, 0]].concat();
        assert_eq!(read::header(SIX, PATH, &longer), refusal(3, 0));
        // The two exchanged have the same sum.
        let exchanged = Path { source: PATH.destination, destination: PATH.source };
        assert!(read::header(SIX, exchanged, &message).is_ok());
        assert_eq!(read::header(SIX, Path::default(), &message), refusal(3, 0));
    }
}

/// The pseudo-header alone: next header 103 and a length; and all ones.
#[test]
fn checksums() {
    assert_eq!(checksum_ipv6(Path::default(), &[]), 0xFFFF - 103);
    // 0067 + 0003 + 0102 + 0300 = 046C
    assert_eq!(checksum_ipv6(Path::default(), &[1, 2, 3]), 0xFFFF - 0x046C);
    let ones = Address { high: u64::MAX, low: u64::MAX };
    // FFFF takes 1 and carries 1, so 16 of them leave 0067.
    assert_eq!(checksum_ipv6(Path { source: ones, destination: ones }, &[]), 0xFFFF - 103);
    assert_eq!(checksum_ipv6(PATH, &[]), 0xFFFF - 0x637F);
    // A length over 16 bits: 0001 0000 in two words. 0067 + 0001 = 0068.
    assert_eq!(checksum_ipv6(Path::default(), &[0; 65_536]), 0xFFFF - 0x0068);
    // The pseudo-header before the octets, summed as any octets.
    let mut rng = second::rng::Rng::new(8200);
    for length in 0..300u32 {
        let mut octets = vec![0; length as usize];
        rng.fill(&mut octets);
        let mut path = [0; 32];
        rng.fill(&mut path);
        let address = |at: usize| Address::from(u128::from_be_bytes(path[at..at + 16].try_into().unwrap()));
        let header = [&path[..], &length.to_be_bytes(), &[0, 0, 0, 103]].concat();
        let expected = checksum(&[&header[..], &octets].concat());
        assert_eq!(checksum_ipv6(Path { source: address(0), destination: address(16) }, &octets), expected);
    }
}

/// IPv4 ignores the path.
#[test]
fn paths_of_ipv4() {
    let m = common::simple(&[assert_record(0xE801_0101, 0x0A00_0001, 110, 20)]);
    for path in [PATH, Path::default(), v6::PATH] {
        assert_eq!(read::header(Family::Ipv4, path, &m), Ok(Kind::Simple));
        let mut buffer = [0; 38];
        let list = entry(0xE801_0101, 0x0A00_0001, 110, 20);
        assert_eq!(pack_simple(Family::Ipv4, path, &list, 0, 38, &mut buffer), Ok((30, 1)));
        assert_eq!(buffer[..30], m);
    }
}

/// One to five entries of one group without a source: as many group records of
/// 24 octets up to three, then one of 24 + 18 octets for each.
#[test]
fn runs_without_a_source() {
    let one = entries(&["02000000", GROUP, NO_SOURCE, "8102 0304 0506 0708"]);
    let mut buffer = [0; 200];
    for (count, length, group_records, p) in
        [(1, 44, 1, 0), (2, 68, 2, 0), (3, 92, 3, 0), (4, 116, 1, 4), (5, 134, 1, 5), (6, 152, 1, 6)]
    {
        let list = one.repeat(count);
        assert_eq!(pack_aggregated(SIX, PATH, &list, 0, 200, &mut buffer), Ok((length, count)));
        assert_eq!(buffer[16..20], [0, group_records, 0, 0]);
        assert_eq!(buffer[40..44], [0, p, 0, 0]);
        // In IPv4 they are joined: 8 + 12 + 12 + 6 for each, but for one.
        let list = entry(0xE801_0101, 0, R | 1, 2).repeat(count);
        let length = if count == 1 { 32 } else { 32 + 6 * count };
        assert_eq!(v4::pack_aggregated(&list, 0, 200, &mut buffer), Ok((length, count)));
    }
}

/// Where another source stands in the run of a group, it is joined whole; another
/// group, preference or metric ends the run.
#[test]
fn runs_with_a_source() {
    let no = entries(&["02000000", GROUP, NO_SOURCE, "8102 0304 0506 0708"]);
    let from = entries(&["02000000", GROUP, SOURCE, "8102 0304 0506 0708"]);
    let other = entries(&["02000000", OTHER_GROUP, NO_SOURCE, "8102 0304 0506 0708"]);
    let metric = entries(&["02000000", GROUP, NO_SOURCE, "8102 0304 0506 0709"]);
    let mut buffer = [0; 300];
    let mut length = |list: &[&Vec<u8>], limit: usize| {
        let list: Vec<u8> = list.iter().flat_map(|entry| entry.to_vec()).collect();
        pack_aggregated(SIX, PATH, &list, 0, limit, &mut buffer).unwrap()
    };
    // 8 + 12 + 24 + 18 for each.
    assert_eq!(length(&[&no, &no, &from], 300), (98, 3));
    assert_eq!(length(&[&from, &no, &no], 300), (98, 3));
    assert_eq!(length(&[&no, &from], 300), (80, 2));
    // Cut before the source: two group records, 68 octets, up to 97.
    assert_eq!(length(&[&no, &no, &from], 97), (68, 2));
    assert_eq!(length(&[&no, &no, &from], 98), (98, 3));
    assert_eq!(length(&[&no, &from], 79), (44, 1));
    // Three of them cut from more: 92 up to 115.
    assert_eq!(length(&[&no, &no, &no, &no], 115), (92, 3));
    assert_eq!(length(&[&no, &no, &no, &from], 115), (92, 3));
    assert_eq!(length(&[&no, &no, &no, &from], 116), (116, 4));
    // Two groups in turn: each a run of its own, in one RP record.
    assert_eq!(length(&[&no, &no, &other, &other], 300), (20 + 4 * 24, 4));
    assert_eq!(length(&[&no, &other, &no, &other], 300), (20 + 4 * 24, 4));
    // Another metric begins another RP record.
    assert_eq!(length(&[&no, &no, &metric, &metric], 300), (8 + 2 * (12 + 48), 4));
}

/// Reading takes every form: p=1 and p=2 with source 0 too.
#[test]
fn forms_that_are_not_written() {
    let group = v6::encoded_group(0xFF3E << 112 | 1);
    let zero = v6::encoded_source(0);
    let lone = [group.clone(), v6::number(0)].concat();
    let one = [group.clone(), v6::number(1), zero.clone()].concat();
    let two = [group, v6::number(2), zero.repeat(2)].concat();
    let head = |count| [vec![0; 4], words(&[R | 1, 2]), v6::number(count)].concat();
    let expected = v6::entry(0xFF3E << 112 | 1, 0, R | 1, 2);
    let bodies = [
        ([head(1), one.clone()].concat(), 1),
        ([head(1), two.clone()].concat(), 2),
        ([head(4), lone.repeat(4)].concat(), 4),
        ([head(3), one, two, lone].concat(), 4),
    ];
    for (body, count) in bodies {
        let mut entries = vec![0; 44 * count];
        let m = v6::message(0x25, 3, &body);
        assert_eq!(v6::read_asserts(&m, &mut entries), Ok((Kind::Aggregated, count)));
        assert_eq!(entries, expected.repeat(count));
    }
}

// ---- the other family

/// Records of the other family, with the checksum of the one that is named: 7 at
/// the group, as far as so many octets are there, else 6.
#[test]
fn records_of_the_other_family() {
    let four = assert_record(0xE801_0101, 0x0A00_0001, 110, 20);
    let six = v6::assert_record(0xFF3E << 112 | 1, 0x2001_0DB8 << 96 | 1, 110, 20);
    // Named IPv4: 46 octets are there, a group is one of 8.
    assert_eq!(v4::read_asserts(&message(0x25, 0, &six), &mut [0; 99]), refusal(7, 4));
    assert_eq!(
        v4::read_asserts(&message(0x25, 1, &[&[0; 4], &six[..]].concat()), &mut [0; 99]),
        refusal(7, 8)
    );
    assert_eq!(v4::read_pairs(&message(0x2D, 0, &six[..38]), &mut [0; 99]), refusal(7, 4));
    assert_eq!(v4::read_pairs(&message(0x2D, 0, &six[..8]), &mut [0; 99]), refusal(7, 4));
    assert_eq!(v4::read_pairs(&message(0x2D, 0, &six[..7]), &mut [0; 99]), refusal(6, 4));
    // Named IPv6: a record of 22 octets has the 20 of a group, one of 14 has not.
    assert_eq!(v6::read_asserts(&v6::message(0x25, 0, &four), &mut [0; 99]), refusal(7, 4));
    assert_eq!(
        v6::read_asserts(&v6::message(0x25, 1, &[&[0; 4], &four[..]].concat()), &mut [0; 99]),
        refusal(7, 8)
    );
    assert_eq!(v6::read_pairs(&v6::message(0x2D, 0, &four[..20]), &mut [0; 99]), refusal(7, 4));
    assert_eq!(v6::read_pairs(&v6::message(0x2D, 0, &four[..19]), &mut [0; 99]), refusal(6, 4));
    for kind in [Kind::Assert, Kind::Simple, Kind::NullRegister, Kind::RegisterStop] {
        assert_eq!(read::read_record(Family::Ipv4, kind, &six, 0), refusal(7, 0));
        assert_eq!(read::read_record(SIX, kind, &four, 0), refusal(7, 0));
        assert_eq!(read::read_record(SIX, kind, &four[..19], 0), refusal(6, 0));
    }
}

/// Lists of the other family: not whole, or 7 at the first entry, also where the
/// octets are whole entries of the named one.
#[test]
fn lists_of_the_other_family() {
    let four = entry(0xE801_0101, 0x0A00_0001, 110, 20);
    let six = v6::entry(0xFF3E << 112 | 1, 0x2001_0DB8 << 96 | 1, 110, 20);
    let mut buffer = [0xEE; 556];
    for pack in [pack_assert, pack_simple, pack_aggregated] {
        // 44 is not a multiple of 20; 5 times 44 is.
        assert_eq!(pack(Family::Ipv4, PATH, &six, 0, 0, &mut buffer), refusal(10, 0));
        assert_eq!(pack(Family::Ipv4, PATH, &six.repeat(5), 0, 0, &mut buffer), refusal(7, 0));
        assert_eq!(pack(Family::Ipv4, PATH, &six.repeat(5), 11, 0, &mut buffer), Ok((0, 0)));
        assert_eq!(pack(SIX, PATH, &four, 0, 0, &mut buffer), refusal(10, 0));
        assert_eq!(pack(SIX, PATH, &four.repeat(11), 2, 0, &mut buffer), refusal(7, 2));
    }
    let (four, six) = (pair(0xE801_0101, 1), v6::pair(0xFF3E << 112 | 1, 1));
    for pack in [pack_null_register, pack_register_stop] {
        // A pair of IPv6 is as long as three of IPv4.
        assert_eq!(pack(Family::Ipv4, PATH, &six, 0, 0, &mut buffer), refusal(7, 0));
        assert_eq!(pack(SIX, PATH, &four, 0, 0, &mut buffer), refusal(10, 0));
        assert_eq!(pack(SIX, PATH, &four.repeat(3), 0, 0, &mut buffer), refusal(7, 0));
    }
    assert_eq!(buffer, [0xEE; 556]);
}

/// Every other octet in the prefix of any of five entries: 7 with its number.
#[test]
fn prefixes_of_entries() {
    let packs: [Pack; 5] =
        [pack_assert, pack_simple, pack_aggregated, pack_null_register, pack_register_stop];
    for family in Family::ALL {
        let (assert, pair) = match family {
            Family::Ipv4 => (entry(0xE801_0101, 1, 110, 20), pair(0xE801_0101, 1)),
            Family::Ipv6 => (v6::entry(0xFF3E << 112, 1, 110, 20), v6::pair(0xFF3E << 112, 1)),
        };
        for (pack, one) in packs.into_iter().zip([&assert, &assert, &assert, &pair, &pair]) {
            for (bad, at) in (0..5).flat_map(|bad| (0..4).map(move |at| (bad, at))) {
                for change in 1..=255 {
                    let mut list = one.repeat(5);
                    list[one.len() * bad + at] ^= change;
                    let mut buffer = [0xEE; 70];
                    for start in 0..=bad {
                        assert_eq!(pack(family, PATH, &list, start, 70, &mut buffer), refusal(7, bad));
                    }
                    assert_eq!(buffer, [0xEE; 70]);
                    assert!(pack(family, PATH, &list, bad + 1, 70, &mut buffer).is_ok());
                }
            }
            // 10 before 7.
            let cut = &one.repeat(2)[1..];
            assert_eq!(pack(family, PATH, cut, 0, 70, &mut [0; 70]), refusal(10, 0));
        }
    }
}
