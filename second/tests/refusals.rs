//! Every number of the refusal table, with its place, and the order of the
//! checks. For 6 and 7 in reading, places.rs has them.
mod common;
use common::v4::*;
use common::*;
use second::counters::*;
use second::hello::Hello;
use second::read::{AssertRecord, PairRecord, Record};
use second::Kind;

const G: u32 = 0xE801_0101;
const S: u32 = 0x0A00_0001;

/// Refused, and the entries stay.
fn asserts_refused(m: &[u8], number: u8, place: usize) {
    let mut entries = [0x77; 256];
    assert_eq!(read_asserts(m, &mut entries), refusal(number, place), "{m:02x?}");
    assert_eq!(entries, [0x77; 256]);
}

fn pairs_refused(m: &[u8], number: u8, place: usize) {
    let mut entries = [0x77; 256];
    assert_eq!(read_pairs(m, &mut entries), refusal(number, place), "{m:02x?}");
    assert_eq!(entries, [0x77; 256]);
}

#[test]
fn number_1_length() {
    for length in 0..4 {
        assert_eq!(header(&[0x10; 4][..length]), refusal(1, 0));
    }
    assert_eq!(header(&vec![0x20; 65_516]), refusal(1, 0));
    let mut longest = vec![0; 65_515];
    longest[0] = 0x20;
    seal(&mut longest);
    assert_eq!(header(&longest), Ok(Kind::Hello));
}

#[test]
fn number_2_version() {
    assert_eq!(header(&[0x30, 0, 0, 0]), refusal(2, 0));
    asserts_refused(&[0x05, 0, 0, 0], 2, 0);
}

#[test]
fn number_3_checksum() {
    assert_eq!(header(&[0x20, 0, 0, 0]), refusal(3, 0));
    assert_eq!(header(&[0x2F, 0, 0, 0]), refusal(3, 0));
    assert_eq!(header(&[0x20, 0, 0xDF, 0xFF]), Ok(Kind::Hello));
}

#[test]
fn number_4_kind() {
    for message_type in 0..16u8 {
        for second in 0..=255u8 {
            let m = message(0x20 | message_type, second, &[]);
            let expected = match (message_type, second) {
                (0, _) => Ok(Kind::Hello),
                (5, b) if b & 1 == 0 => Ok(Kind::Assert),
                (5, b) if b & 2 == 0 => Ok(Kind::Simple),
                (5, _) => Ok(Kind::Aggregated),
                (13, b) if b < 16 => Ok(Kind::NullRegister),
                (13, b) if b < 32 => Ok(Kind::RegisterStop),
                _ => refusal(4, 0),
            };
            assert_eq!(header(&m), expected);
            assert!(body(&m).is_empty());
        }
    }
    asserts_refused(&message(0x20, 0, &[]), 4, 0);
    asserts_refused(&message(0x2D, 0, &[]), 4, 0);
    pairs_refused(&message(0x25, 0, &[]), 4, 0);
    pairs_refused(&message(0x2D, 0x20, &pair_record(G, S)), 4, 0);
    assert_eq!(read_hello(&message(0x25, 0, &[])), refusal(4, 0));
    assert_eq!(read_record(&[], 9, Kind::Hello), refusal(4, 0));
    assert_eq!(read_record(&[], 9, Kind::Aggregated), refusal(4, 0));
    let before = Counters { sent: [Count { messages: 1, records: 2 }; 6], ..Counters::default() };
    let mut counters = before;
    for kind in 6..=255 {
        assert_eq!(add(&mut counters, Direction::Sent, kind, 1), refusal(4, 0));
        assert_eq!(add(&mut counters, Direction::Received, kind, 1), refusal(4, 0));
    }
    assert_eq!(counters, before);
}

#[test]
fn body_of_each_kind() {
    // Only the header is looked at: no kind has a body like this one.
    let kinds = [(0x20, 0), (0x25, 0), (0x25, 1), (0x25, 3), (0x2D, 0), (0x2D, 0x10)];
    for ((first, second), kind) in kinds.into_iter().zip(Kind::ALL) {
        let mut m = message(first, second, &[0xFF; 3]);
        assert_eq!(header(&m), Ok(kind));
        assert_eq!(body(&m), [0xFF; 3]);
        m[4] = 0;
        assert!(body(&m).is_empty());
    }
}

#[test]
fn a_record_read_singly() {
    let record = [assert_record(G, S, 110, 20), vec![0xFF; 3]].concat();
    let found = AssertRecord { group: G.into(), source: S.into(), r_preference: 110, metric: 20 };
    let pair = Record::Pair(PairRecord { group: G.into(), source: S.into() });
    for kind in [Kind::Assert, Kind::Simple] {
        assert_eq!(read_record(&record, 0, kind), Ok((Record::Assert(found), 22)));
    }
    for kind in [Kind::NullRegister, Kind::RegisterStop] {
        assert_eq!(read_record(&record, 0, kind), Ok((pair, 14)));
    }
}

#[test]
fn number_5_zero_and_no_record() {
    for second in [1, 3] {
        for length in 1..4 {
            asserts_refused(&message(0x25, second, &[1, 0, 0][..length]), 5, 4);
        }
        asserts_refused(&message(0x25, second, &[1, 0, 0, 0]), 5, 4);
        asserts_refused(&message(0x25, second, &[0, 1, 1, 1]), 5, 8);
    }
    pairs_refused(&message(0x2D, 0, &[]), 5, 4);
    pairs_refused(&message(0x2D, 0x10, &[]), 5, 4);
    // Reserved is ignored.
    let m = message(0x25, 1, &[vec![0, 1, 2, 3], assert_record(G, S, 1, 2)].concat());
    assert_eq!(read_asserts(&m, &mut [0; 20]), Ok((Kind::Simple, 1)));
}

/// What looks like 7 and is none.
#[test]
fn addresses_allowed() {
    let mut flags = assert_record(G, S, 110, 20);
    flags[2] = 0xFF;
    for record in [flags, assert_record(G, 0, R, 20), assert_record(0xE000_0000, 0xFFFF_FFFE, 110, 20)] {
        assert_eq!(read_asserts(&message(0x25, 0, &record), &mut [0; 20]), Ok((Kind::Assert, 1)));
        assert_eq!(read_asserts(&simple(&[record]), &mut [0; 20]), Ok((Kind::Simple, 1)));
    }
    let zero = message(0x2D, 0x10, &pair_record(G, 0));
    assert_eq!(read_pairs(&zero, &mut [0; 12]), Ok((Kind::RegisterStop, 1)));
}

#[test]
fn number_8_buffers() {
    let m = simple(&[assert_record(G, S, 1, 2), assert_record(G, S, 1, 2)]);
    let mut entries = [0x77; 39];
    assert_eq!(read_asserts(&m, &mut entries), refusal(8, 0));
    assert_eq!(entries, [0x77; 39]);
    let m = message(0x2D, 0, &pair_record(G, S));
    assert_eq!(read_pairs(&m, &mut [0; 11]), refusal(8, 0));
    assert_eq!(read_pairs(&m, &mut [0; 13]), Ok((Kind::NullRegister, 1)));
    // A later fault goes before the buffer.
    let m = message(0x2D, 0, &[pair_record(G, S), pair_record(G, 0)].concat());
    assert_eq!(read_pairs(&m, &mut []), refusal_within(7, 26, 18));
    for start in [0, 1, 2] {
        let mut buffer = [0x77; 1479];
        assert_eq!(pack_simple(&entry(0, 0, 0, 0), start, 1480, &mut buffer), refusal(8, 0));
        assert_eq!(pack_aggregated(&entry(0, 0, 0, 0), start, 1480, &mut buffer), refusal(8, 0));
        assert_eq!(buffer, [0x77; 1479]);
    }
    let (mut small, mut large) = ([0x77; 37], [0x77; 38]);
    assert_eq!(pack_both(&entry(G, S, 1, 2), 0, 38, &mut small, &mut large), refusal(8, 0));
    assert_eq!(pack_both(&entry(G, S, 1, 2), 0, 38, &mut large, &mut small), refusal(8, 0));
    assert_eq!((small, large), ([0x77; 37], [0x77; 38]));
}

/// A Hello of so many octets in a room: refused in less, with nothing written,
/// else written, and the octets past it stay.
fn hello_in_room(said: Hello, length: usize, room: usize) {
    let mut buffer = [0x77; 31];
    let answer = write_hello(said, &mut buffer[..room]);
    if room < length {
        assert_eq!(answer, refusal(8, 0), "{said:?} in {room}");
        assert_eq!(buffer, [0x77; 31]);
    } else {
        assert_eq!(answer, Ok(length), "{said:?} in {room}");
        assert_eq!(read_hello(&buffer[..length]), Ok(said));
        assert!(buffer[length..].iter().all(|octet| *octet == 0x77));
    }
}

#[test]
fn number_8_hellos() {
    for said in edge_hellos() {
        let length = match (said.priority, said.packing) {
            (None, false) => 10,
            (None, true) => 14,
            (Some(_), false) => 18,
            (Some(_), true) => 22,
        };
        (0..=30).for_each(|room| hello_in_room(said, length, room));
    }
}

#[test]
fn number_9_limits() {
    let mut buffer = vec![0x77; 70_000];
    for limit in [1, 37, 65_516, usize::MAX] {
        assert_eq!(pack_assert(&[1], 9, limit, &mut []), refusal(9, 0));
        assert_eq!(pack_simple(&[1], 9, limit, &mut buffer), refusal(9, 0));
        assert_eq!(pack_aggregated(&[1], 9, limit, &mut buffer), refusal(9, 0));
        assert_eq!(pack_null_register(&[1], 9, limit, &mut buffer), refusal(9, 0));
        assert_eq!(pack_register_stop(&[1], 9, limit, &mut buffer), refusal(9, 0));
        assert_eq!(pack_both(&[1], 9, limit, &mut [], &mut buffer), refusal(9, 0));
    }
    assert!(buffer.iter().all(|octet| *octet == 0x77));
}

#[test]
fn number_10_entry_lists() {
    let mut buffer = [0x77; 556];
    let bad = entry(0, 0, 0, 0);
    for start in [0, 1, 2, usize::MAX] {
        assert_eq!(pack_simple(&bad[..19], start, 0, &mut buffer), refusal(10, 0));
        assert_eq!(pack_null_register(&bad[..11], start, 0, &mut buffer), refusal(10, 0));
    }
    assert_eq!(pack_assert(&bad, 2, 0, &mut buffer), refusal(10, 0));
    assert_eq!(pack_register_stop(&bad[..12], 2, 0, &mut buffer), refusal(10, 0));
    assert_eq!(pack_register_stop(&bad[..12], 1, 0, &mut buffer), Ok((0, 0)));
    assert_eq!(buffer, [0x77; 556]);
}

#[test]
fn packing_number_7_looks_to_the_end() {
    let mut buffer = [0x77; 556];
    let good = entry(G, S, 1, 2);
    let list = [entry(G, 0, 1, 2), good.clone(), good.clone(), entry(0x7FFF_FFFF, S, 1, 2)].concat();
    for pack in [pack_assert, pack_simple, pack_aggregated] {
        assert_eq!(pack(&list, 0, 38, &mut buffer), refusal(7, 0));
        assert_eq!(pack(&list, 1, 38, &mut buffer), refusal(7, 3));
        assert_eq!(pack(&list, 4, 38, &mut buffer), Ok((0, 0)));
    }
    let list = [pair(0, S), pair(G, 0), pair(G, S)].concat();
    assert_eq!(pack_null_register(&list, 0, 0, &mut buffer), refusal(7, 0));
    assert_eq!(pack_null_register(&list, 1, 0, &mut buffer), refusal(7, 1));
    assert_eq!(buffer, [0x77; 556]);
    assert_eq!(pack_register_stop(&list, 1, 0, &mut buffer), Ok((32, 2)));
}

#[test]
fn number_13_hello_options() {
    let hello = |body: &[u8]| read_hello(&message(0x20, 0xFF, body));
    let none = Hello { holdtime: 105, priority: None, packing: false };
    assert_eq!(hello(&[]), Ok(none));
    assert_eq!(hello(&hex("0001 0002 0000")), Ok(Hello { holdtime: 0, ..none }));
    assert_eq!(hello(&hex("0013 0004 80000001")), Ok(Hello { priority: Some(0x8000_0001), ..none }));
    assert_eq!(hello(&hex("0028 0000")), Ok(Hello { packing: true, ..none }));
    // Wrong lengths and repetitions, found before the value.
    assert_eq!(hello(&hex("0028 0000 0001 0003")), refusal(13, 8));
    assert_eq!(hello(&hex("0013 0003")), refusal(13, 4));
    assert_eq!(hello(&hex("0028 0001")), refusal(13, 4));
    assert_eq!(hello(&hex("0001 0002 0012 0001 0002")), refusal(13, 10));
    assert_eq!(hello(&hex("0013 0004 00000000 0013 0004")), refusal(13, 12));
    assert_eq!(hello(&hex("0028 0000 0028 0000")), refusal(13, 8));
    // An unknown option may be repeated.
    assert_eq!(hello(&hex("0014 0001 FF 0014 0000 0001 0002 0007")), Ok(Hello { holdtime: 7, ..none }));
}

#[test]
fn counters_saturate() {
    let mut counters = Counters::default();
    for kind in 0..6u8 {
        assert_eq!(add(&mut counters, Direction::Received, kind, 3), Ok(()));
        assert_eq!(counters.received[usize::from(kind)], Count { messages: 1, records: 3 });
    }
    assert_eq!(counters.sent, Counters::default().sent);
    counters.sent[2] = Count { messages: u64::MAX, records: u64::MAX - 1 };
    assert_eq!(add(&mut counters, Direction::Sent, 2, 2), Ok(()));
    assert_eq!(counters.sent[2], Count { messages: u64::MAX, records: u64::MAX });
}

#[test]
fn aggregated_records_as_read() {
    let records = [
        source_aggregated(S, &[G, G + 1]),
        rp_aggregated(&[group_record(G, &[]), group_record(G, &[0]), group_record(G + 1, &[S, 0])]),
    ];
    let mut entries = [0x77; 20 * 6 + 3];
    assert_eq!(read_asserts(&aggregated(&records), &mut entries), Ok((Kind::Aggregated, 6)));
    let expected = [
        entry(G, S, 110, 20),
        entry(G + 1, S, 110, 20),
        entry(G, 0, R | 110, 20),
        entry(G, 0, R | 110, 20),
        entry(G + 1, S, R | 110, 20),
        entry(G + 1, 0, R | 110, 20),
        vec![0x77; 3],
    ];
    assert_eq!(entries[..], expected.concat());
}
