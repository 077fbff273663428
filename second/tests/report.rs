//! The report of a file of messages. All totals and means are worked out by
//! hand; those of random files are held against the reading calls.
mod common;
use common::v4::*;
use common::*;
use second::counters::{add, Count, Counters, Direction};
use second::report::*;
use second::rng::Rng;
use second::{Answer, Kind};

const G: u32 = 0xE801_0101;
const S: u32 = 0x0A00_0001;
const MAX: u64 = u64::MAX;

/// Messages and records of each kind.
type Accepted = [(u64, u64); 6];
/// Numbers, and how many messages each refused.
type Refused<'a> = &'a [(usize, u64)];

const NOTHING: Accepted = [(0, 0); 6];
const ONE_HELLO: Accepted = [(1, 0), (0, 0), (0, 0), (0, 0), (0, 0), (0, 0)];

/// Each message with its length before it.
fn file(messages: &[Vec<u8>]) -> Vec<u8> {
    messages.iter().flat_map(|m| [&(m.len() as u16).to_be_bytes()[..], m].concat()).collect()
}

fn tally(accepted: Accepted, refused: Refused) -> Tally {
    let accepted = accepted.map(|(messages, records)| Count { messages, records });
    let mut tally = Tally { accepted, ..Tally::default() };
    refused.iter().for_each(|(number, count)| tally.refused[*number] = *count);
    tally
}

fn fraction((numerator, denominator): (u64, u64)) -> Fraction {
    Fraction { numerator, denominator }
}

/// What the report of a file is.
fn reported(file: &[u8], accepted: Accepted, refused: Refused, mean: (u64, u64), whole: bool) {
    let expected = Report { tally: tally(accepted, refused), mean: fraction(mean), whole };
    assert_eq!(report(file), expected, "{} octets", file.len());
}

fn hello(options: &str) -> Vec<u8> {
    message(0x20, 0, &hex(options))
}

/// A Hello of so many octets, from 8 on: one unknown option.
fn long_hello(length: usize) -> Vec<u8> {
    let value = (length - 8) as u16;
    message(0x20, 0, &[&[0x77, 0x77][..], &value.to_be_bytes(), &vec![9; length - 8]].concat())
}

// ---- whole files

/// All octets by hand. The checksum of the Register-Stop is the complement of
/// 2D10 + 0100 + 0020 + E801 + 0101 + 0100 + 0A00 + 0001 = 2234.
#[test]
fn octets_by_hand() {
    let file = hex("001E 2501E558 00000000 01000020E8010101 01000A000001 0000006E 00000014
         001E 2501E558 00000000 01000020E8010101 01000A000001 0000006E 00000015
         0004 2000DFFF
         0000
         0012 2D10DDCB 01000020E8010101 01000A000001");
    let accepted = [(1, 0), (0, 0), (1, 1), (0, 0), (0, 0), (1, 1)];
    reported(&file, accepted, &[(3, 1), (1, 1)], (1, 1), true);
}

#[test]
fn an_empty_file_is_whole() {
    reported(&[], NOTHING, &[], (0, 1), true);
}

#[test]
fn one_octet_is_cut_in_a_length() {
    for octet in 0..=255 {
        reported(&[octet], NOTHING, &[], (0, 1), false);
    }
}

#[test]
fn a_length_below_4() {
    reported(&hex("0000"), NOTHING, &[(1, 1)], (0, 1), true);
    reported(&hex("0000 0000 0000"), NOTHING, &[(1, 3)], (0, 1), true);
    reported(&hex("0001 20"), NOTHING, &[(1, 1)], (0, 1), true);
    reported(&hex("0002 2000 0003 2000DF"), NOTHING, &[(1, 2)], (0, 1), true);
    reported(&hex("0000 0004 2000DFFF"), ONE_HELLO, &[(1, 1)], (0, 1), true);
    // At the very end it is a message too; half of it is none.
    reported(&hex("0004 2000DFFF 0000"), ONE_HELLO, &[(1, 1)], (0, 1), true);
    reported(&hex("0004 2000DFFF 00"), ONE_HELLO, &[], (0, 1), false);
}

/// The higher octet of a length stands first.
#[test]
fn lengths_are_big_endian() {
    let hello = file(&[long_hello(0x0108)]);
    assert_eq!((hello[0], hello[1], hello.len()), (1, 8, 266));
    reported(&hello, ONE_HELLO, &[], (0, 1), true);
    reported(&hex("0400 2000DFFF"), NOTHING, &[], (0, 1), false);
}

/// Two Hellos, and ten messages of the other kinds.
fn six_kinds() -> Vec<Vec<u8>> {
    let record = assert_record(G, S, 110, 20);
    let pair = pair_record(G, S);
    vec![
        hello(""),
        register_stop(&[pair_record(G, 0)]),
        plain(record.clone()),
        // Three groups.
        aggregated(&[source_aggregated(S, &[G, G + 1, G + 2])]),
        hello("0001 0002 0069 0013 0004 00000005 0028 0000"),
        simple(&[record.clone(), record.clone(), record.clone()]),
        null_register(&[pair.clone(), pair.clone()]),
        plain(assert_record(G, 0, R | 110, 20)),
        // p=0 is one record, p=1 with source 0 too, p=2 are two; and one group.
        aggregated(&[
            rp_aggregated(&[group_record(G, &[]), group_record(G, &[0]), group_record(G, &[0, S])]),
            source_aggregated(S, &[G]),
        ]),
        register_stop(&[pair.clone(), pair.clone(), pair.clone(), pair.clone()]),
        plain(record.clone()),
        simple(&[record]),
    ]
}

/// Three plain asserts; simple 3 + 1; aggregated 3 + 5; null-register 2;
/// register-stop 1 + 4.
const SIX_KINDS: Accepted = [(2, 0), (3, 3), (2, 4), (2, 8), (1, 2), (2, 5)];
/// (4 + 8 + 2 + 5) / (2 + 2 + 1 + 2).
const SIX_KINDS_MEAN: (u64, u64) = (19, 7);

#[test]
fn all_six_kinds() {
    reported(&file(&six_kinds()), SIX_KINDS, &[], SIX_KINDS_MEAN, true);
}

/// Messages with the numbers that refuse them: 1 once, 2 twice, and so on to 7;
/// 13 eight times.
fn refused() -> Vec<(usize, Vec<u8>)> {
    [refused_headers(), refused_asserts(), refused_pairs(), refused_hellos()].concat()
}

fn refused_headers() -> Vec<(usize, Vec<u8>)> {
    vec![
        (1, vec![0x20; 3]),
        (2, vec![0; 4]),
        (2, message(0x30, 0, &[])),
        (3, hex("2000 0000")),
        (3, hex("2F00 0000")),
        (3, hex("2D00 D2FE 01")),
        (4, message(0x21, 0, &[])),
        (4, message(0x2F, 1, &[7; 9])),
        (4, message(0x2D, 0x20, &pair_record(G, S))),
        (4, message(0x2D, 0xF0, &pair_record(G, S))),
    ]
}

fn refused_asserts() -> Vec<(usize, Vec<u8>)> {
    let record = assert_record(G, S, 110, 20);
    vec![
        (5, message(0x25, 1, &[1])),
        (5, message(0x25, 3, &[1, 0, 0, 0])),
        (5, simple(&[])),
        (5, aggregated(&[])),
        (6, plain(vec![])),
        (6, plain([&record[..], &[0]].concat())),
        (6, message(0x25, 1, &[0, 0, 0])),
        (6, aggregated(&[rp_aggregated(&[])])),
        (7, plain(assert_record(S, S, 110, 20))),
        (7, plain(assert_record(G, 0, 110, 20))),
        (7, simple(&[record, assert_record(0xF000_0000, S, 110, 20)])),
        (7, aggregated(&[source_aggregated(0, &[G])])),
        (7, aggregated(&[rp_aggregated(&[group_record(G, &[]), group_record(0xDFFF_FFFF, &[])])])),
    ]
}

fn refused_pairs() -> Vec<(usize, Vec<u8>)> {
    let pair = pair_record(G, S);
    let mut narrow = pair.clone();
    narrow[3] = 24;
    vec![
        (5, register_stop(&[])),
        (6, null_register(&[pair[..13].to_vec()])),
        (7, null_register(&[pair, pair_record(G, 0)])),
        (7, register_stop(&[narrow])),
    ]
}

fn refused_hellos() -> Vec<(usize, Vec<u8>)> {
    vec![
        (6, hello("0001 00")),
        (13, hello("0001 0003 006969")),
        (13, hello("0001 0000")),
        (13, hello("0013 0002 0005")),
        (13, hello("0028 0001 00")),
        (13, hello("0001 0002 0069 0001 0002 0069")),
        (13, hello("0013 0004 00000005 0014 0000 0013 0004 00000005")),
        (13, hello("0028 0000 0028 0000")),
        // Refused before its value, which is cut.
        (13, hello("0001 0004 00")),
    ]
}

const REFUSED: Refused = &[(1, 1), (2, 2), (3, 3), (4, 4), (5, 5), (6, 6), (7, 7), (13, 8)];

#[test]
fn every_number_that_refuses_a_message() {
    for (number, m) in refused() {
        reported(&file(&[m]), NOTHING, &[(number, 1)], (0, 1), true);
    }
    let messages: Vec<Vec<u8>> = refused().into_iter().map(|(_, m)| m).collect();
    reported(&file(&messages), NOTHING, REFUSED, (0, 1), true);
    let with_good = [six_kinds(), messages].concat();
    reported(&file(&with_good), SIX_KINDS, REFUSED, SIX_KINDS_MEAN, true);
}

/// Messages with sources that are none, and sources beside them: of each kind
/// one is accepted, with 1, 2, 2, 1 and 2 records, and seven are refused.
fn with_edge_sources() -> Vec<Vec<u8>> {
    let record = |source| assert_record(G, source, 110, 20);
    let rp = |sources: &[u32]| aggregated(&[rp_aggregated(&[group_record(G, sources)])]);
    let pair = |source| pair_record(G, source);
    vec![
        plain(record(0xE000_0000)),
        plain(assert_record(G, 0xFFFF_FFFF, R | 110, 20)),
        plain(record(0xDFFF_FFFF)),
        simple(&[record(S), record(0xEFFF_FFFF)]),
        simple(&[record(0xF000_0001), record(0xFFFF_FFFE)]),
        aggregated(&[source_aggregated(0xE000_0001, &[G, G + 1])]),
        rp(&[S, 0, 0xE000_0000]),
        rp(&[0, 0xF000_0000]),
        null_register(&[pair(S), pair(0xFFFF_FFFF)]),
        null_register(&[pair(0xDFFF_FFFF)]),
        register_stop(&[pair(0xE801_0101), pair(0)]),
        register_stop(&[pair(0), pair(0xF000_0001)]),
    ]
}

const WITH_EDGE_SOURCES: Accepted = [(0, 0), (1, 1), (1, 2), (1, 2), (1, 1), (1, 2)];

/// The mean is that of 2 + 2 + 1 + 2 records in 4 messages.
#[test]
fn sources_that_are_none() {
    reported(&file(&with_edge_sources()), WITH_EDGE_SOURCES, &[(7, 7)], (7, 4), true);
    let again = [with_edge_sources(), vec![hello("")], with_edge_sources()].concat();
    let twice = [(1, 0), (2, 2), (2, 4), (2, 4), (2, 2), (2, 4)];
    reported(&file(&again), twice, &[(7, 14)], (7, 4), true);
}

/// Counters count the messages that are read, with the entries they unpack to.
#[test]
fn counters_of_messages_read() {
    let mut counters = Counters::default();
    for m in with_edge_sources() {
        if let Ok((kind, records)) = by_reading_call(&m, &mut [0; 64]) {
            assert_eq!(add(&mut counters, Direction::Received, kind.number(), records as u64), Ok(()));
        }
    }
    assert_eq!(counters.received, tally(WITH_EDGE_SOURCES, &[]).accepted);
    assert_eq!(counters.sent, Counters::default().sent);
}

/// 8 + 12 + 12 + 6 * 10,913 = 65,510; 8 + 18 + 8 * 8,186 = 65,514; 4 + 14 *
/// 4,679 = 65,510. There is always room. The mean is that of 10,913 + 8,186 +
/// 4,679 + 4,679 = 28,457 records in 4 messages.
#[test]
fn the_fullest_messages_are_never_refused_by_8() {
    let sources: Vec<u32> = (0..10_913).collect();
    let groups: Vec<u32> = (G..G + 8_186).collect();
    let pairs = vec![pair_record(G, S); 4_679];
    let messages = [
        aggregated(&[rp_aggregated(&[group_record(G, &sources)])]),
        aggregated(&[source_aggregated(S, &groups)]),
        null_register(&pairs),
        register_stop(&pairs),
    ];
    assert_eq!(messages.each_ref().map(|m| m.len()), [65_510, 65_514, 65_510, 65_510]);
    let accepted = [(0, 0), (0, 0), (0, 0), (2, 19_099), (1, 4_679), (1, 4_679)];
    reported(&file(&messages), accepted, &[], (28_457, 4), true);
}

#[test]
fn the_longest_lengths() {
    let two_hellos = [(2, 0), (0, 0), (0, 0), (0, 0), (0, 0), (0, 0)];
    reported(&file(&[long_hello(65_515), hello("")]), two_hellos, &[], (0, 1), true);
    for length in 65_516..=65_535 {
        let mut octets = file(&[long_hello(length), hello("")]);
        reported(&octets, ONE_HELLO, &[(1, 1)], (0, 1), true);
        octets.truncate(2 + length);
        reported(&octets, NOTHING, &[(1, 1)], (0, 1), true);
        octets.pop();
        reported(&octets, NOTHING, &[], (0, 1), false);
    }
}

// ---- files cut, in pieces and one after another

/// Messages of 4, 0, 30, 4 and 32 octets.
fn small() -> Vec<Vec<u8>> {
    let pair = pair_record(G, S);
    vec![
        hello(""),
        vec![],
        simple(&[assert_record(G, S, 110, 20)]),
        hex("2000 0000"),
        null_register(&[pair.clone(), pair]),
    ]
}

/// Where a message ends, and the totals and the mean of those before.
type Border = (usize, Accepted, Refused<'static>, (u64, u64));

/// The last border that so many octets reach.
fn border(length: usize) -> Border {
    let accepted = |hellos, simple, null_register| [hellos, (0, 0), simple, (0, 0), null_register, (0, 0)];
    let borders: [Border; 6] = [
        (0, NOTHING, &[], (0, 1)),
        (6, accepted((1, 0), (0, 0), (0, 0)), &[], (0, 1)),
        (8, accepted((1, 0), (0, 0), (0, 0)), &[(1, 1)], (0, 1)),
        (40, accepted((1, 0), (1, 1), (0, 0)), &[(1, 1)], (1, 1)),
        (46, accepted((1, 0), (1, 1), (0, 0)), &[(1, 1), (3, 1)], (1, 1)),
        (80, accepted((1, 0), (1, 1), (1, 2)), &[(1, 1), (3, 1)], (3, 2)),
    ];
    borders.into_iter().rfind(|(end, ..)| *end <= length).unwrap()
}

#[test]
fn cut_at_every_octet() {
    let file = file(&small());
    assert_eq!(file.len(), 80);
    for length in 0..=80 {
        let octets = &file[..length];
        let (end, accepted, refused, mean) = border(length);
        reported(octets, accepted, refused, mean, end == length);
        let mut counted = Tally::default();
        assert_eq!(add_octets(&mut counted, octets), end);
        assert_eq!(counted, tally(accepted, refused));
    }
}

/// What is left of a piece stands before the next. The tally, and what is left
/// at the end.
fn in_pieces(file: &[u8], size: usize) -> (Tally, Vec<u8>) {
    let mut tally = Tally::default();
    let mut left = Vec::new();
    for piece in file.chunks(size) {
        left.extend_from_slice(piece);
        let used = add_octets(&mut tally, &left);
        left.drain(..used);
        // No more than a length and all but one octet of the longest message.
        assert!(left.len() <= 65_536);
    }
    (tally, left)
}

#[test]
fn in_pieces_of_any_size() {
    let whole = file(&six_kinds());
    for size in [1, 2, 3, 7, 16, 64, 100, whole.len()] {
        assert_eq!(in_pieces(&whole, size), (tally(SIX_KINDS, &[]), vec![]));
        for length in 0..=80 {
            let cut = &file(&small())[..length];
            let (end, accepted, refused, _) = border(length);
            assert_eq!(in_pieces(cut, size), (tally(accepted, refused), cut[end..].to_vec()));
        }
    }
    let long = file(&[long_hello(65_535), hello("")]);
    for size in [1, 4_096, 65_536] {
        assert_eq!(in_pieces(&long, size), (tally(ONE_HELLO, &[(1, 1)]), vec![]));
    }
}

#[test]
fn one_message_at_a_time() {
    let mut counted = Tally::default();
    six_kinds().iter().for_each(|m| add_message(&mut counted, m));
    refused().iter().for_each(|(_, m)| add_message(&mut counted, m));
    assert_eq!(counted, tally(SIX_KINDS, REFUSED));
    // Longer than a length can say.
    for length in [65_536, 100_000] {
        add_message(&mut counted, &vec![0x20; length]);
    }
    assert_eq!(counted.refused[1], 3);
}

#[test]
fn two_files_give_the_sums() {
    let (first, second) = (file(&six_kinds()), file(&small()));
    // The six kinds, and the last line of the borders.
    let accepted = [(3, 0), (3, 3), (3, 5), (2, 8), (2, 4), (2, 5)];
    let refused = &[(1, 1), (3, 1)];
    let mut counted = Tally::default();
    assert_eq!(add_octets(&mut counted, &first), first.len());
    assert_eq!(add_octets(&mut counted, &second), 80);
    assert_eq!(counted, tally(accepted, refused));
    // 19 + 3 records in 7 + 2 messages.
    assert_eq!(mean(&counted), fraction((22, 9)));
    reported(&[&first[..], &second].concat(), accepted, refused, (22, 9), true);
}

// ---- the mean, and numbers at their maximum

/// Messages and records of the four kinds that are packed.
type Packed = [(u64, u64); 4];

#[test]
fn means() {
    let table: [(Packed, (u64, u64)); 14] = [
        ([(0, 0), (0, 0), (0, 0), (0, 0)], (0, 1)),
        // Records without a message: there is still no message.
        ([(0, 7), (0, 0), (0, MAX), (0, 1)], (0, 1)),
        ([(5, 0), (0, 0), (0, 0), (1, 0)], (0, 1)),
        ([(1, 1), (0, 0), (0, 0), (0, 0)], (1, 1)),
        ([(0, 0), (3, 6), (0, 0), (0, 0)], (2, 1)),
        ([(0, 0), (0, 0), (4, 6), (0, 0)], (3, 2)),
        ([(0, 0), (0, 0), (0, 0), (9, 6)], (2, 3)),
        // 48 / 36, and 1 + 2 + 3 + 4 over 5 + 6 + 7 + 7.
        ([(12, 20), (12, 4), (6, 20), (6, 4)], (4, 3)),
        ([(5, 1), (6, 2), (7, 3), (7, 4)], (2, 5)),
        // The maximum, 18,446,744,073,709,551,615, is odd, and a multiple of 15.
        ([(2, MAX), (0, 0), (0, 0), (0, 0)], (MAX, 2)),
        ([(1, MAX), (1, 5), (1, MAX), (0, 0)], (6_148_914_691_236_517_205, 1)),
        ([(MAX, 1), (1, 1), (MAX, 1), (MAX, 2)], (1, 3_689_348_814_741_910_323)),
        ([(MAX, MAX), (MAX, MAX), (MAX, MAX), (MAX, MAX)], (1, 1)),
        // Neighbours have no divisor in common.
        ([(MAX - 3, MAX), (0, 0), (0, 0), (2, 1)], (MAX, MAX - 1)),
    ];
    for ([simple, aggregated, null_register, register_stop], expected) in table {
        // Hellos and plain asserts are not packed.
        for other in [(0, 0), (1, 0), (1, 1), (7, 100), (MAX, MAX)] {
            let accepted = [other, other, simple, aggregated, null_register, register_stop];
            assert_eq!(mean(&tally(accepted, &[(1, 3), (7, MAX)])), fraction(expected), "{accepted:?}");
        }
    }
}

#[test]
fn numbers_stay_at_their_maximum() {
    let before = [(MAX, MAX), (MAX - 1, MAX), (MAX, MAX - 2), (MAX - 5, MAX - 6), (MAX - 2, 0), (0, MAX)];
    let numbers = [0, 1, 2, 3, 4, 5, 6, 7, 8, 9, 10, 11, 12, 13, 14];
    let mut counted = tally(before, &numbers.map(|number| (number, MAX - 4)));
    add_octets(&mut counted, &file(&six_kinds()));
    refused().iter().for_each(|(_, m)| add_message(&mut counted, m));
    // Hello 2; assert 3 and 3; simple 2 and 4; aggregated 2 and 8;
    // null-register 1 and 2; register-stop 2 and 5.
    let after = [(MAX, MAX), (MAX, MAX), (MAX, MAX), (MAX - 3, MAX), (MAX - 1, 2), (2, MAX)];
    // Numbers that refuse no message stay as they were.
    let refused = numbers.map(|number| match number {
        1 => (1, MAX - 3),
        2 => (2, MAX - 2),
        3 => (3, MAX - 1),
        4..=7 | 13 => (number, MAX),
        _ => (number, MAX - 4),
    });
    assert_eq!(counted, tally(after, &refused));
}

// ---- random files

/// What the reading call of its kind says of a message, with room for the
/// entries of any.
fn by_reading_call(m: &[u8], room: &mut [u8]) -> Answer<(Kind, usize)> {
    match header(m)? {
        Kind::Hello => read_hello(m).map(|_| (Kind::Hello, 0)),
        Kind::Assert | Kind::Simple | Kind::Aggregated => read_asserts(m, room),
        Kind::NullRegister | Kind::RegisterStop => read_pairs(m, room),
    }
}

/// The totals of messages, each read by itself.
fn by_reading_calls(messages: &[Vec<u8>]) -> Tally {
    let mut room = vec![0; 16 * 10_913];
    let mut tally = Tally::default();
    for m in messages {
        match by_reading_call(m, &mut room) {
            Ok((kind, records)) => {
                tally.accepted[usize::from(kind.number())].messages += 1;
                tally.accepted[usize::from(kind.number())].records += records as u64;
            }
            Err(refusal) => tally.refused[usize::from(refusal.number)] += 1,
        }
    }
    tally
}

fn random_good(rng: &mut Rng) -> Vec<u8> {
    let (count, limit) = (1 + rng.below(30), 38 + rng.below(600));
    let mut buffer = vec![0; limit];
    let packed = |form: Form, list: &[u8], buffer: &mut [u8]| (form.pack)(list, 0, limit, buffer).unwrap().0;
    let length = match rng.below(6) {
        0 => write_hello(random_hello(rng), &mut buffer).unwrap(),
        1 => packed(ASSERT, &random_entries(rng, count), &mut buffer),
        2 => packed(SIMPLE, &random_entries(rng, count), &mut buffer),
        3 => packed(AGGREGATED, &random_entries(rng, count), &mut buffer),
        4 => packed(NULL_REGISTER, &random_pairs(rng, count, 1), &mut buffer),
        _ => packed(REGISTER_STOP, &random_pairs(rng, count, 0), &mut buffer),
    };
    buffer.truncate(length);
    buffer
}

/// A good message, one cut or changed, or any octets.
fn random_message(rng: &mut Rng) -> Vec<u8> {
    let mut m = random_good(rng);
    match rng.below(4) {
        0 => return m,
        1 => m.truncate(rng.below(m.len() + 1)),
        2 => {
            let at = rng.below(m.len());
            m[at] = rng.next_u32() as u8;
        }
        _ => {
            m.truncate(rng.below(12));
            rng.fill(&mut m);
        }
    }
    if m.len() >= 4 && !rng.one_in(4) {
        seal(&mut m);
    }
    m
}

/// The mean of small sums: nothing divides both of its numbers, and it is the
/// sums' fraction. The divisors are all tried.
fn is_mean_of(mean: Fraction, tally: &Tally) -> bool {
    let Fraction { numerator, denominator } = mean;
    let divides = |divisor: u64| numerator % divisor == 0 && denominator % divisor == 0;
    let messages: u64 = tally.accepted[2..].iter().map(|count| count.messages).sum();
    let records: u64 = tally.accepted[2..].iter().map(|count| count.records).sum();
    if messages == 0 {
        return mean == fraction((0, 1));
    }
    denominator > 0 && !(2..=denominator).any(divides) && numerator * messages == records * denominator
}

#[test]
fn random_files() {
    let mut rng = Rng::new(82);
    let mut all = Tally::default();
    for _ in 0..3_000 {
        let messages: Vec<Vec<u8>> = (0..rng.below(20)).map(|_| random_message(&mut rng)).collect();
        let file = file(&messages);
        let Report { tally, mean, whole } = report(&file);
        assert_eq!((tally, whole), (by_reading_calls(&messages), true));
        let accepted: u64 = tally.accepted.iter().map(|count| count.messages).sum();
        assert_eq!(accepted + tally.refused.iter().sum::<u64>(), messages.len() as u64);
        assert!(is_mean_of(mean, &tally), "{mean:?} of {tally:?}");
        assert_eq!(in_pieces(&file, 1 + rng.below(500)), (tally, vec![]));
        add_octets(&mut all, &file);
    }
    // Every kind came, and every number that refuses a message; no other.
    assert!(all.accepted.iter().all(|count| count.messages > 100));
    for (number, count) in all.refused.into_iter().enumerate() {
        assert_eq!(count > 0, matches!(number, 1..=7 | 13), "{number}: {count}");
    }
}

/// Any octets are a file. Many of these are 0 or small, so that lengths are.
#[test]
fn random_octets() {
    let mut rng = Rng::new(83);
    let mut ends = [0; 3];
    for _ in 0..100_000 {
        let octet = |rng: &mut Rng| [0, 0, 0, rng.below(9) as u8, rng.next_u32() as u8][rng.below(5)];
        let octets: Vec<u8> = (0..rng.below(60)).map(|_| octet(&mut rng)).collect();
        let mut counted = Tally::default();
        let used = add_octets(&mut counted, &octets);
        let whole = Report { tally: counted, mean: mean(&counted), whole: true };
        assert_eq!(report(&octets[..used]), whole);
        assert_eq!(report(&octets), Report { whole: used == octets.len(), ..whole });
        for number in [0, 8, 9, 10, 11, 12, 14] {
            assert_eq!(counted.refused[number], 0);
        }
        // Nothing is left, one octet of a length, or a message that is cut.
        let left = &octets[used..];
        ends[left.len().min(2)] += 1;
        if let [high, low, message @ ..] = left {
            assert!(message.len() < usize::from(*high) * 256 + usize::from(*low));
        }
    }
    assert!(ends.iter().all(|count| *count > 1_000), "{ends:?}");
}
