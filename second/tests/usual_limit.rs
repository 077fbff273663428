//! Limit 0 is read as 556, in all packing calls and in the choice. What is
//! expected is worked out from the sizes of the rule book.
mod common;
use common::v4::*;
use common::*;
use second::Answer;

const G: u32 = 0xE801_0101;
const S: u32 = 0x0A00_0001;

/// A call, a list that it cannot take whole, and its first message within 556
/// octets.
struct Case {
    form: Form,
    list: Vec<u8>,
    message: Vec<u8>,
    length: usize,
    taken: usize,
}

/// The fields of so many groups, one after another.
fn each_group(count: u32, field: fn(u32) -> Vec<u8>) -> Vec<u8> {
    (0..count).flat_map(|i| field(G + i)).collect()
}

fn pairs(count: u32) -> Vec<u8> {
    each_group(count, |group| pair(group, S))
}

fn assert_cases() -> [Case; 3] {
    let record = |group| assert_record(group, S, 110, 20);
    let list = same_source(67);
    // 4 + 22 = 26: always one entry.
    let plain = message(0x25, 0, &record(G));
    let plain = Case { form: ASSERT, list: list.clone(), message: plain, length: 26, taken: 1 };
    // 8 + 22 * 24 = 536; a 25th record makes 558.
    let simple = message(0x25, 1, &[vec![0; 4], each_group(24, record)].concat());
    let simple = Case { form: SIMPLE, list: list.clone(), message: simple, length: 536, taken: 24 };
    // 8 + 18 + 8 * 66 = 554; a 67th group makes 562.
    let head = [vec![0; 4], words(&[110, 20]), encoded_source(S), vec![0, 66, 0, 0]].concat();
    let aggregated = message(0x25, 3, &[head, each_group(66, encoded_group)].concat());
    let aggregated = Case { form: AGGREGATED, list, message: aggregated, length: 554, taken: 66 };
    [plain, simple, aggregated]
}

fn pair_cases() -> [Case; 2] {
    // 4 + 14 * 39 = 550; a 40th pair makes 564.
    let records = each_group(39, |group| pair_record(group, S));
    [(NULL_REGISTER, 0x00), (REGISTER_STOP, 0x10)].map(|(form, second)| {
        let message = message(0x2D, second, &records);
        Case { form, list: pairs(100), message, length: 550, taken: 39 }
    })
}

fn cases() -> impl Iterator<Item = Case> {
    assert_cases().into_iter().chain(pair_cases())
}

#[test]
fn first_message_of_each_call() {
    for Case { form, list, message, length, taken } in cases() {
        assert_eq!(message.len(), length);
        for limit in [0, 556] {
            let mut buffer = [0x77; 600];
            assert_eq!((form.pack)(&list, 0, limit, &mut buffer), Ok((length, taken)));
            assert_eq!(buffer[..length], message);
            assert!(buffer[length..].iter().all(|octet| *octet == 0x77));
        }
    }
}

/// The lengths of the messages of calls at limit 0, to the list's end.
fn lengths(form: Form, list: &[u8]) -> Vec<usize> {
    let (mut start, mut lengths) = (0, Vec::new());
    loop {
        let (length, taken) = (form.pack)(list, start, 0, &mut [0; 556]).unwrap();
        if length == 0 {
            return lengths;
        }
        start += taken;
        lengths.push(length);
    }
}

#[test]
fn whole_trains() {
    // A message for each of the 67.
    assert_eq!(lengths(ASSERT, &same_source(67)), [26; 67]);
    // 24 + 24 + 19 entries; 8 + 22 * 19 = 426.
    assert_eq!(lengths(SIMPLE, &same_source(67)), [536, 536, 426]);
    // 66 + 66 + 66 + 2 entries; 8 + 18 + 8 * 2 = 42.
    assert_eq!(lengths(AGGREGATED, &same_source(200)), [554, 554, 554, 42]);
    // 39 + 39 + 22 pairs; 4 + 14 * 22 = 312.
    assert_eq!(lengths(NULL_REGISTER, &pairs(100)), [550, 550, 312]);
    assert_eq!(lengths(REGISTER_STOP, &pairs(100)), [550, 550, 312]);
}

#[test]
fn room_for_556() {
    for Case { form, list, length, taken, .. } in cases() {
        let end = list.len() / form.size;
        let calls = [
            (&list[..], 0, Ok((length, taken))),
            (&list[..], end, Ok((0, 0))),
            (&list[..], end + 1, refusal(10, 0)),
            (&list[1..], 0, refusal(10, 0)),
            (&[0; 60][..], 0, refusal(7, 0)),
        ];
        for (list, start, answer) in calls {
            // One octet less is refused first, with nothing written.
            let mut small = [0x77; 555];
            assert_eq!((form.pack)(list, start, 0, &mut small), refusal(8, 0));
            assert_eq!(small, [0x77; 555]);
            assert_eq!((form.pack)(list, start, 0, &mut [0x77; 556]), answer);
        }
    }
}

/// A source record of one group and an RP record of one group and 83 sources:
/// 8 + (18 + 8) + (12 + 12 + 6 * 83) = 556. The 84th source is left.
#[test]
fn message_of_556_octets() {
    let rp: Vec<u8> = (1..=84).flat_map(|source| entry(G, source, R | 110, 20)).collect();
    let list = [entry(G, S, 110, 20), rp].concat();
    let packed = |limit| pack_aggregated(&list, 0, limit, &mut [0; 557]);
    assert_eq!(packed(0), Ok((556, 84)));
    assert_eq!(packed(556), Ok((556, 84)));
    assert_eq!(packed(557), Ok((556, 84)));
    // Without the 83rd source: 556 - 6.
    assert_eq!(packed(555), Ok((550, 83)));
}

/// The choice's answer, and both buffers after it.
fn both(
    list: &[u8],
    start: usize,
    limit: usize,
    rooms: [usize; 2],
) -> (Answer<(bool, usize, usize)>, [Vec<u8>; 2]) {
    let [mut simple, mut aggregated] = rooms.map(|room| vec![0x77; room]);
    let answer = pack_both(list, start, limit, &mut simple, &mut aggregated);
    (answer, [simple, aggregated])
}

#[test]
fn choice_writes_both() {
    let [_, simple, aggregated] = assert_cases();
    // 66 entries are more than 24.
    let (answer, buffers) = both(&simple.list, 0, 0, [556, 556]);
    assert_eq!(answer, Ok((true, 554, 66)));
    assert_eq!(buffers[0], [simple.message, vec![0x77; 20]].concat());
    assert_eq!(buffers[1], [aggregated.message, vec![0x77; 2]].concat());
    assert_eq!((answer, buffers), both(&simple.list, 0, 556, [556, 556]));
    // Sources that do not join: 8 + 26 * 21 = 554, and 24 entries are more than 21.
    let lone: Vec<u8> = (0..67).flat_map(|i| entry(G, S + i, 110, 20)).collect();
    assert_eq!(pack_aggregated(&lone, 0, 0, &mut [0; 556]), Ok((554, 21)));
    let (answer, buffers) = both(&lone, 0, 0, [556, 556]);
    assert_eq!(answer, Ok((false, 536, 24)));
    assert_eq!((answer, buffers), both(&lone, 0, 556, [556, 556]));
}

#[test]
fn choice_needs_room_for_556_twice() {
    let list = same_source(67);
    for rooms in [[555, 556], [556, 555], [555, 555], [555, 1480], [1480, 555]] {
        for start in [0, 67, 68] {
            let (answer, buffers) = both(&list, start, 0, rooms);
            assert_eq!(answer, refusal(8, 0), "{rooms:?}");
            assert_eq!(buffers, rooms.map(|room| vec![0x77; room]));
        }
    }
    let unwritten = [vec![0x77; 556], vec![0x77; 556]];
    assert_eq!(both(&list, 67, 0, [556, 556]), (Ok((false, 0, 0)), unwritten.clone()));
    assert_eq!(both(&list, 68, 0, [556, 556]), (refusal(10, 0), unwritten));
}
