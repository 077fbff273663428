//! Demand 3: the train of aggregated packing calls against all trains.
mod common;
use common::v4::*;
use common::*;
use second::rng::Rng;

/// Packs a list to its end, the limits passed by turns, and hands each message
/// on.
fn pack_all(list: &[u8], limits: &[usize], buffer: &mut [u8], mut each: impl FnMut(&[u8])) {
    let mut start = 0;
    for limit in limits.iter().cycle() {
        if ASSERT_ENTRY * start >= list.len() {
            break;
        }
        let (length, taken) = pack_aggregated(list, start, *limit, buffer).unwrap();
        assert!(taken > 0);
        each(&buffer[..length]);
        start += taken;
    }
}

fn messages(list: &[u8], limit: usize, buffer: &mut [u8]) -> usize {
    let mut messages = 0;
    pack_all(list, &[limit], buffer, |_| messages += 1);
    messages
}

/// Over all limits given: as few as any train, and no more for a larger one.
fn compare(list: &[u8], limits: impl Iterator<Item = usize>, buffer: &mut [u8]) {
    let mut before = usize::MAX;
    for limit in limits {
        let count = messages(list, limit, buffer);
        assert_eq!(Some(count), least_messages(list, limit), "{list:?} at {limit}");
        assert!(count <= before);
        before = count;
    }
}

/// All lists of a length over an alphabet.
fn all_lists(alphabet: &[Vec<u8>], length: u32, mut each: impl FnMut(&[u8])) {
    for number in 0..alphabet.len().pow(length) {
        let mut rest = number;
        let mut list = Vec::new();
        for _ in 0..length {
            list.extend_from_slice(&alphabet[rest % alphabet.len()]);
            rest /= alphabet.len();
        }
        each(&list);
    }
}

fn alphabet() -> Vec<Vec<u8>> {
    let (g, h) = (0xE801_0101, 0xE801_0102);
    vec![
        entry(g, 0, R | 1, 1),
        entry(g, 7, R | 1, 1),
        entry(h, 0, R | 1, 1),
        entry(g, 7, 1, 1),
        entry(h, 7, 1, 1),
        entry(g, 8, 1, 1),
        entry(g, 0, R | 1, 2),
        entry(h, 7, R | 1, 1),
    ]
}

/// Entries whose sources stand beside those that are not allowed.
fn edge_alphabet() -> Vec<Vec<u8>> {
    let g = 0xE801_0101;
    let mut alphabet: Vec<Vec<u8>> = [0xDFFF_FFFF, 0xF000_0000].map(|source| entry(g, source, 1, 1)).to_vec();
    alphabet.extend([0xDFFF_FFFF, 0xF000_0001, 0xFFFF_FFFE].map(|source| entry(g, source, R | 1, 1)));
    alphabet
}

#[test]
fn all_lists_of_edge_sources() {
    let mut buffer = [0; 300];
    for length in 0..=4 {
        all_lists(&edge_alphabet(), length, |list| compare(list, 38..=150, &mut buffer));
    }
}

#[test]
fn all_lists_up_to_four() {
    let mut buffer = [0; 300];
    for length in 0..=4 {
        all_lists(&alphabet(), length, |list| compare(list, 38..=150, &mut buffer));
    }
}

#[test]
fn all_lists_of_five() {
    let mut buffer = [0; 300];
    all_lists(&alphabet()[..5], 5, |list| compare(list, 38..=150, &mut buffer));
}

#[test]
fn all_lists_of_six() {
    let mut buffer = [0; 300];
    all_lists(&alphabet()[..3], 6, |list| compare(list, 38..=110, &mut buffer));
}

#[test]
fn random_lists_of_six() {
    let mut rng = Rng::new(3);
    let mut buffer = [0; 300];
    for _ in 0..1500 {
        let list = random_entries(&mut rng, 6);
        compare(&list, (38..=200).step_by(3), &mut buffer);
    }
}

#[test]
fn larger_limits_write_no_more() {
    let mut rng = Rng::new(33);
    let mut buffer = [0; 1480];
    for _ in 0..60 {
        let list = random_entries(&mut rng, 60);
        let mut before = usize::MAX;
        for limit in 38..=1480 {
            let count = messages(&list, limit, &mut buffer);
            assert!(count <= before);
            before = count;
        }
    }
}

/// The messages of a list, the limits passed by turns.
fn train(list: &[u8], limits: &[usize]) -> Vec<Vec<u8>> {
    let mut train = Vec::new();
    pack_all(list, limits, &mut [0; 556], |message| train.push(message.to_vec()));
    train
}

fn unpacked(train: &[Vec<u8>]) -> Vec<u8> {
    let mut list = Vec::new();
    for message in train {
        let mut entries = [0; ASSERT_ENTRY * 100];
        let (_, count) = read_asserts(message, &mut entries).unwrap();
        list.extend_from_slice(&entries[..ASSERT_ENTRY * count]);
    }
    list
}

/// Limit 0 is 556 before demand 3 asks for the same limit, so calls that pass
/// either are one train.
#[test]
fn limits_0_and_556_by_turns() {
    let mut rng = Rng::new(556);
    for count in 0..300 {
        let list = random_entries(&mut rng, count);
        let open = train(&list, &[556]);
        assert!(open.iter().all(|message| message.len() <= 556));
        assert_eq!(unpacked(&open), list);
        for limits in [&[0][..], &[0, 556], &[556, 0]] {
            assert_eq!(train(&list, limits), open, "{limits:?}");
        }
    }
}

#[test]
fn limit_0_between_its_neighbours() {
    let mut rng = Rng::new(557);
    let mut buffer = [0; 557];
    let mut counts = |list: &[u8]| [555, 0, 557].map(|limit| messages(list, limit, &mut buffer));
    for count in 0..300 {
        assert!(counts(&random_entries(&mut rng, count)).is_sorted_by(|a, b| a >= b));
    }
    // A group of one source and 83 sources of another group take
    // 8 + (18 + 8) + (12 + 12 + 6 * 83) = 556 octets: one message, but two at 555.
    let rp: Vec<u8> = (1..=83).flat_map(|source| entry(0xE801_0102, source, R, 1)).collect();
    assert_eq!(counts(&[entry(0xE801_0101, 7, 1, 1), rp].concat()), [2, 1, 1]);
    // 66 groups of one source fill a message, since 8 + 18 + 8 * 66 = 554; 200 = 3 * 66 + 2.
    assert_eq!(counts(&same_source(200)), [4, 4, 4]);
}

#[test]
fn what_is_tried() {
    assert_eq!(least_messages(&[], 38), Some(0));
    assert_eq!(least_messages(&entry(0xE000_0001, 7, R, 1), 37), None);
    assert_eq!(least_messages(&entry(0xE000_0001, 0, R, 1), 32), Some(1));
    assert_eq!(least_messages(&[0; 19], 38), None);
    assert_eq!(least_messages(&entry(0xE000_0001, 7, R, 1).repeat(7), 38), None);
}
