//! Trains of messages in IPv6: read back, against a plain construction, and the
//! aggregated ones against all trains of short lists.
mod common;
use common::{refusal, v6, Form, R};
use second::rng::Rng;
use second::{pack, Family, Kind, Path};

const ENTRY: usize = v6::ASSERT_ENTRY;
const PAIR: usize = v6::PAIR_ENTRY;

const FORMS: [Form; 5] = [
    Form { kind: Kind::Assert, size: ENTRY, pack: v6::pack_assert, read: v6::read_asserts },
    Form { kind: Kind::Simple, size: ENTRY, pack: v6::pack_simple, read: v6::read_asserts },
    AGGREGATED,
    Form { kind: Kind::NullRegister, size: PAIR, pack: v6::pack_null_register, read: v6::read_pairs },
    Form { kind: Kind::RegisterStop, size: PAIR, pack: v6::pack_register_stop, read: v6::read_pairs },
];
const AGGREGATED: Form =
    Form { kind: Kind::Aggregated, size: ENTRY, pack: v6::pack_aggregated, read: v6::read_asserts };

/// The limits that are told apart by 62 and 68, by a run that just fits, and by
/// those of common links.
const LIMITS: [usize; 8] = [62, 68, 97, 98, 576, 1_280, 1_480, 65_515];

/// Packs the whole list and reads it back; the lengths of the messages.
fn train(form: &Form, list: &[u8], limit: usize) -> Vec<usize> {
    let count = list.len() / form.size;
    let room = if limit == 0 { 556 } else { limit };
    let mut buffer = vec![0; room + 2];
    let mut back = vec![0x99; list.len() + 1];
    let (mut start, mut lengths) = (0, Vec::new());
    while start < count {
        buffer.fill(0xC3);
        assert_eq!((form.pack)(list, start, limit, &mut buffer[..room - 1]), refusal(8, 0));
        let (length, taken) = (form.pack)(list, start, limit, &mut buffer).unwrap();
        assert!(taken > 0 && length <= room);
        assert!(buffer[length..].iter().all(|octet| *octet == 0xC3));
        let entries = &mut back[form.size * start..];
        assert_eq!((form.read)(&buffer[..length], entries), Ok((form.kind, taken)));
        start += taken;
        lengths.push(length);
        assert_eq!(back[form.size * start], 0x99);
    }
    assert_eq!(back[..list.len()], *list);
    assert_eq!((form.pack)(list, count, limit, &mut buffer), Ok((0, 0)));
    lengths
}

fn list_for(form: &Form, rng: &mut Rng, count: usize) -> Vec<u8> {
    match form.kind {
        Kind::NullRegister => v6::random_pairs(rng, count, 1),
        Kind::RegisterStop => v6::random_pairs(rng, count, 0),
        _ => v6::random_entries(rng, count),
    }
}

#[test]
fn mixed_entries() {
    let mut rng = Rng::new(7);
    for (form, limit) in FORMS.iter().flat_map(|form| LIMITS.map(|limit| (form, limit))) {
        for count in [0, 1, 2, 3, 30, 300] {
            let list = list_for(form, &mut rng, count);
            train(form, &list, limit);
        }
    }
    for limit in [0, 1_280, 65_515] {
        let list = v6::random_entries(&mut rng, 8_192);
        train(&AGGREGATED, &list, limit);
    }
}

#[test]
fn every_limit() {
    let mut rng = Rng::new(8);
    for limit in 62..=260 {
        for form in &FORMS {
            for _ in 0..10 {
                let count = rng.below(20);
                let list = list_for(form, &mut rng, count);
                train(form, &list, limit);
            }
        }
    }
}

/// 4 + 46; 8 + 46n; 8 + 30 + 20n; 8 + 12 + 24 + 18n; 4 + 38n.
#[test]
fn greatest_messages() {
    let group = |i: u32| 0xFF3E << 112 | u128::from(i);
    let lists: [(usize, Vec<u8>, usize, usize); 5] = [
        (1, (0..1500).flat_map(|i| v6::entry(group(i), 1, 1, 1)).collect(), 8 + 46 * 1424, 1424),
        (2, (0..3300).flat_map(|i| v6::entry(group(i), 1, 1, 1)).collect(), 38 + 20 * 3273, 3273),
        (2, (0..3700).flat_map(|i| v6::entry(group(1), i, R, 1)).collect(), 44 + 18 * 3637, 3637),
        (2, (0..2800).flat_map(|i| v6::entry(group(i), 0, R, 1)).collect(), 20 + 24 * 2728, 2728),
        (3, (0..1800).flat_map(|i| v6::pair(group(i), 1)).collect(), 4 + 38 * 1723, 1723),
    ];
    let mut buffer = vec![0; 65_515];
    for (form, list, length, taken) in lists {
        assert!(length <= 65_515);
        assert_eq!((FORMS[form].pack)(&list, 0, 65_515, &mut buffer), Ok((length, taken)));
        train(&FORMS[form], &list, 65_515);
    }
}

/// The usual limit is 556 here too: 8 + 46 * 11 = 514; 38 + 20 * 25 = 538; 4 +
/// 38 * 14 = 536.
#[test]
fn limit_0() {
    let list: Vec<u8> = (0..40).flat_map(|i| v6::entry(0xFF << 120 | i, 1, 1, 1)).collect();
    assert_eq!(train(&FORMS[1], &list, 0), [514, 514, 514, 330]);
    assert_eq!(train(&AGGREGATED, &list, 0), [538, 338]);
    let pairs: Vec<u8> = (0..40).flat_map(|i| v6::pair(0xFF << 120 | i, 1)).collect();
    assert_eq!(train(&FORMS[3], &pairs, 0), [536, 536, 460]);
    for form in &FORMS {
        assert_eq!((form.pack)(&[], 0, 0, &mut [0; 555]), refusal(8, 0));
        assert_eq!((form.pack)(&[], 0, 0, &mut [0; 556]), Ok((0, 0)));
    }
}

/// Below the family's least limit, before anything else is looked at.
#[test]
fn number_9() {
    let mut buffer = vec![0x77; 70_000];
    let packs = [
        pack::pack_assert,
        pack::pack_simple,
        pack::pack_aggregated,
        pack::pack_null_register,
        pack::pack_register_stop,
    ];
    let path = Path::default();
    for (family, refused) in [(Family::Ipv4, 1..38), (Family::Ipv6, 1..62)] {
        for limit in refused.chain([65_516, 1 << 32, usize::MAX]) {
            for pack in packs {
                assert_eq!(pack(family, path, &[1], 9, limit, &mut []), refusal(9, 0));
                assert_eq!(pack(family, path, &[1], 9, limit, &mut buffer), refusal(9, 0));
            }
            let answer = pack::pack_both(family, path, &[1], 9, limit, &mut [], &mut buffer);
            assert_eq!(answer, refusal(9, 0));
        }
        for limit in [family.least_limit(), 62, 65_515] {
            for pack in packs {
                assert_eq!(pack(family, path, &[], 0, limit, &mut buffer), Ok((0, 0)));
                assert_eq!(pack(family, path, &[], 0, limit, &mut []), refusal(8, 0));
            }
        }
    }
    assert_eq!((Family::Ipv4.least_limit(), Family::Ipv6.least_limit()), (38, 62));
    assert!(buffer.iter().all(|octet| *octet == 0x77));
}

/// The largest message of one entry has 62 octets.
#[test]
fn one_entry() {
    let entries = [
        (v6::entry(0xFF << 120, 1, 1, 1), 58),
        (v6::entry(0xFF << 120, 0, R, 1), 44),
        (v6::entry(0xFF << 120, 1, R, 1), 62),
    ];
    for (entry, length) in entries {
        assert_eq!(v6::pack_aggregated(&entry, 0, 62, &mut [0; 62]), Ok((length, 1)));
        assert_eq!(v6::pack_simple(&entry, 0, 62, &mut [0; 62]), Ok((54, 1)));
        assert_eq!(v6::pack_assert(&entry, 0, 62, &mut [0; 62]), Ok((50, 1)));
    }
    assert_eq!(v6::pack_register_stop(&v6::pair(0xFF << 120, 0), 0, 62, &mut [0; 62]), Ok((42, 1)));
}

// ---- the one byte form, put together from runs

type Entry = [u8; ENTRY];

fn same_record(a: &Entry, b: &Entry) -> bool {
    a[36..] == b[36..] && (a[36] >= 0x80 || a[20..36] == b[20..36])
}

fn group(entry: &Entry) -> Vec<u8> {
    [&[2, 0, 0, 128], &entry[4..20]].concat()
}

fn source(entry: &Entry) -> Vec<u8> {
    [&[2, 0], &entry[20..36]].concat()
}

/// The run of one group: apart, if none has a source and that is shorter.
fn group_records(run: &[Entry]) -> (usize, Vec<u8>) {
    let sources: Vec<u8> = run.iter().flat_map(source).collect();
    let joined = [group(&run[0]), v6::number(run.len()), sources].concat();
    let apart = [group(&run[0]), v6::number(0)].concat().repeat(run.len());
    if run.iter().all(|entry| entry[20..36] == [0; 16]) && apart.len() < joined.len() {
        return (run.len(), apart);
    }
    (1, joined)
}

fn record(run: &[Entry]) -> Vec<u8> {
    let numbers = run[0][36..].to_vec();
    if run[0][36] < 0x80 {
        let groups: Vec<u8> = run.iter().flat_map(group).collect();
        return [numbers, source(&run[0]), v6::number(run.len()), groups].concat();
    }
    let runs: Vec<_> = run.chunk_by(|a, b| a[4..20] == b[4..20]).map(group_records).collect();
    let count = runs.iter().map(|(count, _)| count).sum();
    let records: Vec<u8> = runs.into_iter().flat_map(|(_, records)| records).collect();
    [numbers, v6::number(count), records].concat()
}

fn aggregated(list: &[Entry]) -> Vec<u8> {
    let records: Vec<u8> = list.chunk_by(same_record).flat_map(record).collect();
    v6::message(0x25, 3, &[vec![0; 4], records].concat())
}

fn simple(list: &[Entry]) -> Vec<u8> {
    let records: Vec<u8> =
        list.iter().flat_map(|e| [group(e), source(e), e[36..].to_vec()].concat()).collect();
    v6::message(0x25, 1, &[vec![0; 4], records].concat())
}

/// The longest message within the limit, and how many entries it holds.
fn most(left: &[Entry], limit: usize, form: fn(&[Entry]) -> Vec<u8>) -> (Vec<u8>, usize) {
    let mut messages = (1..=left.len()).map(|k| (form(&left[..k]), k));
    messages.rfind(|(m, _)| m.len() <= limit).unwrap()
}

#[test]
fn greatest_number_that_fits() {
    let mut rng = Rng::new(4);
    let mut buffer = [0; 300];
    let mut other = [0; 300];
    for limit in 62..=300 {
        for _ in 0..60 {
            let number = 1 + rng.below(16);
            let octets = v6::random_entries(&mut rng, number);
            let (list, _) = octets.as_chunks::<ENTRY>();
            let start = rng.below(number);
            let (m, k) = most(&list[start..], limit, aggregated);
            assert_eq!(v6::pack_aggregated(&octets, start, limit, &mut buffer), Ok((m.len(), k)));
            assert_eq!(buffer[..m.len()], m);
            let (n, j) = most(&list[start..], limit, simple);
            assert_eq!(v6::pack_simple(&octets, start, limit, &mut buffer), Ok((n.len(), j)));
            assert_eq!(buffer[..n.len()], n);
            let choice = v6::pack_both(&octets, start, limit, &mut other, &mut buffer);
            let chosen = k > j || k == j && m.len() < n.len();
            assert_eq!(choice, Ok(if chosen { (true, m.len(), k) } else { (false, n.len(), j) }));
            assert_eq!((&other[..n.len()], &buffer[..m.len()]), (&n[..], &m[..]));
        }
    }
}

// ---- demand 3 by trying all trains

fn messages(list: &[u8], limit: usize, buffer: &mut [u8]) -> usize {
    let (mut start, mut messages) = (0, 0);
    while ENTRY * start < list.len() {
        let (_, taken) = v6::pack_aggregated(list, start, limit, buffer).unwrap();
        assert!(taken > 0);
        start += taken;
        messages += 1;
    }
    messages
}

/// Over all limits given: as few as any train, and no more for a larger one.
fn compare(list: &[u8], limits: impl Iterator<Item = usize>, buffer: &mut [u8]) {
    let mut before = usize::MAX;
    for limit in limits {
        let count = messages(list, limit, buffer);
        assert_eq!(Some(count), v6::least_messages(list, limit), "{list:?} at {limit}");
        assert!(count <= before);
        before = count;
    }
}

/// All lists of a length over an alphabet.
fn all_lists(alphabet: &[Vec<u8>], length: u32, mut each: impl FnMut(&[u8])) {
    for number in 0..alphabet.len().pow(length) {
        let mut rest = number;
        let mut list = Vec::new();
        for _ in 0..length {
            list.extend_from_slice(&alphabet[rest % alphabet.len()]);
            rest /= alphabet.len();
        }
        each(&list);
    }
}

fn alphabet() -> Vec<Vec<u8>> {
    let (g, h) = (0xFF3E << 112 | 1, 0xFF3E << 112 | 2);
    vec![
        v6::entry(g, 0, R | 1, 1),
        v6::entry(g, 7, R | 1, 1),
        v6::entry(h, 0, R | 1, 1),
        v6::entry(g, 7, 1, 1),
        v6::entry(h, 7, 1, 1),
        v6::entry(g, 0, R | 1, 2),
    ]
}

/// Limits that a message of some few entries has, and one octet less.
fn limits(to: usize) -> impl Iterator<Item = usize> {
    (62..=to).filter(|limit| limit % 2 == 0 || limit % 6 == 1 || *limit < 100)
}

#[test]
fn all_lists_up_to_four() {
    let mut buffer = [0; 400];
    for length in 0..=4 {
        all_lists(&alphabet(), length, |list| compare(list, limits(260), &mut buffer));
    }
}

#[test]
fn all_lists_of_five_and_six() {
    let mut buffer = [0; 400];
    all_lists(&alphabet()[..4], 5, |list| compare(list, limits(240), &mut buffer));
    all_lists(&alphabet()[..3], 6, |list| compare(list, limits(220), &mut buffer));
}

#[test]
fn random_lists_of_six() {
    let mut rng = Rng::new(3);
    let mut buffer = [0; 400];
    for _ in 0..1_000 {
        let list = v6::random_entries(&mut rng, 6);
        compare(&list, (62..=300).step_by(3), &mut buffer);
    }
}

#[test]
fn larger_limits_write_no_more() {
    let mut rng = Rng::new(33);
    let mut buffer = [0; 1480];
    for _ in 0..30 {
        let list = v6::random_entries(&mut rng, 60);
        let mut before = usize::MAX;
        for limit in 62..=1480 {
            let count = messages(&list, limit, &mut buffer);
            assert!(count <= before);
            before = count;
        }
    }
}

#[test]
fn what_is_tried() {
    assert_eq!(v6::least_messages(&[], 62), Some(0));
    assert_eq!(v6::least_messages(&v6::entry(0xFF << 120, 7, R, 1), 61), None);
    assert_eq!(v6::least_messages(&v6::entry(0xFF << 120, 0, R, 1), 44), Some(1));
    assert_eq!(v6::least_messages(&v6::entry(0xFF << 120, 0, R, 1).repeat(2), 67), Some(2));
    assert_eq!(v6::least_messages(&v6::entry(0xFF << 120, 0, R, 1).repeat(2), 68), Some(1));
    assert_eq!(v6::least_messages(&v6::entry(0xFF << 120, 0, R, 1).repeat(4), 115), Some(2));
    assert_eq!(v6::least_messages(&v6::entry(0xFF << 120, 0, R, 1).repeat(4), 116), Some(1));
    assert_eq!(v6::least_messages(&[0; 43], 62), None);
}
