//! The one byte form of an aggregated message, against a plain construction:
//! the message of the first k entries, for the greatest k that fits. That of a
//! Hello, worked out by hand and against one put together.
mod common;
use common::v4::*;
use common::*;
use second::hello::Hello;
use second::rng::Rng;

type Entry = [u8; 20];

/// Consecutive entries that are alike under `alike`.
fn runs(list: &[Entry], alike: fn(&Entry, &Entry) -> bool) -> Vec<&[Entry]> {
    list.chunk_by(alike).collect()
}

fn same_record(a: &Entry, b: &Entry) -> bool {
    a[12..] == b[12..] && (a[12] >= 0x80 || a[8..12] == b[8..12])
}

fn same_group(a: &Entry, b: &Entry) -> bool {
    a[4..8] == b[4..8]
}

fn group(entry: &Entry) -> Vec<u8> {
    [&[1, 0, 0, 32], &entry[4..8]].concat()
}

fn source(entry: &Entry) -> Vec<u8> {
    [&[1, 0], &entry[8..12]].concat()
}

fn count(n: usize) -> Vec<u8> {
    vec![(n >> 8) as u8, n as u8, 0, 0]
}

fn group_record(run: &[Entry]) -> Vec<u8> {
    if run.len() == 1 && run[0][8..12] == [0; 4] {
        return [group(&run[0]), count(0)].concat();
    }
    let sources: Vec<u8> = run.iter().flat_map(source).collect();
    [group(&run[0]), count(run.len()), sources].concat()
}

fn record(run: &[Entry]) -> Vec<u8> {
    let numbers = run[0][12..].to_vec();
    if run[0][12] >= 0x80 {
        let groups = runs(run, same_group);
        let records: Vec<u8> = groups.iter().flat_map(|run| group_record(run)).collect();
        return [numbers, count(groups.len()), records].concat();
    }
    let groups: Vec<u8> = run.iter().flat_map(group).collect();
    [numbers, source(&run[0]), count(run.len()), groups].concat()
}

fn aggregated(list: &[Entry]) -> Vec<u8> {
    let records: Vec<u8> = runs(list, same_record).iter().flat_map(|run| record(run)).collect();
    message(0x25, 3, &[vec![0; 4], records].concat())
}

fn simple(list: &[Entry]) -> Vec<u8> {
    let numbers = |entry: &Entry| entry[12..].to_vec();
    let records: Vec<u8> = list.iter().flat_map(|e| [group(e), source(e), numbers(e)].concat()).collect();
    message(0x25, 1, &[vec![0; 4], records].concat())
}

/// The longest message within the limit, and how many entries it holds.
fn most(left: &[Entry], limit: usize, form: fn(&[Entry]) -> Vec<u8>) -> (Vec<u8>, usize) {
    let mut messages = (1..=left.len()).map(|k| (form(&left[..k]), k));
    messages.rfind(|(m, _)| m.len() <= limit).unwrap()
}

#[test]
fn greatest_number_that_fits() {
    let mut rng = Rng::new(4);
    let mut buffer = [0; 200];
    for limit in 38..=200 {
        for _ in 0..60 {
            let number = 1 + rng.below(20);
            let octets = random_entries(&mut rng, number);
            let (list, _) = octets.as_chunks::<20>();
            let start = rng.below(number);
            let (m, k) = most(&list[start..], limit, aggregated);
            assert_eq!(pack_aggregated(&octets, start, limit, &mut buffer), Ok((m.len(), k)));
            assert_eq!(buffer[..m.len()], m);
            let (m, k) = most(&list[start..], limit, simple);
            assert_eq!(pack_simple(&octets, start, limit, &mut buffer), Ok((m.len(), k)));
            assert_eq!(buffer[..m.len()], m);
        }
    }
}

/// The Hello is exactly these octets.
fn hello_is(holdtime: u16, priority: Option<u32>, packing: bool, octets: &[u8]) {
    let mut buffer = [0x99; 30];
    let length = write_hello(Hello { holdtime, priority, packing }, &mut buffer).unwrap();
    assert_eq!(buffer[..length], *octets);
}

/// The checksum of each is reached in the comment before it: the sum of the
/// 16-bit words, its own as 0000, each carry added back, taken from FFFF.
#[test]
fn hellos_by_hand() {
    // 2000 + 0000 + 0001 + 0002 + 0069 = 206C; FFFF - 206C = DF93
    hello_is(105, None, false, &hex("2000 DF93 0001 0002 0069"));
    // 206C + 0028 + 0000 = 2094; FFFF - 2094 = DF6B
    hello_is(105, None, true, &hex("2000 DF6B 0001 0002 0069 0028 0000"));
    // 206C + 0013 + 0004 + 0000 + 0005 = 2088; FFFF - 2088 = DF77
    hello_is(105, Some(5), false, &hex("2000 DF77 0001 0002 0069 0013 0004 0000 0005"));
    // 2088 + 0028 + 0000 = 20B0; FFFF - 20B0 = DF4F
    hello_is(105, Some(5), true, &hex("2000 DF4F 0001 0002 0069 0013 0004 0000 0005 0028 0000"));
    // 2000 + 0001 + 0002 + 0000 = 2003; FFFF - 2003 = DFFC
    hello_is(0, None, false, &hex("2000 DFFC 0001 0002 0000"));
    // 2003 + DFFC = FFFF; FFFF - FFFF = 0000
    hello_is(0xDFFC, None, false, &hex("2000 0000 0001 0002 DFFC"));
    // 2003 + F000 = 1_1003, so 1004; + 0013 + 0004 = 101B; + F123 = 1_013E, so 013F;
    // + FFC0 = 1_00FF, so 0100; FFFF - 0100 = FEFF
    hello_is(0xF000, Some(0xF123_FFC0), false, &hex("2000 FEFF 0001 0002 F000 0013 0004 F123 FFC0"));
    // 2003 + FFFF = 1_2002, so 2003; + 0013 + 0004 = 201A; + 0000 + DFE6 = 1_0000, so 0001;
    // FFFF - 0001 = FFFE
    hello_is(0xFFFF, Some(0xDFE6), false, &hex("2000 FFFE 0001 0002 FFFF 0013 0004 0000 DFE6"));
    // FFFF takes 1 and carries 1, so it leaves a sum as it is: 2003 + 0013 + 0004 + 0028 = 2042;
    // FFFF - 2042 = DFBD
    let all_ones = hex("2000 DFBD 0001 0002 FFFF 0013 0004 FFFF FFFF 0028 0000");
    hello_is(0xFFFF, Some(0xFFFF_FFFF), true, &all_ones);
}

/// Type, length and value.
fn option(head: &str, value: &[u8]) -> Vec<u8> {
    [&hex(head), value].concat()
}

#[test]
fn hellos_put_together() {
    let mut rng = Rng::new(40);
    let mut list = edge_hellos();
    list.extend((0..20_000).map(|_| random_hello(&mut rng)));
    for Hello { holdtime, priority, packing } in list {
        let mut body = option("0001 0002", &holdtime.to_be_bytes());
        body.extend(priority.map_or(vec![], |priority| option("0013 0004", &priority.to_be_bytes())));
        body.extend(if packing { hex("0028 0000") } else { vec![] });
        hello_is(holdtime, priority, packing, &message(0x20, 0, &body));
    }
}
