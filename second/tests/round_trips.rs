//! Trains of random lists read back as the list, Hellos as what was said, and
//! nothing else is written.
mod common;
use common::v4::*;
use common::*;
use second::hello::Hello;
use second::pack::USUAL_LIMIT;
use second::rng::Rng;
use second::Kind;
use std::collections::HashSet;

/// Packs the whole list and reads it back; the number of messages.
fn train(form: &Form, list: &[u8], limit: usize) -> usize {
    let count = list.len() / form.size;
    let room = if limit == 0 { USUAL_LIMIT } else { limit };
    let mut buffer = vec![0; room + 2];
    let mut back = vec![0x99; list.len() + 1];
    let (mut start, mut messages) = (0, 0);
    while start < count {
        buffer.fill(0xC3);
        assert_eq!((form.pack)(list, start, limit, &mut buffer[..room - 1]), refusal(8, 0));
        let (length, taken) = (form.pack)(list, start, limit, &mut buffer).unwrap();
        assert!(taken > 0 && length <= room);
        assert!(buffer[length..].iter().all(|octet| *octet == 0xC3));
        let entries = &mut back[form.size * start..];
        assert_eq!((form.read)(&buffer[..length], entries), Ok((form.kind, taken)));
        start += taken;
        messages += 1;
        assert_eq!(back[form.size * start], 0x99);
    }
    assert_eq!(back[..list.len()], *list);
    assert_eq!((form.pack)(list, count, limit, &mut buffer), Ok((0, 0)));
    messages
}

#[test]
fn small_limits() {
    let mut rng = Rng::new(9466);
    for limit in 38..=200 {
        for _ in 0..40 {
            let count = rng.below(30);
            let list = random_entries(&mut rng, count);
            train(&AGGREGATED, &list, limit);
            train(&SIMPLE, &list, limit);
            assert_eq!(train(&ASSERT, &list, limit), list.len() / ASSERT_ENTRY);
        }
        let list = random_pairs(&mut rng, 20, 1);
        assert_eq!(train(&NULL_REGISTER, &list, limit), 20usize.div_ceil((limit - 4) / 14));
        let list = random_pairs(&mut rng, 20, 0);
        assert_eq!(train(&REGISTER_STOP, &list, limit), 20usize.div_ceil((limit - 4) / 14));
    }
}

#[test]
fn large_limits() {
    let mut rng = Rng::new(9465);
    for limit in [0, 555, 556, 557, 1480, 1481, 9000, 65_514, 65_515] {
        let list = random_entries(&mut rng, 9000);
        train(&AGGREGATED, &list, limit);
        train(&SIMPLE, &list, limit);
        let list = random_pairs(&mut rng, 9000, 1);
        train(&NULL_REGISTER, &list, limit);
        train(&REGISTER_STOP, &list, limit);
    }
}

#[test]
fn longest_runs() {
    // All groups of one source, all sources of one group, all zero sources.
    let mut buffer = vec![0; 65_515];
    let groups: Vec<u8> = (0..9000).flat_map(|i| entry(0xE100_0000 + i, 1, 1, 1)).collect();
    assert_eq!(pack_aggregated(&groups, 0, 65_515, &mut buffer), Ok((26 + 8 * 8186, 8186)));
    let sources: Vec<u8> = (0..11_000).flat_map(|i| entry(0xE100_0000, i, R, 1)).collect();
    assert_eq!(pack_aggregated(&sources, 0, 65_515, &mut buffer), Ok((32 + 6 * 10_913, 10_913)));
    let zeros: Vec<u8> = (0..9000).flat_map(|i| entry(0xE100_0000 + i, 0, R, 1)).collect();
    assert_eq!(pack_aggregated(&zeros, 0, 65_515, &mut buffer), Ok((20 + 12 * 5457, 5457)));
    for list in [groups, sources, zeros] {
        train(&AGGREGATED, &list, 65_515);
    }
}

/// All sources about the borders, each twice, with R=0 and R=1 by turns.
#[test]
fn edge_sources() {
    let twice = EDGE_SOURCES.map(|source| [source; 2]).concat();
    let pairs: Vec<u8> = twice.iter().flat_map(|source| pair(0xE100_0000, *source)).collect();
    let asserts: Vec<u8> =
        [0, R].iter().flat_map(|r| twice.iter().map(|s| entry(0xE100_0000, *s, *r, 1))).flatten().collect();
    for limit in [0, 38, 60, 61, 1480] {
        train(&AGGREGATED, &asserts, limit);
        train(&SIMPLE, &asserts, limit);
        train(&ASSERT, &asserts, limit);
        train(&NULL_REGISTER, &pairs, limit);
        train(&REGISTER_STOP, &pairs, limit);
    }
    // Eight source aggregated records of two groups; one RP aggregated record of one group record.
    let length = 8 + 8 * (18 + 2 * 8) + 12 + 12 + 16 * 6;
    assert_eq!(pack_aggregated(&asserts, 0, 1480, &mut [0; 1480]), Ok((length, 32)));
}

/// What the two packing calls give by themselves, and the choice.
fn both(list: &[u8], start: usize, limit: usize) {
    let (mut simple, mut aggregated) = (vec![0x11; limit], vec![0x22; limit + 1]);
    let (mut a, mut b) = (simple.clone(), aggregated.clone());
    let choice = pack_both(list, start, limit, &mut a, &mut b).unwrap();
    let (length, taken) = pack_simple(list, start, limit, &mut simple).unwrap();
    let (other_length, other_taken) = pack_aggregated(list, start, limit, &mut aggregated).unwrap();
    assert_eq!((a, b), (simple, aggregated));
    let chosen = (other_taken, limit - other_length) > (taken, limit - length);
    let expected = if chosen { (true, other_length, other_taken) } else { (false, length, taken) };
    assert_eq!(choice, expected);
}

#[test]
fn choice_of_two() {
    let mut rng = Rng::new(2);
    for limit in 38..=200 {
        for _ in 0..20 {
            let count = rng.below(12);
            let list = random_entries(&mut rng, count);
            both(&list, rng.below(list.len() / ASSERT_ENTRY + 1), limit);
        }
    }
    let (mut a, mut b) = ([0; 100], [0; 100]);
    let mut choose = |list: &[Vec<u8>], limit| pack_both(&list.concat(), 0, limit, &mut a, &mut b).unwrap();
    let source = |group: u32, source| entry(0xE100_0000 + group, source, 1, 1);
    let rp = |group: u32, source, metric| entry(0xE100_0000 + group, source, R, metric);
    // The shorter one; the one that took more.
    assert_eq!(choose(&[source(0, 1)], 100), (false, 30, 1));
    assert_eq!(choose(&[source(0, 1), source(1, 1)], 100), (true, 42, 2));
    assert_eq!(choose(&[source(0, 1), source(0, 2)], 52), (false, 52, 2));
    assert_eq!(choose(&[source(0, 1), source(1, 1)], 51), (true, 42, 2));
    // As many in as many octets: the simple one.
    let tie = [rp(0, 0, 1), rp(1, 0, 1), rp(0, 5, 2)];
    assert_eq!(choose(&tie, 100), (false, 74, 3));
    assert_eq!((a[1], b[1]), (1, 3));
    assert_eq!(b[8..12], [0x80, 0, 0, 0]);
}

/// Writes a Hello and reads it back; the message.
fn hello(said: Hello) -> Vec<u8> {
    let mut buffer = [0xC3; 30];
    let length = write_hello(said, &mut buffer).unwrap();
    assert_eq!(header(&buffer[..length]), Ok(Kind::Hello));
    assert_eq!(read_hello(&buffer[..length]), Ok(said));
    assert!(buffer[length..].iter().all(|octet| *octet == 0xC3));
    buffer[..length].to_vec()
}

#[test]
fn hellos() {
    let mut rng = Rng::new(7761);
    let random: Vec<Hello> = (0..100_000).map(|_| random_hello(&mut rng)).collect();
    for said in [edge_hellos(), random].concat() {
        hello(said);
    }
}

#[test]
fn every_holdtime() {
    for holdtime in 0..=u16::MAX {
        hello(Hello { holdtime, priority: None, packing: true });
        hello(Hello { holdtime, priority: Some(u32::MAX), packing: false });
    }
}

/// All Hellos that differ from one in a single bit of a number, in packing or
/// in having a priority.
fn near(said: Hello) -> Vec<Hello> {
    let mut list = vec![Hello { packing: !said.packing, ..said }];
    list.extend((0..16).map(|bit| Hello { holdtime: said.holdtime ^ 1 << bit, ..said }));
    let Some(priority) = said.priority else {
        list.push(Hello { priority: Some(0), ..said });
        return list;
    };
    list.extend((0..32).map(|bit| Hello { priority: Some(priority ^ 1 << bit), ..said }));
    list.push(Hello { priority: None, ..said });
    list
}

#[test]
fn other_hello_other_message() {
    let edges = edge_hellos();
    let messages: HashSet<Vec<u8>> = edges.iter().map(|said| hello(*said)).collect();
    assert_eq!(messages.len(), edges.len());
    let mut rng = Rng::new(19);
    let random: Vec<Hello> = (0..3_000).map(|_| random_hello(&mut rng)).collect();
    for said in [edges, random].concat() {
        let message = hello(said);
        assert!(near(said).into_iter().all(|other| hello(other) != message), "{said:?}");
    }
}
