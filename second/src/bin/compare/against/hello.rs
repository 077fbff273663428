//! Hellos written, and read back by both.

use super::ffi::Hello;
use super::lab::{Named, NEITHER};
use super::tally::READ_BACK;
use super::{calls, expect, make, read, Run};
use second::hello::write_hello;

const HOLDTIMES: [u16; 6] = [0, 1, 105, 0x00FF, 0xFF00, 0xFFFF];
const PRIORITIES: [u32; 6] = [0, 1, 5, 0xFFFF, 0xFFFF_0000, u32::MAX];

/// What a Hello has beside its numbers: has_priority, then packing.
const SHAPES: [[u8; 2]; 4] = [[0, 0], [0, 1], [1, 0], [1, 1]];

pub fn compare(run: &mut Run) {
    edges(run);
    carries(run);
    random(run);
}

/// All shapes of all the numbers above; a priority may stand beside a flag of 0.
fn edges(run: &mut Run) {
    let numbers = HOLDTIMES.map(|holdtime| PRIORITIES.map(|priority| (holdtime, priority))).concat();
    for said in numbers.iter().flat_map(|numbers| SHAPES.map(|shape| hello(*numbers, shape))) {
        every_room(run, said);
        for room in [556, 1_480, 65_536] {
            one(run, said, room);
        }
    }
}

/// All shapes of every other holdtime with the greatest priority: the checksum
/// has every carry, also one that another carry makes.
fn carries(run: &mut Run) {
    for holdtime in (run.below(2)..=0xFFFF).step_by(2).map(|holdtime| holdtime as u16) {
        SHAPES.iter().for_each(|shape| one(run, hello((holdtime, u32::MAX), *shape), 22));
    }
}

/// Any numbers, sometimes one of those above.
fn random(run: &mut Run) {
    for _ in 0..2_000 * run.rounds {
        let (mut holdtime, mut priority) = (run.rng.next_u32() as u16, run.rng.next_u32());
        if run.rng.one_in(4) {
            holdtime = make::pick(&mut run.rng, &HOLDTIMES);
        }
        if run.rng.one_in(4) {
            priority = make::pick(&mut run.rng, &PRIORITIES);
        }
        run.new_path();
        let shape = make::pick(&mut run.rng, &SHAPES);
        every_room(run, hello((holdtime, priority), shape));
    }
}

fn hello((holdtime, priority): (u16, u32), [has_priority, packing]: [u8; 2]) -> Hello {
    Hello { holdtime, has_priority, priority, packing }
}

/// Rooms from nothing to more than any Hello takes.
fn every_room(run: &mut Run, said: Hello) {
    for room in 0..=30 {
        one(run, said, room);
    }
}

/// One call, and where it wrote a message, that read back; and sometimes one that
/// names no family.
fn one(run: &mut Run, said: Hello, room: usize) {
    let named = run.lab.named();
    if let Some(m) = written(run, named, said, room) {
        read_back(run, named, said, &m);
    }
    if run.rng.one_in(20) {
        let family = make::pick(&mut run.rng, &NEITHER);
        written(run, Named { family, ..named }, said, room);
    }
}

/// The message, unless it was refused.
fn written(run: &mut Run, named: Named, said: Hello, room: usize) -> Option<Vec<u8>> {
    let mut buffer = run.room("buffer", room);
    let first = calls::write_hello(named, said, &mut buffer);
    let answer =
        named.answer(|family, path| write_hello(family, path, expect::said(said), buffer.second_mut()));
    let numbers = format_args!("{named:?}, room {room}, {said:?}");
    run.tally.call("pim_write_hello", numbers, &[&buffer], &first, &expect::length(answer));
    run.forms.named("pim_write_hello", named.family);
    (first.refusal.number == 0).then(|| buffer.first()[..first.length].to_vec())
}

fn read_back(run: &mut Run, named: Named, said: Hello, m: &[u8]) {
    let holds = read::hello(run, named, m) == expect::hello(Ok(expect::said(said)));
    let lent = run.input("message", m);
    run.tally.claim(READ_BACK, format_args!("{said:?}"), &lent, holds);
}
