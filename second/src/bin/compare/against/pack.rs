//! Single messages packed.

use super::ffi::{self, PackAnswer};
use super::lab::{Lab, Named, NEITHER};
use super::lent::Lent;
use super::sources::{has_bad_prefix, is_bad, Accepted};
use super::tally::FIRST_BAD;
use super::{calls, expect, make, read, Run};
use second::pack::*;
use second::{Answer, Family, Path, Refusal};

type Second = fn(Family, Path, &[u8], usize, usize, &mut [u8]) -> Answer<(usize, usize)>;

/// A packing call of both implementations, and what reads its messages.
#[derive(Clone, Copy)]
pub struct Form {
    call: &'static str,
    first: ffi::Pack,
    second: Second,
    pub is_pair: bool,
    pub read: fn(&mut Run, Named, &[u8], usize) -> Vec<u8>,
    /// Whether source 0 is allowed in a pair.
    zero: bool,
}

pub const ASSERT: Form = Form {
    call: "pim_pack_assert",
    first: ffi::pim_pack_assert,
    second: pack_assert,
    is_pair: false,
    read: read::asserts,
    zero: false,
};
pub const SIMPLE: Form =
    Form { call: "pim_pack_simple", first: ffi::pim_pack_simple, second: pack_simple, ..ASSERT };
pub const AGGREGATED: Form =
    Form { call: "pim_pack_aggregated", first: ffi::pim_pack_aggregated, second: pack_aggregated, ..ASSERT };
pub const NULL_REGISTER: Form = Form {
    call: "pim_pack_null_register",
    first: ffi::pim_pack_null_register,
    second: pack_null_register,
    is_pair: true,
    read: read::pairs,
    zero: false,
};
pub const REGISTER_STOP: Form = Form {
    call: "pim_pack_register_stop",
    first: ffi::pim_pack_register_stop,
    second: pack_register_stop,
    zero: true,
    ..NULL_REGISTER
};

pub const FORMS: [Form; 5] = [ASSERT, SIMPLE, AGGREGATED, NULL_REGISTER, REGISTER_STOP];

impl Form {
    /// The octets of an entry.
    pub fn size(&self, family: Family) -> usize {
        if self.is_pair {
            family.pair_entry()
        } else {
            family.assert_entry()
        }
    }
}

/// Limits beyond those that are all tried, some of them refused.
const LIMITS: [usize; 22] = [
    0,
    1,
    37,
    38,
    61,
    62,
    68,
    97,
    98,
    555,
    556,
    557,
    576,
    1_280,
    1_479,
    1_480,
    9_000,
    65_514,
    65_515,
    65_516,
    1 << 32,
    usize::MAX,
];

/// Lists from none to more than a message of a common limit takes.
const COUNTS: [usize; 6] = [0, 1, 5, 70, 300, 2_000];

pub fn compare(run: &mut Run) {
    for _ in 0..run.rounds {
        every_limit(run);
        other_limits(run);
        usual_limit(run);
    }
    for _ in 0..22_000 * run.rounds {
        disorder(run);
    }
}

/// A good list for a form.
pub fn list(run: &mut Run, form: Form, count: usize) -> Vec<u8> {
    if form.is_pair {
        return make::pairs(run.lab, &mut run.rng, count, form.zero);
    }
    asserts(run, count)
}

/// Good assert entries, in every third list mostly without a source.
pub fn asserts(run: &mut Run, count: usize) -> Vec<u8> {
    if run.rng.one_in(3) {
        return make::lone_asserts(run.lab, &mut run.rng, count);
    }
    make::asserts(run.lab, &mut run.rng, count)
}

/// The limit as read: 0 stands for the usual one.
pub fn as_read(limit: usize) -> usize {
    if limit == 0 {
        USUAL_LIMIT
    } else {
        limit
    }
}

/// Room for a limit. One that is refused needs no buffer of its size.
fn enough(limit: usize) -> usize {
    as_read(limit).min(70_000)
}

fn every_limit(run: &mut Run) {
    let least = run.lab.family.least_limit();
    for limit in least..=least + 162 {
        for _ in 0..40 {
            let count = run.below(14);
            every_form(run, count, limit);
        }
    }
}

fn other_limits(run: &mut Run) {
    for limit in LIMITS {
        for count in COUNTS {
            every_form(run, count, limit);
        }
    }
}

/// Limit 0 in rooms from none to far beyond it: however large the room, the
/// message is no longer.
fn usual_limit(run: &mut Run) {
    for room in [0, 38, 554, 555, 556, 557, 576, 1_479, 1_480, 1_481, 65_515, 70_000] {
        for count in COUNTS {
            in_room(run, count, 0, room);
        }
    }
}

/// Each call on a good list, with a buffer that is too small by one, exactly
/// enough and larger.
fn every_form(run: &mut Run, count: usize, limit: usize) {
    let enough = enough(limit);
    for room in [enough - 1, enough, enough + 1 + run.below(30)] {
        in_room(run, count, limit, room);
    }
}

/// Each call on a good list; the choice with that room for either buffer, and
/// for both.
fn in_room(run: &mut Run, count: usize, limit: usize, room: usize) {
    run.new_path();
    let enough = enough(limit);
    let start = if run.rng.one_in(3) { 0 } else { run.below(count + 2) };
    for form in FORMS {
        let list = list(run, form, count);
        let list = run.input("entries", &list);
        one(run, form, &list, start, limit, room);
    }
    let list = asserts(run, count);
    let list = run.input("entries", &list);
    for rooms in [[room, enough], [enough, room], [room, room]] {
        both(run, &list, start, limit, rooms);
    }
}

/// Several faults at once: the limit, the buffers, the list, the start, the
/// entries.
fn disorder(run: &mut Run) {
    run.new_path();
    for form in FORMS {
        let (count, size) = (run.below(9), form.size(run.lab.family));
        let mut list = list(run, form, count);
        for _ in 0..run.below(3) {
            make::spoil_entry(run.lab, &mut run.rng, &mut list, size);
        }
        if run.rng.one_in(6) {
            let more = 1 + run.below(size - 1);
            list.extend(make::octets(&mut run.rng, more));
        }
        let (start, limit, room) = any_numbers(run, count);
        let list = run.input("entries", &list);
        one(run, form, &list, start, limit, room);
        if !form.is_pair {
            let other = any_numbers(run, count).2;
            both(run, &list, start, limit, [room, other]);
        }
    }
}

/// A start, a limit and a room, each sometimes at fault.
fn any_numbers(run: &mut Run, count: usize) -> (usize, usize, usize) {
    let far = make::pick(&mut run.rng, &[count + 1, 1 << 60, usize::MAX / 16 + 2, usize::MAX]);
    let start = if run.rng.one_in(6) { far } else { run.below(count + 1) };
    let refused = make::pick(&mut run.rng, &LIMITS);
    let least = run.lab.family.least_limit();
    let limit = if run.rng.one_in(6) { refused } else { least + run.below(120) };
    let enough = as_read(limit).min(2_000);
    let room = if run.rng.one_in(6) { run.below(enough) } else { enough };
    (start, limit, room)
}

/// One packing call: its answer and the message. Sometimes there is another one
/// that names no family, or the other.
pub fn one(
    run: &mut Run,
    form: Form,
    list: &Lent,
    start: usize,
    limit: usize,
    room: usize,
) -> (PackAnswer, Vec<u8>) {
    if run.rng.one_in(24) {
        let named = misnamed(run);
        named_one(run, named, form, list, start, limit, room);
    }
    named_one(run, run.lab.named(), form, list, start, limit, room)
}

/// No family, or the other one.
pub fn misnamed(run: &mut Run) -> Named {
    if run.rng.one_in(2) {
        return run.lab.other().named();
    }
    let family = make::pick(&mut run.rng, &NEITHER);
    Named { family, ..run.lab.named() }
}

fn named_one(
    run: &mut Run,
    named: Named,
    form: Form,
    list: &Lent,
    start: usize,
    limit: usize,
    room: usize,
) -> (PackAnswer, Vec<u8>) {
    let mut buffer = run.room("buffer", room);
    let first = calls::pack(form.first, named, list, start, limit, &mut buffer);
    let answer = named
        .answer(|family, path| (form.second)(family, path, list.second(), start, limit, buffer.second_mut()));
    let second = expect::pack(answer);
    let numbers = format_args!("{named:?}, start {start}, limit {limit}, room {room}");
    run.tally.call(form.call, numbers, &[list, &buffer], &first, &second);
    run.forms.named(form.call, named.family);
    if let Some(lab) = named.lab() {
        first_bad(run, lab, form.call, form, list, start, answer.map(|(_, taken)| taken));
    }
    (first, buffer.first()[..first.length].to_vec())
}

/// A call is refused by 7 for the first bad entry from its start on; one that is
/// not refused has none.
fn first_bad(
    run: &mut Run,
    lab: Lab,
    call: &'static str,
    form: Form,
    list: &Lent,
    start: usize,
    taken: Answer<usize>,
) {
    let size = form.size(lab.family);
    let entry = |number: usize| &list.second()[size * number..][..size];
    let refused = match taken {
        Ok(taken) => {
            let entries = &list.second()[size * start..][..size * taken];
            run.sources(lab.family).accepted(Accepted::Packed, entries, size);
            None
        }
        Err(Refusal { number: 7, place, .. }) => {
            run.sources(lab.family).entry(call, entry(place));
            if has_bad_prefix(lab, entry(place)) {
                run.forms.foreign(call, lab.family.number());
            }
            Some(place)
        }
        Err(_) => return,
    };
    let bad = (start..list.length() / size).find(|number| is_bad(lab, entry(*number), form.zero));
    run.tally.claim(FIRST_BAD, format_args!("start {start}: {bad:?}"), list, refused == bad);
}

/// Both assert forms in one call: the number of entries taken and the chosen
/// message. Sometimes there is another call that names no family, or the other.
pub fn both(run: &mut Run, list: &Lent, start: usize, limit: usize, rooms: [usize; 2]) -> (usize, Vec<u8>) {
    if run.rng.one_in(24) {
        let named = misnamed(run);
        named_both(run, named, list, start, limit, rooms);
    }
    named_both(run, run.lab.named(), list, start, limit, rooms)
}

fn named_both(
    run: &mut Run,
    named: Named,
    list: &Lent,
    start: usize,
    limit: usize,
    rooms: [usize; 2],
) -> (usize, Vec<u8>) {
    let mut simple = run.room("simple buffer", rooms[0]);
    let mut aggregated = run.room("aggregated buffer", rooms[1]);
    let first = calls::pack_both(named, list, start, limit, &mut simple, &mut aggregated);
    let answer = named.answer(|family, path| {
        let buffers = (simple.second_mut(), aggregated.second_mut());
        pack_both(family, path, list.second(), start, limit, buffers.0, buffers.1)
    });
    let numbers = format_args!("{named:?}, start {start}, limit {limit}, rooms {rooms:?}");
    let second = expect::choice(answer);
    run.tally.call("pim_pack_both", numbers, &[list, &simple, &aggregated], &first, &second);
    run.forms.named("pim_pack_both", named.family);
    if let Some(lab) = named.lab() {
        first_bad(run, lab, "pim_pack_both", SIMPLE, list, start, answer.map(|(_, _, taken)| taken));
    }
    let chosen = if first.aggregated == 0 { &simple } else { &aggregated };
    (first.taken, chosen.first()[..first.length].to_vec())
}
