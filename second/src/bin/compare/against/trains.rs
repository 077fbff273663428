//! Whole trains: packed to the list's end, with refused calls between, and
//! read back by both. The calls of a train pass two limits by turns, mostly the
//! same one twice.

use super::lent::Lent;
use super::pack::{self, as_read, Form, AGGREGATED, FORMS};
use super::tally::{LARGER_LIMIT, UNPACKED, USUAL};
use super::{make, read, Run};
use second::pack::USUAL_LIMIT;

/// Limits that are all read as the usual one.
const BY_TURNS: [[usize; 2]; 3] = [[0, 0], [0, USUAL_LIMIT], [USUAL_LIMIT, 0]];

pub fn compare(run: &mut Run) {
    let least = run.lab.family.least_limit();
    for limit in least..=least + 162 {
        for _ in 0..18 * run.rounds {
            let count = run.below(30);
            every_form(run, count, limit);
        }
    }
    for limit in [0, 62, 68, 97, 98, 555, 556, 557, 576, 1_280, 1_480, 9_000, 65_514, 65_515] {
        for _ in 0..run.rounds {
            every_form(run, 500, limit);
            one_run(run, limit);
        }
    }
    for _ in 0..300 * run.rounds {
        larger_limits(run);
    }
    for _ in 0..20 * run.rounds {
        usual_limit(run);
    }
}

fn every_form(run: &mut Run, count: usize, limit: usize) {
    run.new_path();
    for form in FORMS {
        let list = pack::list(run, form, count);
        let list = run.input("entries", &list);
        train(run, form, &list, limit);
    }
    let list = pack::asserts(run, count);
    let list = run.input("entries", &list);
    train_of_choices(run, &list, [limit; 2]);
}

/// Many entries that one record takes, as far as the limit goes.
fn one_run(run: &mut Run, limit: usize) {
    let count = if as_read(limit) < 1_000 { 600 } else { 12_000 };
    for r in [0, make::R] {
        let list = run.input("entries", &make::one_run(run.lab, r, count));
        train(run, AGGREGATED, &list, limit);
    }
}

fn larger_limits(run: &mut Run) {
    let count = run.below(40);
    let list = pack::asserts(run, count);
    let list = run.input("entries", &list);
    let step = 1 + run.below(9);
    let least = run.lab.family.least_limit();
    no_longer(run, &list, (least..=least + 162).step_by(step));
}

/// The train of a list gets no longer with a larger limit.
fn no_longer(run: &mut Run, list: &Lent, limits: impl Iterator<Item = usize>) {
    let mut before = usize::MAX;
    for limit in limits {
        let messages = train(run, AGGREGATED, list, limit);
        run.tally.claim(LARGER_LIMIT, format_args!("limit {limit}"), list, messages <= before);
        before = messages;
    }
}

/// Limit 0 gives the messages of the limit that it stands for, also where the
/// calls of a train pass either: no more than one octet less gives, and no
/// fewer than one more.
fn usual_limit(run: &mut Run) {
    let count = run.below(700);
    for form in FORMS {
        let list = pack::list(run, form, count);
        let list = run.input("entries", &list);
        let open = messages(run, form, &list, [USUAL_LIMIT; 2]);
        for limits in BY_TURNS {
            let holds = messages(run, form, &list, limits) == open;
            run.tally.claim(USUAL, format_args!("limits {limits:?}"), &list, holds);
        }
    }
    let list = pack::asserts(run, count);
    let list = run.input("entries", &list);
    let open = train_of_choices(run, &list, [USUAL_LIMIT; 2]);
    for limits in BY_TURNS {
        let holds = train_of_choices(run, &list, limits) == open;
        run.tally.claim(USUAL, format_args!("limits {limits:?}, of both forms"), &list, holds);
    }
    no_longer(run, &list, [USUAL_LIMIT - 1, 0, USUAL_LIMIT + 1].into_iter());
}

/// Packs a list to its end: how many messages.
pub fn train(run: &mut Run, form: Form, list: &Lent, limit: usize) -> usize {
    messages(run, form, list, [limit; 2]).len()
}

/// The messages of a list. Each is within its limit, takes an entry or more,
/// and together they unpack to the list.
fn messages(run: &mut Run, form: Form, list: &Lent, limits: [usize; 2]) -> Vec<Vec<u8>> {
    let (mut messages, mut taken, mut whole) = (Vec::new(), 0, true);
    let mut entries = Vec::new();
    for limit in limits.into_iter().cycle() {
        let start = next_start(run, form, list, taken, limit);
        let room = as_read(limit) + run.below(3);
        let (answer, message) = pack::one(run, form, list, start, limit, room);
        if message.is_empty() {
            break;
        }
        whole &= answer.taken > 0 && message.len() <= as_read(limit);
        taken += answer.taken;
        let room = form.size(run.lab.family) * answer.taken;
        entries.extend((form.read)(run, run.lab.named(), &message, room));
        messages.push(message);
    }
    let holds = whole && entries == list.second();
    run.tally.claim(UNPACKED, format_args!("limits {limits:?}"), list, holds);
    messages
}

/// Where the next call starts: a refused call before it takes nothing.
fn next_start(run: &mut Run, form: Form, list: &Lent, taken: usize, limit: usize) -> usize {
    if !run.rng.one_in(5) {
        return taken;
    }
    let room = run.below(as_read(limit));
    let (refused, _) = pack::one(run, form, list, taken, limit, room);
    taken + refused.taken
}

/// The chosen messages of a list, of which the same holds.
fn train_of_choices(run: &mut Run, list: &Lent, limits: [usize; 2]) -> Vec<Vec<u8>> {
    let (mut messages, mut start, mut whole) = (Vec::new(), 0, true);
    let mut entries = Vec::new();
    for limit in limits.into_iter().cycle() {
        let (taken, message) = pack::both(run, list, start, limit, [as_read(limit); 2]);
        if message.is_empty() {
            break;
        }
        whole &= taken > 0 && message.len() <= as_read(limit);
        start += taken;
        let room = run.lab.family.assert_entry() * taken;
        entries.extend(read::asserts(run, run.lab.named(), &message, room));
        messages.push(message);
    }
    let holds = whole && entries == list.second();
    run.tally.claim(UNPACKED, format_args!("limits {limits:?}, of both forms"), list, holds);
    messages
}
