//! The counters of messages and records.

use super::lent::Lent;
use super::{calls, expect, ffi, make, Run};
use second::counters::{add, Counters, Direction};

pub fn compare(run: &mut Run) {
    run.tally.call(
        "pim_counters_none",
        format_args!("nothing"),
        &[],
        &calls::counters_none(),
        &expect::counters_form(&Counters::default()),
    );
    for kind in 0..=255 {
        for received in [false, true] {
            let mut lent = any_counters(run);
            let records = make::total(&mut run.rng);
            count(run, &mut lent, received, kind, records);
        }
    }
    for _ in 0..600 * run.rounds {
        history(run);
    }
}

/// One record of counters: none at first, or any, also near the maximum.
fn any_counters(run: &mut Run) -> Lent<ffi::Counters> {
    let counters = if run.rng.one_in(2) { Counters::default() } else { make::counters(&mut run.rng) };
    Lent::state(&mut run.rng, "counters", &[expect::counters_form(&counters)])
}

/// Messages counted one after another in the same record, refused ones between.
fn history(run: &mut Run) {
    let mut lent = any_counters(run);
    for _ in 0..200 {
        let (received, kind) = (run.rng.one_in(2), run.below(7) as u8);
        let records = make::total(&mut run.rng);
        count(run, &mut lent, received, kind, records);
    }
}

/// One call. The record stays lent, as the call left it.
fn count(run: &mut Run, lent: &mut Lent<ffi::Counters>, received: bool, kind: u8, records: u64) {
    let before = lent.second()[0];
    let first = calls::count(lent, received, kind, records);
    let mut counters = expect::counters(&before);
    let direction = if received { Direction::Received } else { Direction::Sent };
    let second = expect::counted(add(&mut counters, direction, kind, records));
    lent.second_mut()[0] = expect::counters_form(&counters);
    let numbers = format_args!("received {received}, kind {kind}, records {records}, {before:?}");
    run.tally.call("pim_count", numbers, &[lent], &first, &second);
}
