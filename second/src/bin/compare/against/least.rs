//! The number of messages of a train against all trains, for short lists; and
//! short lists that have none, for an entry that is bad.

use super::make::{self, Entry};
use super::pack::{self, AGGREGATED, FORMS};
use super::tally::LEAST;
use super::trains::train;
use super::Run;
use second::brute::{least_messages, ENTRIES_MOST};

pub fn compare(run: &mut Run) {
    for count in 0..=4 {
        every_list(run, count);
    }
    for _ in 0..24_000 * run.rounds {
        let count = 1 + run.below(ENTRIES_MOST);
        let list = pack::asserts(run, count);
        let span = make::pick(&mut run.rng, &[40, 170]);
        let limit = run.lab.family.least_limit() + run.below(span);
        least(run, &list, limit);
    }
    every_bad_list(run);
}

/// All lists of so many entries of a small alphabet, each with several limits.
fn every_list(run: &mut Run, count: usize) {
    let alphabet = make::alphabet(run.lab);
    let (least_limit, step) = (run.lab.family.least_limit(), if run.lab.is_ipv4() { 9 } else { 15 });
    for number in 0..alphabet.len().pow(count as u32) {
        let list = list_of(run, &alphabet, number, count, false);
        for limit in (least_limit + number % step..least_limit + 9 * step).step_by(step) {
            least(run, &list, limit);
        }
    }
}

/// The entries, or the pairs of them, that the digits of a number name.
fn list_of(run: &Run, alphabet: &[Entry], mut number: usize, count: usize, is_pair: bool) -> Vec<u8> {
    let mut list = Vec::new();
    for _ in 0..count {
        let entry = alphabet[number % alphabet.len()];
        list.extend(if is_pair { entry.pair(run.lab) } else { entry.octets(run.lab) });
        number /= alphabet.len();
    }
    list
}

/// All lists of three entries, good and bad, from each start on.
fn every_bad_list(run: &mut Run) {
    let alphabet = [make::alphabet(run.lab), make::bad_alphabet(run.lab)].concat();
    let limit = run.lab.family.least_limit() + 22;
    for number in 0..alphabet.len().pow(3) {
        for form in FORMS {
            let list = list_of(run, &alphabet, number, 3, form.is_pair);
            let list = run.input("entries", &list);
            (0..=3).for_each(|start| drop(pack::one(run, form, &list, start, limit, limit)));
        }
        let list = list_of(run, &alphabet, number, 3, false);
        let list = run.input("entries", &list);
        (0..=3).for_each(|start| drop(pack::both(run, &list, start, limit, [limit; 2])));
    }
}

fn least(run: &mut Run, list: &[u8], limit: usize) {
    let list = run.input("entries", list);
    let messages = train(run, AGGREGATED, &list, limit);
    let least = least_messages(run.lab.family, list.second(), limit);
    let numbers = format_args!("limit {limit}: {messages} messages, least {least:?}");
    run.tally.claim(LEAST, numbers, &list, least == Some(messages));
}
