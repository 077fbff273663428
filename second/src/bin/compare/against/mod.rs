//! The comparison itself: each call of the C interface on many inputs.

mod calls;
mod checksum;
mod counters;
mod expect;
mod ffi;
mod forms;
mod hello;
mod lab;
mod least;
mod lent;
mod make;
mod neighbours;
mod outcomes;
mod pack;
mod places;
mod popcount;
mod read;
mod report;
mod sheet;
mod sources;
mod tally;
mod trains;

use crate::options::Options;
use forms::Forms;
use lab::Lab;
use lent::Lent;
use outcomes::Outcomes;
use places::Fields;
use second::rng::Rng;
use second::Family;
use sources::Sources;
use std::process::ExitCode;
use tally::Tally;

/// A run: the family that things are made for, the random numbers, what was
/// counted, which fields were at fault, what came of the files reported, which
/// sources were refused and accepted in each family, what came of sheets, tables,
/// families and paths, and how often random parts are run.
pub struct Run {
    lab: Lab,
    rng: Rng,
    tally: Tally,
    fields: Fields,
    outcomes: Outcomes,
    sources: [Sources; 2],
    forms: Forms,
    rounds: usize,
}

impl Run {
    fn input(&mut self, name: &'static str, octets: &[u8]) -> Lent {
        Lent::input(&mut self.rng, name, octets)
    }

    fn room(&mut self, name: &'static str, room: usize) -> Lent {
        Lent::room(&mut self.rng, name, room)
    }

    fn sources(&mut self, family: Family) -> &mut Sources {
        &mut self.sources[usize::from(family.number()) - 1]
    }

    /// Another path for what is made from now on.
    fn new_path(&mut self) {
        self.lab.path = lab::any_path(&mut self.rng);
    }

    fn below(&mut self, bound: usize) -> usize {
        self.rng.below(bound)
    }
}

/// All comparisons, then the tables.
pub fn all(options: Options) -> ExitCode {
    let mut run = Run {
        lab: Lab::of(Family::Ipv4),
        rng: Rng::new(options.seed),
        tally: Tally::new(options),
        fields: Fields::default(),
        outcomes: Outcomes::default(),
        sources: Family::ALL.map(Sources::new),
        forms: Forms::default(),
        rounds: options.rounds,
    };
    for family in Family::ALL {
        run.lab = Lab::of(family);
        for subject in [
            read::compare,
            hello::compare,
            pack::compare,
            trains::compare,
            least::compare,
            neighbours::compare,
            sheet::compare,
        ] {
            subject(&mut run);
        }
    }
    // Of no family, and of IPv4 alone.
    run.lab = Lab::of(Family::Ipv4);
    for subject in [
        checksum::compare,
        neighbours::compare_lists,
        sheet::compare_beginnings,
        counters::compare,
        report::compare,
        popcount::compare,
    ] {
        subject(&mut run);
    }
    run.tally.report(&run)
}
