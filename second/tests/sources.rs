//! Which addresses may be sources, in every record that is read and every entry
//! that is packed: none of 224.0.0.0/4, not 255.255.255.255, and 0 where the
//! rule book has it. For a source that is cut, places.rs has the places.
mod common;
use common::v4::*;
use common::*;
use second::read::{AssertRecord, PairRecord, Record};
use second::Kind;

const G: u32 = 0xE801_0101;
const S: u32 = 0x0A00_0001;

// ---- messages

/// Messages with a source in them, and the entries they unpack to.
struct Case {
    what: &'static str,
    message: fn(u32) -> Vec<u8>,
    entries: fn(u32) -> Vec<u8>,
    /// The first octet of the source, and that of its record.
    place: (usize, usize),
    /// Whether the source may be 0.
    zero: bool,
}

fn source_record(source: u32) -> Vec<u8> {
    assert_record(G, source, 110, 20)
}

fn source_entry(source: u32) -> Vec<u8> {
    entry(G, source, 110, 20)
}

fn rp_record(source: u32) -> Vec<u8> {
    assert_record(G, source, R | 110, 20)
}

fn rp_entry(source: u32) -> Vec<u8> {
    entry(G, source, R | 110, 20)
}

/// Records of 22 octets, at 4 in a plain assert, at 8 and 30 in a simple one.
/// The source stands after the 8 octets of the group.
const RECORDS: [Case; 6] = [
    Case {
        what: "plain, R=0",
        message: |source| plain(source_record(source)),
        entries: source_entry,
        place: (12, 4),
        zero: false,
    },
    Case {
        what: "plain, R=1",
        message: |source| plain(rp_record(source)),
        entries: rp_entry,
        place: (12, 4),
        zero: true,
    },
    Case {
        what: "simple, the first, R=0",
        message: |source| simple(&[source_record(source), rp_record(S)]),
        entries: |source| [source_entry(source), rp_entry(S)].concat(),
        place: (16, 8),
        zero: false,
    },
    Case {
        what: "simple, the first, R=1",
        message: |source| simple(&[rp_record(source), source_record(S)]),
        entries: |source| [rp_entry(source), source_entry(S)].concat(),
        place: (16, 8),
        zero: true,
    },
    Case {
        what: "simple, the second, R=0",
        message: |source| simple(&[rp_record(S), source_record(source)]),
        entries: |source| [rp_entry(S), source_entry(source)].concat(),
        place: (38, 30),
        zero: false,
    },
    Case {
        what: "simple, the second, R=1",
        message: |source| simple(&[source_record(S), rp_record(source)]),
        entries: |source| [source_entry(S), rp_entry(source)].concat(),
        place: (38, 30),
        zero: true,
    },
];

/// A source aggregated record has its source after 8 octets, and 26 octets with
/// one group. An RP aggregated record has 12 octets, then group records of 12
/// octets and 6 for each source.
const AGGREGATED_RECORDS: [Case; 6] = [
    Case {
        what: "source aggregated, the first",
        message: |source| aggregated(&[source_aggregated(source, &[G]), source_aggregated(S, &[G])]),
        entries: |source| [source_entry(source), source_entry(S)].concat(),
        place: (16, 8),
        zero: false,
    },
    Case {
        what: "source aggregated, the second",
        message: |source| aggregated(&[source_aggregated(S, &[G]), source_aggregated(source, &[G])]),
        entries: |source| [source_entry(S), source_entry(source)].concat(),
        place: (42, 34),
        zero: false,
    },
    Case {
        what: "group record, the first source",
        message: |source| aggregated(&[rp_aggregated(&[group_record(G, &[source, S])])]),
        entries: |source| [rp_entry(source), rp_entry(S)].concat(),
        place: (32, 8),
        zero: true,
    },
    Case {
        what: "group record, the second source",
        message: |source| aggregated(&[rp_aggregated(&[group_record(G, &[S, source])])]),
        entries: |source| [rp_entry(S), rp_entry(source)].concat(),
        place: (38, 8),
        zero: true,
    },
    Case {
        what: "the second group record",
        message: |source| aggregated(&[rp_aggregated(&[group_record(G, &[]), group_record(G, &[source])])]),
        entries: |source| [rp_entry(0), rp_entry(source)].concat(),
        place: (44, 8),
        zero: true,
    },
    Case {
        what: "RP aggregated, the second",
        message: |source| {
            aggregated(&[source_aggregated(S, &[G]), rp_aggregated(&[group_record(G, &[source])])])
        },
        entries: |source| [source_entry(S), rp_entry(source)].concat(),
        place: (58, 34),
        zero: true,
    },
];

/// Pairs of 14 octets at 4 and 18, the source after 8.
const PAIRS: [Case; 4] = [
    Case {
        what: "null-register, the first",
        message: |source| null_register(&[pair_record(G, source), pair_record(G, S)]),
        entries: |source| [pair(G, source), pair(G, S)].concat(),
        place: (12, 4),
        zero: false,
    },
    Case {
        what: "null-register, the second",
        message: |source| null_register(&[pair_record(G, S), pair_record(G, source)]),
        entries: |source| [pair(G, S), pair(G, source)].concat(),
        place: (26, 18),
        zero: false,
    },
    Case {
        what: "register-stop, the first",
        message: |source| register_stop(&[pair_record(G, source), pair_record(G, S)]),
        entries: |source| [pair(G, source), pair(G, S)].concat(),
        place: (12, 4),
        zero: true,
    },
    Case {
        what: "register-stop, the second",
        message: |source| register_stop(&[pair_record(G, S), pair_record(G, source)]),
        entries: |source| [pair(G, S), pair(G, source)].concat(),
        place: (26, 18),
        zero: true,
    },
];

/// The message unpacks to its entries.
fn accepted(case: &Case, size: usize, read: Read, source: u32) {
    let (message, entries) = ((case.message)(source), (case.entries)(source));
    let mut read_entries = vec![0x77; entries.len()];
    let answer = read(&message, &mut read_entries);
    assert_eq!(answer, Ok((header(&message).unwrap(), entries.len() / size)), "{}: {source:08x}", case.what);
    assert_eq!(read_entries, entries, "{}: {source:08x}", case.what);
}

/// The message is refused at the source, before its room is looked at.
fn refused(case: &Case, read: Read, source: u32) {
    let message = (case.message)(source);
    let mut entries = [0x77; 64];
    for room in [64, 0] {
        let answer = read(&message, &mut entries[..room]);
        assert_eq!(answer, refusal_within(7, case.place.0, case.place.1), "{}: {source:08x}", case.what);
    }
    assert_eq!(entries, [0x77; 64]);
}

fn each_address(cases: &[Case], size: usize, read: Read) {
    for case in cases {
        EDGE_SOURCES.iter().for_each(|source| accepted(case, size, read, *source));
        NO_SOURCES.iter().for_each(|source| refused(case, read, *source));
        if case.zero {
            accepted(case, size, read, 0);
        } else {
            refused(case, read, 0);
        }
    }
}

#[test]
fn assert_records() {
    each_address(&RECORDS, ASSERT_ENTRY, read_asserts);
}

#[test]
fn aggregated_records() {
    each_address(&AGGREGATED_RECORDS, ASSERT_ENTRY, read_asserts);
}

#[test]
fn pairs() {
    each_address(&PAIRS, PAIR_ENTRY, read_pairs);
}

/// A record at 5 has its source at 13.
#[test]
fn records_read_singly() {
    let kinds = [
        (Kind::Assert, 110, false),
        (Kind::Assert, R | 110, true),
        (Kind::Simple, 110, false),
        (Kind::Simple, R | 110, true),
        (Kind::NullRegister, 110, false),
        (Kind::RegisterStop, 110, true),
    ];
    for (kind, r_preference, zero) in kinds {
        let octets = |source| [vec![0xE0; 5], assert_record(G, source, r_preference, 20)].concat();
        let read = |source| read_record(&octets(source), 5, kind);
        let found = |source: u32| match kind {
            Kind::Assert | Kind::Simple => {
                let record =
                    AssertRecord { group: G.into(), source: source.into(), r_preference, metric: 20 };
                Ok((Record::Assert(record), 27))
            }
            _ => Ok((Record::Pair(PairRecord { group: G.into(), source: source.into() }), 19)),
        };
        for source in EDGE_SOURCES {
            assert_eq!(read(source), found(source), "{kind:?}: {source:08x}");
        }
        for address in NO_SOURCES {
            assert_eq!(read(address), refusal_within(7, 13, 5), "{kind:?}: {address:08x}");
        }
        assert_eq!(read(0), if zero { found(0) } else { refusal_within(7, 13, 5) });
    }
}

/// What comes first in a message is found first.
#[test]
fn octet_order() {
    let bad = 0xE000_0001;
    let no_group = |source| assert_record(S, source, 110, 20);
    let narrow = |source| [&[1, 0, 0, 24][..], &assert_record(G, source, 110, 20)[4..]].concat();
    let none = rp_aggregated(&[]);
    let (from_bad, from_good) = (source_aggregated(bad, &[G]), source_aggregated(S, &[G]));
    let to_bad = |group| rp_aggregated(&[group_record(group, &[bad])]);
    let table = [
        // A group before the source of the same record.
        (plain(no_group(bad)), 7, 4, 4),
        (simple(&[narrow(bad)]), 7, 8, 8),
        (aggregated(&[to_bad(S)]), 7, 20, 8),
        (aggregated(&[rp_aggregated(&[group_record(G, &[]), group_record(S, &[bad])])]), 7, 32, 8),
        // The source of a source aggregated record before its groups.
        (aggregated(&[source_aggregated(bad, &[S])]), 7, 16, 8),
        // A source before a fault of a later record.
        (simple(&[source_record(bad), no_group(S)]), 7, 16, 8),
        (simple(&[rp_record(bad), source_record(0)]), 7, 16, 8),
        (simple(&[source_record(bad), vec![1]]), 7, 16, 8),
        (aggregated(&[from_bad.clone(), none.clone()]), 7, 16, 8),
        (aggregated(&[to_bad(G), none.clone()]), 7, 32, 8),
        (aggregated(&[from_good.clone(), from_bad.clone(), none.clone()]), 7, 42, 34),
        // A fault of an earlier record before a source.
        (simple(&[no_group(S), source_record(bad)]), 7, 8, 8),
        (simple(&[source_record(0), rp_record(bad)]), 7, 16, 8),
        (aggregated(&[none, from_bad]), 6, 16, 8),
        (
            aggregated(&[from_good, rp_aggregated(&[group_record(S, &[]), group_record(G, &[bad])])]),
            7,
            46,
            34,
        ),
        // Octets after a plain assert come last.
        (plain([source_record(bad), vec![0]].concat()), 7, 12, 4),
    ];
    for (message, number, place, within) in table {
        let answer = read_asserts(&message, &mut [0; 64]);
        assert_eq!(answer, refusal_within(number, place, within), "{message:02x?}");
    }
    let pairs = [
        (vec![pair_record(S, bad)], 4, 4),
        (vec![pair_record(G, bad), pair_record(S, S)], 12, 4),
        (vec![pair_record(S, S), pair_record(G, bad)], 4, 4),
        (vec![pair_record(G, S), pair_record(G, bad), vec![1]], 26, 18),
    ];
    for (pairs, place, within) in pairs {
        for message in [null_register(&pairs), register_stop(&pairs)] {
            assert_eq!(read_pairs(&message, &mut [0; 64]), refusal_within(7, place, within), "{pairs:02x?}");
        }
    }
}

/// What is found before any record: length, checksum, kind and Zero.
#[test]
fn before_the_source() {
    let good = simple(&[source_record(0xE000_0001)]);
    let mut m = good.clone();
    m[4] = 1;
    seal(&mut m);
    assert_eq!(read_asserts(&m, &mut []), refusal(5, 4));
    m[4] = 0;
    assert_eq!(read_asserts(&m, &mut []), refusal(3, 0));
    assert_eq!(read_pairs(&good, &mut []), refusal(4, 0));
    assert_eq!(read_asserts(&null_register(&[pair_record(G, 0xE000_0001)]), &mut []), refusal(4, 0));
    // The header alone tells the kind.
    assert_eq!(header(&good), Ok(Kind::Simple));
    assert_eq!(body(&good), &good[4..]);
}

// ---- entries

/// A list for a form, of these sources; R is set in asserts only.
fn list(form: &Form, r: u32, sources: &[u32]) -> Vec<u8> {
    let one = |source: &u32| match form.size {
        ASSERT_ENTRY => entry(G, *source, r | 110, 20),
        _ => pair(G, *source),
    };
    sources.iter().flat_map(one).collect()
}

/// A call on a list, refused with nothing written: the form's own, and the
/// choice for the two forms it has.
fn packing_refused(
    form: &Form,
    list: &[u8],
    start: usize,
    limit: usize,
    room: usize,
    (number, place): (u8, usize),
) {
    let mut buffer = vec![0x77; room];
    let what = format!("{:?} of {list:02x?} from {start}", form.kind);
    assert_eq!((form.pack)(list, start, limit, &mut buffer), refusal(number, place), "{what}");
    if form.kind == Kind::Simple || form.kind == Kind::Aggregated {
        let mut other = vec![0x77; room];
        assert_eq!(pack_both(list, start, limit, &mut buffer, &mut other), refusal(number, place), "{what}");
        assert_eq!(other, vec![0x77; room]);
    }
    assert_eq!(buffer, vec![0x77; room]);
}

/// Every call with both values of R, which pairs have not.
fn every_call(each: impl Fn(&Form, u32)) {
    for form in FORMS {
        each(&form, 0);
        each(&form, R);
    }
}

#[test]
fn first_bad_entry_from_the_start_on() {
    every_call(|form, r| {
        for bad in NO_SOURCES {
            let list = list(form, r, &[S, S, bad, S, bad]);
            for (start, place) in [(0, 2), (1, 2), (2, 2), (3, 4), (4, 4)] {
                packing_refused(form, &list, start, 38, 38, (7, place));
                packing_refused(form, &list, start, 0, 556, (7, place));
            }
            // Nothing is left to look at.
            assert_eq!((form.pack)(&list, 5, 38, &mut [0; 38]), Ok((0, 0)));
        }
    });
}

/// One bad entry of eleven, wherever it stands.
#[test]
fn each_entry_in_turn() {
    every_call(|form, r| {
        for bad in 0..11 {
            let mut sources = [S; 11];
            sources[bad] = 0xE000_0000;
            let list = list(form, r, &sources);
            (0..=bad).for_each(|start| packing_refused(form, &list, start, 38, 38, (7, bad)));
            assert!((form.pack)(&list, bad + 1, 38, &mut [0; 38]).is_ok());
        }
    });
}

/// Lengths of one entry: 4 + 22, 8 + 22, 8 + 18 + 8 or 8 + 12 + 12 + 6, 4 + 14.
#[test]
fn an_entry_before_the_start() {
    every_call(|form, r| {
        let length = match (form.kind, r) {
            (Kind::Assert, _) => 26,
            (Kind::Simple, _) => 30,
            (Kind::Aggregated, 0) => 34,
            (Kind::Aggregated, _) => 38,
            _ => 18,
        };
        for bad in NO_SOURCES {
            let list = list(form, r, &[bad, S]);
            let (mut buffer, mut entries) = ([0; 38], [0; 20]);
            assert_eq!((form.pack)(&list, 1, 38, &mut buffer), Ok((length, 1)));
            assert_eq!((form.read)(&buffer[..length], &mut entries), Ok((form.kind, 1)));
            assert_eq!(entries[..form.size], list[form.size..]);
        }
    });
    // The simple one is the shorter.
    let (mut simple, mut aggregated) = ([0; 38], [0; 38]);
    let list = [rp_entry(0xE000_0000), rp_entry(S)].concat();
    assert_eq!(pack_both(&list, 1, 38, &mut simple, &mut aggregated), Ok((false, 30, 1)));
}

#[test]
fn limit_room_and_list_before_entries() {
    every_call(|form, r| {
        let list = list(form, r, &[0xFFFF_FFFF, S]);
        let cut = &list[..list.len() - 1];
        packing_refused(form, cut, 0, 37, 37, (9, 0));
        packing_refused(form, cut, 0, 65_516, 37, (9, 0));
        packing_refused(form, cut, 0, 38, 37, (8, 0));
        packing_refused(form, cut, 0, 38, 38, (10, 0));
        packing_refused(form, &list, 3, 38, 38, (10, 0));
        packing_refused(form, &list, 0, 38, 38, (7, 0));
    });
}

/// A bad group and a bad source are the same fault: the earlier entry has it.
#[test]
fn bad_groups_and_bad_sources() {
    every_call(|form, r| {
        let good = list(form, r, &[S]);
        let bad_source = list(form, r, &[0xEFFF_FFFF]);
        let bad_group = [&good[..4], &S.to_be_bytes()[..], &good[8..]].concat();
        let both = [&good[..4], &S.to_be_bytes()[..], &bad_source[8..]].concat();
        packing_refused(form, &[&good[..], &bad_source, &bad_group].concat(), 0, 38, 38, (7, 1));
        packing_refused(form, &[&good[..], &bad_group, &bad_source].concat(), 0, 38, 38, (7, 1));
        packing_refused(form, &[&good[..], &both, &good].concat(), 0, 38, 38, (7, 1));
    });
}

/// A source 0 needs R=1, or a Register-Stop.
#[test]
fn source_0_in_entries() {
    every_call(|form, r| {
        let list = list(form, r, &[S, 0]);
        let allowed = if form.size == ASSERT_ENTRY { r == R } else { form.kind == Kind::RegisterStop };
        if allowed {
            assert!((form.pack)(&list, 1, 38, &mut [0; 38]).is_ok_and(|(_, taken)| taken == 1));
        } else {
            packing_refused(form, &list, 0, 38, 38, (7, 1));
        }
    });
}
