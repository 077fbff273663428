//! The rows: each checks that both sides give the same, and times them.

use crate::archive::{self, PackAnswer, ReadAnswer};
use crate::input::{self, PATH};
use crate::measure::{compare, side, Spread, Times};
use second::neighbours::{self, Table};
use second::{checksum, hello, pack, popcount, read, report, sheet};
use second::{Address, Answer, Family, Kind, Path, Refusal};
use std::hint::black_box;

/// The usual limit, what a datagram on Ethernet carries, and the largest.
const LIMITS: [usize; 3] = [pack::USUAL_LIMIT, 1_480, 65_515];
const TRAIN_ENTRIES: [usize; 2] = [1_024, 8_192];
/// More entries than any message holds.
const MANY: usize = 12_000;

/// A measured row. Rows of one series differ only in size.
pub struct Row {
    pub series: String,
    pub size: String,
    pub octets: usize,
    pub records: usize,
    /// The entries that the calls of a train look at, by the rule on refusal 7.
    pub looked_at: Option<usize>,
    /// What each pass measured.
    pub passes: Vec<Times>,
}

impl Row {
    pub fn name(&self) -> String {
        format!("{}, {}", self.series, self.size)
    }

    /// Of the archive's times the median.
    pub fn archive(&self) -> f64 {
        self.spread(|times| times.archive).median
    }

    /// Of the second program's times the median.
    pub fn second(&self) -> f64 {
        self.spread(|times| times.second).median
    }

    pub fn ratio(&self) -> Spread {
        self.spread(Times::ratio)
    }

    pub fn control(&self) -> Spread {
        self.spread(Times::control)
    }

    fn spread(&self, number: impl Fn(&Times) -> f64) -> Spread {
        Spread::of(self.passes.iter().map(number).collect())
    }
}

pub struct Measured {
    pub rows: Vec<Row>,
    /// The archive's checksum against the second program's deferred sum, which folds all carries in at the end.
    pub deferred: Vec<Row>,
}

/// All rows in one pass, in the order of the report: IPv4, then IPv6.
pub fn measure() -> Measured {
    let mut measured = Measured { rows: Vec::new(), deferred: Vec::new() };
    for family in Family::ALL {
        reading(&mut measured.rows, family);
        trains(&mut measured.rows, family);
        checksums(&mut measured, family);
        tables(&mut measured.rows, family);
        sheets(&mut measured.rows, family);
        measured.rows.push(read_hello(family));
        measured.rows.push(write_hello(family));
        refusals(&mut measured.rows, family);
    }
    // Of no family, and of IPv4 alone.
    measured.rows.extend(ROWS.map(elect_among));
    measured.rows.push(merge());
    reports(&mut measured.rows);
    measured.rows.push(refused_attribute());
    measured.rows.push(refused_contributors());
    measured
}

/// What a series is named, with its family where that is IPv6.
fn named(series: &str, family: Family) -> String {
    match family {
        Family::Ipv4 => series.to_string(),
        Family::Ipv6 => format!("IPv6: {series}"),
    }
}

/// 1,480 for 1480.
pub fn thousands(n: usize) -> String {
    if n < 1_000 {
        return n.to_string();
    }
    format!("{},{:03}", thousands(n / 1_000), n % 1_000)
}

// ---- reading

type ArchivePack = fn(Family, Path, &[u8], usize, usize, &mut [u8]) -> PackAnswer;
type SecondPack = fn(Family, Path, &[u8], usize, usize, &mut [u8]) -> Answer<(usize, usize)>;
type ArchiveRead = fn(Family, Path, &[u8], &mut [u8]) -> ReadAnswer;
type SecondRead = fn(Family, Path, &[u8], &mut [u8]) -> Answer<(Kind, usize)>;

fn reading(rows: &mut Vec<Row>, family: Family) {
    let aggregated = pack::pack_aggregated;
    let lone = input::lone_asserts(family, MANY);
    let pairs = input::pairs(family, MANY);
    read_asserts(rows, family, "read simple", &lone, pack::pack_simple);
    read_asserts(rows, family, "read aggregated", &input::mixed_asserts(family, MANY), aggregated);
    let one_source = input::one_source_asserts(family, MANY);
    read_asserts(rows, family, "read aggregated, one source", &one_source, aggregated);
    let one_group = input::one_group_asserts(family, MANY);
    read_asserts(rows, family, "read aggregated, one group", &one_group, aggregated);
    read_pairs(rows, family, "read null-register", &pairs, pack::pack_null_register);
    if family == Family::Ipv6 {
        return;
    }
    read_pairs(rows, family, "read register-stop", &pairs, pack::pack_register_stop);
    let seldom = input::seldom_asserts(family, MANY);
    read_asserts(rows, family, "read simple, seldom sources", &seldom, pack::pack_simple);
    let seldom = input::seldom_group_asserts(family, MANY);
    read_asserts(rows, family, "read aggregated, one group, seldom sources", &seldom, aggregated);
    let seldom = input::seldom_pairs(family, MANY);
    read_pairs(rows, family, "read null-register, seldom sources", &seldom, pack::pack_null_register);
}

/// The fullest message within the limit.
fn message(family: Family, list: &[u8], limit: usize, pack: SecondPack) -> Vec<u8> {
    let mut message = vec![0; limit];
    let (length, _) = pack(family, PATH, list, 0, limit, &mut message).expect("the list is good");
    message.truncate(length);
    message
}

fn read_asserts(rows: &mut Vec<Row>, family: Family, series: &str, list: &[u8], pack: SecondPack) {
    for limit in LIMITS {
        let message = message(family, list, limit, pack);
        let (ours, theirs): (ArchiveRead, SecondRead) = (archive::read_asserts, read::read_asserts);
        rows.push(read_row(family, series, limit, &message, ours, theirs));
    }
}

fn read_pairs(rows: &mut Vec<Row>, family: Family, series: &str, list: &[u8], pack: SecondPack) {
    for limit in LIMITS {
        let message = message(family, list, limit, pack);
        let (ours, theirs): (ArchiveRead, SecondRead) = (archive::read_pairs, read::read_pairs);
        rows.push(read_row(family, series, limit, &message, ours, theirs));
    }
}

fn read_row(
    family: Family,
    series: &str,
    limit: usize,
    message: &[u8],
    ours: impl Fn(Family, Path, &[u8], &mut [u8]) -> ReadAnswer,
    theirs: impl Fn(Family, Path, &[u8], &mut [u8]) -> Answer<(Kind, usize)>,
) -> Row {
    let mut a = vec![0; family.assert_entry() * MANY];
    let mut s = a.clone();
    let answer = ours(family, PATH, message, &mut a);
    let (kind, count) = theirs(family, PATH, message, &mut s).expect("the message is good");
    assert_eq!((answer.refusal.number, answer.kind, answer.count), (0, kind.number(), count), "{series}");
    assert!(a == s, "{series}: the entries differ");
    let (told, path) = (black_box(family), black_box(PATH));
    let times = compare(
        &mut side(|| {
            black_box(ours(told, path, black_box(message), black_box(&mut a)));
        }),
        &mut side(|| {
            black_box(theirs(told, path, black_box(message), black_box(&mut s))).ok();
        }),
    );
    Row {
        series: named(series, family),
        size: format!("limit {}", thousands(limit)),
        octets: message.len(),
        records: count,
        looked_at: None,
        passes: vec![times],
    }
}

// ---- whole trains

/// A list of so many entries of a family.
type Make = fn(Family, usize) -> Vec<u8>;

fn trains(rows: &mut Vec<Row>, family: Family) {
    let lone: Make = input::lone_asserts;
    let kinds: [(&str, Make, ArchivePack, SecondPack); 5] = [
        ("simple", lone, archive::pack_simple, pack::pack_simple),
        ("aggregated", input::mixed_asserts, archive::pack_aggregated, pack::pack_aggregated),
        ("null-register", input::pairs, archive::pack_null_register, pack::pack_null_register),
        ("register-stop", input::pairs, archive::pack_register_stop, pack::pack_register_stop),
        ("aggregated, no sources", input::no_source_asserts, archive::pack_aggregated, pack::pack_aggregated),
    ];
    // Each family without the one that shows nothing new of it.
    let left_out = if family == Family::Ipv4 { 4 } else { 3 };
    for (i, (kind, list, ours, theirs)) in kinds.into_iter().enumerate() {
        if i == left_out {
            continue;
        }
        LIMITS.iter().for_each(|limit| train_rows(rows, family, kind, list, *limit, ours, theirs));
    }
}

/// What the calls of a train pass: 0 for the usual limit, so that the call measured is the one that reads it.
fn passed(limit: usize) -> usize {
    if limit == pack::USUAL_LIMIT {
        0
    } else {
        limit
    }
}

/// Length and taken of the next message, in the buffer.
trait Packing: Fn(&[u8], usize, usize, &mut [u8]) -> (usize, usize) {}
impl<F: Fn(&[u8], usize, usize, &mut [u8]) -> (usize, usize)> Packing for F {}

fn train_rows(
    rows: &mut Vec<Row>,
    family: Family,
    kind: &str,
    list: Make,
    limit: usize,
    ours: ArchivePack,
    theirs: SecondPack,
) {
    let (told, path) = (black_box(family), black_box(PATH));
    let ours = |list: &[u8], start: usize, limit: usize, buffer: &mut [u8]| {
        let answer = ours(told, path, list, start, limit, buffer);
        assert_eq!(answer.refusal.number, 0, "the archive refuses to pack");
        (answer.length, answer.taken)
    };
    let theirs = |list: &[u8], start: usize, limit: usize, buffer: &mut [u8]| {
        theirs(told, path, list, start, limit, buffer).expect("the second program packs")
    };
    for entries in TRAIN_ENTRIES {
        let series = named(&format!("pack {kind}, limit {}", thousands(limit)), family);
        rows.push(train_row(&series, entries, &list(family, entries), limit, &ours, &theirs));
    }
}

fn train_row(
    series: &str,
    entries: usize,
    list: &[u8],
    limit: usize,
    ours: &impl Packing,
    theirs: &impl Packing,
) -> Row {
    let passed = passed(limit);
    let mut a = vec![0; limit];
    let mut s = vec![0; limit];
    let train = whole_train(list, passed, &mut s, theirs);
    assert!(train == whole_train(list, passed, &mut a, ours), "{series}: the trains differ");
    let times = compare(
        &mut side(|| {
            black_box(pack_all(black_box(list), black_box(passed), black_box(&mut a), ours));
        }),
        &mut side(|| {
            black_box(pack_all(black_box(list), black_box(passed), black_box(&mut s), theirs));
        }),
    );
    Row {
        series: series.to_string(),
        size: format!("{} entries", thousands(entries)),
        octets: train.iter().map(|(message, _)| message.len()).sum(),
        records: entries,
        looked_at: Some(looked_at(entries, &train)),
        passes: vec![times],
    }
}

/// Each message, and the entries it took.
fn whole_train(list: &[u8], limit: usize, buffer: &mut [u8], pack: &impl Packing) -> Vec<(Vec<u8>, usize)> {
    let mut train = Vec::new();
    let mut start = 0;
    loop {
        let (length, taken) = pack(list, start, limit, buffer);
        if length == 0 {
            return train;
        }
        train.push((buffer[..length].to_vec(), taken));
        start += taken;
    }
}

/// The train again, each message over the one before: what is timed.
#[inline(always)]
fn pack_all(list: &[u8], limit: usize, buffer: &mut [u8], pack: &impl Packing) -> usize {
    let mut start = 0;
    loop {
        let (length, taken) = pack(list, start, limit, buffer);
        if length == 0 {
            return start;
        }
        start += taken;
    }
}

/// Every call looks at all entries from its start on.
fn looked_at(entries: usize, train: &[(Vec<u8>, usize)]) -> usize {
    let mut left = entries;
    let mut sum = 0;
    for (_, taken) in train {
        sum += left;
        left -= taken;
    }
    sum
}

// ---- the checksum

fn checksums(measured: &mut Measured, family: Family) {
    let made = |m: &[u8]| match family {
        Family::Ipv4 => checksum::checksum(m),
        Family::Ipv6 => checksum::checksum_ipv6(PATH, m),
    };
    for octets in LIMITS {
        measured.rows.push(checksum_row("checksum made", family, octets, made));
    }
    for octets in LIMITS {
        measured.rows.push(checksum_holds_row(family, octets));
    }
    if family == Family::Ipv4 {
        for octets in LIMITS {
            measured.deferred.push(checksum_row("checksum", family, octets, checksum::checksum_deferred));
        }
    }
}

/// The field of a message, its field being 0.
fn checksum_row(series: &str, family: Family, octets: usize, theirs: impl Fn(&[u8]) -> u16) -> Row {
    let message = input::unsealed(octets);
    let ours = |m: &[u8]| match family {
        Family::Ipv4 => archive::checksum(m),
        Family::Ipv6 => archive::checksum_ipv6(PATH, m),
    };
    assert_eq!(ours(&message), theirs(&message), "{series}");
    let times = compare(
        &mut side(|| {
            black_box(ours(black_box(&message)));
        }),
        &mut side(|| {
            black_box(theirs(black_box(&message)));
        }),
    );
    octets_row(&named(series, family), octets, times)
}

fn sealed(family: Family, mut message: Vec<u8>) -> Vec<u8> {
    message[2..4].fill(0);
    let sum = match family {
        Family::Ipv4 => checksum::checksum(&message),
        Family::Ipv6 => checksum::checksum_ipv6(PATH, &message),
    };
    message[2..4].copy_from_slice(&sum.to_be_bytes());
    message
}

/// Whether a message's checksum holds.
fn checksum_holds_row(family: Family, octets: usize) -> Row {
    let message = sealed(family, input::unsealed(octets));
    let ours = |m: &[u8]| match family {
        Family::Ipv4 => archive::checksum_holds(m),
        Family::Ipv6 => archive::checksum_ipv6_holds(PATH, m),
    };
    let theirs = |m: &[u8]| match family {
        Family::Ipv4 => checksum::checksum(m) == 0,
        Family::Ipv6 => checksum::checksum_ipv6(PATH, m) == 0,
    };
    assert!(ours(&message) && theirs(&message));
    let times = compare(
        &mut side(|| {
            black_box(ours(black_box(&message)));
        }),
        &mut side(|| {
            black_box(theirs(black_box(&message)));
        }),
    );
    octets_row(&named("checksum checked", family), octets, times)
}

/// A row that has no records.
fn octets_row(series: &str, octets: usize, times: Times) -> Row {
    Row {
        series: series.to_string(),
        size: format!("{} octets", thousands(octets)),
        octets,
        records: 0,
        looked_at: None,
        passes: vec![times],
    }
}

// ---- the neighbour table, which goes by value to both sides

/// Rows in use where there is to be room for one more, and elsewhere.
const ROWS_AND_ROOM: [usize; 3] = [4, 16, 63];
const ROWS: [usize; 3] = [4, 16, 64];
/// The number of a row that no table has, for an address, and the priority beside it.
const OTHER: (usize, u32) = (256, 5);

fn tables(rows: &mut Vec<Row>, family: Family) {
    let other = input::address(family, OTHER.0);
    let again = |rows: usize| hear("hear an address again", family, rows, input::address(family, rows / 2));
    rows.extend(ROWS_AND_ROOM.map(again));
    rows.extend(ROWS_AND_ROOM.map(|rows| hear("hear a new address", family, rows, other)));
    rows.extend(ROWS.map(|rows| forget(family, rows)));
    rows.extend(ROWS.map(|rows| elect(family, rows)));
    rows.extend(ROWS.map(|rows| packing_allowed(family, rows)));
}

/// The same row in the archive's form.
fn archive_row(row: &neighbours::Neighbour) -> archive::Neighbour {
    archive::Neighbour {
        address: row.address.into(),
        priority: row.priority,
        has_priority: row.has_priority,
        packs: row.packs,
        holdtime: row.holdtime,
    }
}

/// The same table in the archive's form.
fn archive_table(table: &Table) -> archive::Table {
    archive::Table { rows: table.rows.map(|row| archive_row(&row)), count: table.count }
}

fn hear(series: &str, family: Family, rows: usize, address: Address) -> Row {
    let (a_said, s_said) = (archive_hello(&input::SAID), input::SAID);
    let told = black_box(family);
    let ours = |table| archive::hear(told, table, black_box(address.into()), black_box(a_said));
    let theirs = |table| neighbours::hear(told, table, black_box(address), black_box(s_said));
    changed_row(series, family, rows, ours, theirs)
}

fn forget(family: Family, rows: usize) -> Row {
    let (address, told) = (input::address(family, rows / 2), black_box(family));
    let ours = |table| archive::forget(told, table, black_box(address.into()));
    let theirs = |table| neighbours::forget(told, table, black_box(address));
    changed_row("forget an address in the middle", family, rows, ours, theirs)
}

/// A call that gives the table back.
fn changed_row(
    series: &str,
    family: Family,
    rows: usize,
    ours: impl Fn(archive::Table) -> archive::TableAnswer,
    theirs: impl Fn(Table) -> Answer<Table>,
) -> Row {
    let table = input::table(family, rows);
    let (answer, changed) = (ours(archive_table(&table)), theirs(table).expect("the table is good"));
    assert_eq!((answer.refusal.number, answer.table), (0, archive_table(&changed)), "{series}");
    table_row(&named(series, family), &table, ours, theirs)
}

fn elect(family: Family, rows: usize) -> Row {
    let (own, told) = (input::address(family, OTHER.0), black_box(family));
    let ours = |table| archive::elect(told, table, black_box(own.into()), black_box(OTHER.1));
    let theirs =
        |table: Table| neighbours::elect(told, black_box(&table), black_box(own), black_box(OTHER.1));
    let table = input::table(family, rows);
    let address = theirs(table).expect("the table is good").into();
    let answer = archive::ElectAnswer { refusal: archive::Refusal::default(), address };
    assert_eq!(ours(archive_table(&table)), answer, "elect");
    table_row(&named("elect", family), &table, ours, theirs)
}

/// Over a lent list, which names no family.
fn elect_among(rows: usize) -> Row {
    let table = input::table(Family::Ipv6, rows);
    let theirs = &table.rows[..rows];
    let ours: Vec<archive::Neighbour> = theirs.iter().map(archive_row).collect();
    let address = neighbours::elect_among(theirs).expect("the rows are good").into();
    let answer = archive::ElectAnswer { refusal: archive::Refusal::default(), address };
    assert_eq!(archive::elect_among(&ours), answer, "elect among lent rows");
    let times = compare(
        &mut side(|| {
            black_box(archive::elect_among(black_box(&ours)));
        }),
        &mut side(|| {
            black_box(neighbours::elect_among(black_box(theirs))).ok();
        }),
    );
    Row {
        size: format!("{rows} rows"),
        records: rows,
        ..octets_row("elect among lent rows", size_of_val(&ours[..]), times)
    }
}

fn packing_allowed(family: Family, rows: usize) -> Row {
    let told = black_box(family);
    let ours = |table| archive::packing_allowed(told, table);
    let theirs = |table: Table| neighbours::packing_allowed(told, black_box(&table));
    let table = input::table(family, rows);
    let allowed = theirs(table).expect("the table is good");
    let answer = archive::AllowedAnswer { refusal: archive::Refusal::default(), allowed };
    assert_eq!(ours(archive_table(&table)), answer, "packing allowed");
    table_row(&named("packing allowed", family), &table, ours, theirs)
}

fn table_row<A, S>(
    series: &str,
    table: &Table,
    ours: impl Fn(archive::Table) -> A,
    theirs: impl Fn(Table) -> S,
) -> Row {
    let archives = archive_table(table);
    let times = compare(
        &mut side(|| {
            black_box(&ours(*black_box(&archives)));
        }),
        &mut side(|| {
            black_box(&theirs(*black_box(table)));
        }),
    );
    Row {
        series: series.to_string(),
        size: format!("{} rows", table.count),
        octets: size_of::<archive::Table>(),
        records: table.count,
        looked_at: None,
        passes: vec![times],
    }
}

// ---- the sheet

const SHEET_ENTRIES: usize = sheet::ENTRIES_MOST;

/// The three lists of a full sheet, and the sheet.
struct Full {
    family: Family,
    /// What a row is named after, beside its call.
    form: &'static str,
    asserts: Vec<u8>,
    pairs: Vec<u8>,
    theirs: Table,
    ours: archive::Table,
    sheet: Vec<u8>,
}

impl Full {
    fn of(family: Family, form: &'static str, entries: usize, rows: usize) -> Full {
        let theirs = input::sheet_table(family, rows);
        Full {
            family,
            form,
            asserts: input::mixed_asserts(family, entries),
            pairs: input::pairs(family, entries),
            ours: archive_table(&theirs),
            theirs,
            sheet: Vec::new(),
        }
    }

    fn sheet(family: Family) -> Full {
        let mut full = Full::of(family, "", SHEET_ENTRIES, archive::ROWS);
        full.sheet = vec![0; if family == Family::Ipv4 { 263_196 } else { 657_180 }];
        let length = sheet::write_sheet(family, &full.asserts, &full.pairs, &full.theirs, &mut full.sheet);
        assert_eq!(length, Ok(full.sheet.len()));
        full
    }

    fn old_sheet() -> Full {
        let mut full = Full::of(Family::Ipv4, ", old form", 1_024, 16);
        full.sheet = input::old_sheet(&full.asserts, &full.pairs, &full.theirs);
        assert_eq!(full.sheet.len(), 24_780);
        full
    }

    fn counts(&self) -> [usize; 3] {
        let family = self.family;
        let asserts = self.asserts.len() / family.assert_entry();
        [asserts, self.pairs.len() / family.pair_entry(), self.ours.count]
    }

    fn row(&self, series: &str, times: Times) -> Row {
        Row {
            series: named(&format!("{series}{}", self.form), self.family),
            size: "full".to_string(),
            octets: self.sheet.len(),
            records: self.counts().iter().sum(),
            looked_at: None,
            passes: vec![times],
        }
    }
}

fn sheets(rows: &mut Vec<Row>, family: Family) {
    let full = Full::sheet(family);
    rows.push(read_sheet(&full));
    rows.push(write_sheet(&full));
    rows.push(check_sheet(&full));
    if family == Family::Ipv4 {
        let old = Full::old_sheet();
        rows.push(read_sheet(&old));
        rows.push(check_sheet(&old));
    }
}

fn read_sheet(full: &Full) -> Row {
    let mut a = (vec![0; full.asserts.len()], vec![0; full.pairs.len()]);
    let mut s = a.clone();
    let told = black_box(full.family);
    let answer = archive::read_sheet(told, &full.sheet, &mut a.0, &mut a.1);
    assert_eq!(answer.refusal.number, 0, "the archive refuses the sheet");
    assert!(a.0 == full.asserts && a.1 == full.pairs && answer.table == full.ours, "read sheet");
    let times = compare(
        &mut side(|| {
            let (asserts, pairs) = (black_box(&mut a.0), black_box(&mut a.1));
            black_box(archive::read_sheet(told, black_box(&full.sheet), asserts, pairs));
        }),
        &mut side(|| {
            let (asserts, pairs) = (black_box(&mut s.0), black_box(&mut s.1));
            black_box(sheet::read_sheet(told, black_box(&full.sheet), asserts, pairs)).ok();
        }),
    );
    assert!(s == a, "read sheet");
    full.row("read sheet", times)
}

fn write_sheet(full: &Full) -> Row {
    let mut a = vec![0; full.sheet.len()];
    let mut s = a.clone();
    let told = black_box(full.family);
    let times = compare(
        &mut side(|| {
            let table = *black_box(&full.ours);
            let (asserts, pairs) = (black_box(&full.asserts), black_box(&full.pairs));
            black_box(archive::write_sheet(told, asserts, pairs, table, black_box(&mut a)));
        }),
        &mut side(|| {
            let table = black_box(&full.theirs);
            let (asserts, pairs) = (black_box(&full.asserts), black_box(&full.pairs));
            black_box(sheet::write_sheet(told, asserts, pairs, table, black_box(&mut s))).ok();
        }),
    );
    assert!(a == full.sheet && s == full.sheet, "write sheet");
    full.row("write sheet", times)
}

fn check_sheet(full: &Full) -> Row {
    let told = black_box(full.family);
    let archive::CheckAnswer { refusal, counts } = archive::check_sheet(told, &full.sheet);
    let theirs = sheet::check_sheet(told, &full.sheet);
    assert_eq!((refusal.number, theirs), (0, Ok(full.counts())), "check sheet");
    assert_eq!([counts.asserts, counts.pairs, counts.neighbours], full.counts(), "check sheet");
    let times = compare(
        &mut side(|| {
            black_box(archive::check_sheet(told, black_box(&full.sheet)));
        }),
        &mut side(|| {
            black_box(sheet::check_sheet(told, black_box(&full.sheet))).ok();
        }),
    );
    full.row("check sheet", times)
}

// ---- single calls

const ATTRIBUTES: usize = 20;

fn merge() -> Row {
    let contributors = input::attributes(ATTRIBUTES);
    let (a_own, s_own) = own_values();
    let mut a = [0; 22];
    let mut s = [0; 22];
    let answer = archive::popcount_merge(a_own, true, &contributors, &mut a);
    let length = popcount::merge(s_own, &contributors, true, &mut s).expect("the attributes are good");
    assert_eq!((answer.refusal.number, answer.length, a), (0, length, s), "merge");
    let times = compare(
        &mut side(|| {
            black_box(archive::popcount_merge(
                black_box(a_own),
                true,
                black_box(&contributors),
                black_box(&mut a),
            ));
        }),
        &mut side(|| {
            let answer = popcount::merge(black_box(s_own), black_box(&contributors), true, black_box(&mut s));
            black_box(answer).ok();
        }),
    );
    Row {
        series: "merge Pop-Count".to_string(),
        size: format!("{ATTRIBUTES} attributes"),
        octets: contributors.len(),
        records: ATTRIBUTES,
        looked_at: None,
        passes: vec![times],
    }
}

/// Our own values for each side.
fn own_values() -> (archive::PopcountOwn, popcount::Own) {
    let (mtu, flags, transit, stub, least, greatest) = (1_500, 0x13, 3, 7, 0x0864, 0x1064);
    (
        archive::PopcountOwn { mtu, flags, transit, stub, minimum_speed: least, maximum_speed: greatest },
        popcount::Own { mtu, flags, transit, stub, least_speed: least, greatest_speed: greatest },
    )
}

/// The same Hello in the archive's form.
fn archive_hello(said: &hello::Hello) -> archive::Hello {
    archive::Hello {
        holdtime: said.holdtime,
        has_priority: said.priority.is_some(),
        priority: said.priority.unwrap_or(0),
        packing: said.packing,
    }
}

fn read_hello(family: Family) -> Row {
    let message = sealed(family, input::HELLO.to_vec());
    let (told, path) = (black_box(family), black_box(PATH));
    let answer = archive::read_hello(told, path, &message);
    let said = hello::read_hello(told, path, &message).expect("the Hello is good");
    assert_eq!(answer.refusal.number, 0, "the archive refuses the Hello");
    assert_eq!(answer.hello, archive_hello(&said), "read Hello");
    let times = compare(
        &mut side(|| {
            black_box(archive::read_hello(told, path, black_box(&message)));
        }),
        &mut side(|| {
            black_box(hello::read_hello(told, path, black_box(&message))).ok();
        }),
    );
    octets_row(&named("read Hello", family), message.len(), times)
}

/// All options that can be written: 22 octets.
fn write_hello(family: Family) -> Row {
    let theirs = input::SAID;
    let ours = archive_hello(&theirs);
    let (told, path) = (black_box(family), black_box(PATH));
    let mut a = [0; 22];
    let mut s = [0; 22];
    let answer = archive::write_hello(told, path, ours, &mut a);
    let length = hello::write_hello(told, path, theirs, &mut s).expect("the buffer is long enough");
    assert_eq!((answer.refusal.number, answer.length, a), (0, length, s), "write Hello");
    let times = compare(
        &mut side(|| {
            black_box(archive::write_hello(told, path, black_box(ours), black_box(&mut a)));
        }),
        &mut side(|| {
            black_box(hello::write_hello(told, path, black_box(theirs), black_box(&mut s))).ok();
        }),
    );
    octets_row(&named("write Hello", family), length, times)
}

// ---- the report of a file

/// Files of all packed kinds at two limits, and one of the short messages. They are IPv4.
fn reports(rows: &mut Vec<Row>) {
    let family = Family::Ipv4;
    let lone = input::lone_asserts(family, MANY);
    let pairs = input::pairs(family, MANY);
    for limit in [pack::USUAL_LIMIT, 1_480] {
        let trains = [
            messages(&lone, limit, pack::pack_simple),
            messages(&input::mixed_asserts(family, MANY), limit, pack::pack_aggregated),
            messages(&pairs, limit, pack::pack_null_register),
            messages(&pairs, limit, pack::pack_register_stop),
        ];
        rows.push(report_row(&format!("report, packed at {}", thousands(limit)), &input::file(&trains)));
    }
    let asserts = messages(&lone, family.least_limit(), pack::pack_assert);
    rows.push(report_row("report, Hellos and asserts", &input::file(&[input::hellos(MANY), asserts])));
}

/// The train of a list.
fn messages(list: &[u8], limit: usize, pack: SecondPack) -> Vec<Vec<u8>> {
    let pack = |list: &[u8], start: usize, limit: usize, buffer: &mut [u8]| {
        pack(Family::Ipv4, PATH, list, start, limit, buffer).expect("the list is good")
    };
    whole_train(list, limit, &mut vec![0; limit], &pack).into_iter().map(|(message, _)| message).collect()
}

fn report_row(series: &str, file: &[u8]) -> Row {
    let theirs = report::report(file);
    assert_eq!(archive::report(file), archive_report(&theirs), "{series}");
    assert!(theirs.whole && theirs.tally.refused == [0; 15], "{series}: all messages are good");
    let times = compare(
        &mut side(|| {
            black_box(archive::report(black_box(file)));
        }),
        &mut side(|| {
            black_box(report::report(black_box(file)));
        }),
    );
    Row {
        series: series.to_string(),
        size: "1 megabyte".to_string(),
        octets: file.len(),
        records: theirs.tally.accepted.iter().map(|count| count.records as usize).sum(),
        looked_at: None,
        passes: vec![times],
    }
}

/// The same report in the archive's form.
fn archive_report(report: &report::Report) -> archive::ReportAnswer {
    let report::Report { tally, mean, whole } = *report;
    let accepted =
        tally.accepted.map(|count| archive::Totals { messages: count.messages, records: count.records });
    archive::ReportAnswer {
        tally: archive::Tally { accepted, refused: tally.refused },
        mean: archive::Fraction { numerator: mean.numerator, denominator: mean.denominator },
        whole,
    }
}

// ---- octets whose last field, or last entry, is at fault: all of them are read, and the place is the last one
// there is

/// A number and a place.
type Expected = (u8, usize);

/// 224.0.0.1, or ff00::, which is no source: as many octets of it as tell that.
const MULTICAST: [[u8; 4]; 2] = [[224, 0, 0, 1], [255, 0, 0, 0]];

fn multicast(family: Family) -> &'static [u8] {
    &MULTICAST[usize::from(family.number()) - 1]
}

fn refusals(rows: &mut Vec<Row>, family: Family) {
    refused_messages(rows, family);
    refused_sources(rows, family);
    for entries in TRAIN_ENTRIES {
        let list = input::lone_asserts(family, entries);
        let (ours, theirs): (ArchivePack, SecondPack) = (archive::pack_simple, pack::pack_simple);
        rows.push(refused_list(family, "asserts", entries, list, ours, theirs));
    }
    for entries in TRAIN_ENTRIES {
        let list = input::pairs(family, entries);
        let (ours, theirs): (ArchivePack, SecondPack) =
            (archive::pack_null_register, pack::pack_null_register);
        rows.push(refused_list(family, "pairs", entries, list, ours, theirs));
    }
    rows.push(refused_sheet(family));
    rows.push(refused_hello(family));
}

/// The octets of a group and of a source in a message.
fn fields(family: Family) -> (usize, usize) {
    (4 + family.width(), 2 + family.width())
}

/// Messages at limit 1,480, of as many records, groups, sources and pairs as fit.
fn refused_messages(rows: &mut Vec<Row>, family: Family) {
    let (group, source) = fields(family);
    let (record, pair) = (group + source + 8, group + source);
    // 8 octets and the records, the last of which has its metric in its last four.
    let mut records = message(family, &input::lone_asserts(family, MANY), 1_480, pack::pack_simple);
    let metric = records.len() - 4;
    assert_eq!((records.len() - 8) % record, 0);
    records.pop();
    rows.push(refused_asserts("refuse simple, last metric cut", family, records, (6, metric)));
    // Behind the source and a number the groups.
    let list = input::one_source_asserts(family, MANY);
    let mut groups = message(family, &list, 1_480, pack::pack_aggregated);
    let last = groups.len() - group;
    assert_eq!((groups.len() - 8 - 8 - source - 4) % group, 0);
    groups[last] ^= 3;
    rows.push(refused_asserts("refuse aggregated, last group wrong", family, groups, (7, last)));
    // Behind the group and a number the sources.
    let list = input::one_group_asserts(family, MANY);
    let mut sources = message(family, &list, 1_480, pack::pack_aggregated);
    let last = sources.len() - source;
    assert_eq!((sources.len() - 8 - 12 - group - 4) % source, 0);
    sources.pop();
    rows.push(refused_asserts("refuse aggregated, last source cut", family, sources, (6, last)));
    // 4 octets and the pairs.
    let mut pairs = message(family, &input::pairs(family, MANY), 1_480, pack::pack_null_register);
    let last = pairs.len() - source;
    assert_eq!((pairs.len() - 4) % pair, 0);
    pairs[last + 2..].fill(0);
    rows.push(refused_pairs("refuse null-register, last source 0", family, pairs, (7, last)));
}

/// The same messages, the last source of each being multicast, its address after 2 octets.
fn refused_sources(rows: &mut Vec<Row>, family: Family) {
    let (_, source) = fields(family);
    let records = message(family, &input::lone_asserts(family, MANY), 1_480, pack::pack_simple);
    let place = records.len() - 8 - source;
    let records = put(records, place + 2, multicast(family));
    rows.push(refused_asserts("refuse simple, last source multicast", family, records, (7, place)));
    let sources = message(family, &input::one_group_asserts(family, MANY), 1_480, pack::pack_aggregated);
    let place = sources.len() - source;
    let sources = put(sources, place + 2, multicast(family));
    rows.push(refused_asserts("refuse aggregated, last source multicast", family, sources, (7, place)));
    let pairs = message(family, &input::pairs(family, MANY), 1_480, pack::pack_register_stop);
    let place = pairs.len() - source;
    let pairs = put(pairs, place + 2, multicast(family));
    rows.push(refused_pairs("refuse register-stop, last source multicast", family, pairs, (7, place)));
}

/// Octets with others put at a place.
fn put(mut octets: Vec<u8>, at: usize, others: &[u8]) -> Vec<u8> {
    octets[at..at + others.len()].copy_from_slice(others);
    octets
}

/// A packing call on a list whose last source becomes multicast: it looks at all entries, and writes nothing.
fn refused_list(
    family: Family,
    kind: &str,
    entries: usize,
    list: Vec<u8>,
    ours: ArchivePack,
    theirs: SecondPack,
) -> Row {
    let last = list.len() / entries * (entries - 1);
    let list = put(list, last + 4 + family.width(), multicast(family));
    let (mut a, mut s) = ([0; 1_480], [0; 1_480]);
    let (told, path) = (black_box(family), black_box(PATH));
    let ours = |list: &[u8]| ours(told, path, list, 0, 1_480, black_box(&mut a)).refusal;
    let theirs = |list: &[u8]| theirs(told, path, list, 0, 1_480, black_box(&mut s)).err();
    let series = named(&format!("refuse to pack {kind}, last multicast"), family);
    Row {
        size: format!("{} entries", thousands(entries)),
        records: entries,
        looked_at: Some(entries),
        ..refused_row(&series, &list, (7, entries - 1), ours, theirs)
    }
}

/// A full sheet, which is checked up to its last pair.
fn refused_sheet(family: Family) -> Row {
    let pairs = 28 + family.assert_entry() * SHEET_ENTRIES;
    let last = pairs + family.pair_entry() * (SHEET_ENTRIES - 1);
    let sheet = put(Full::sheet(family).sheet, last + 4 + family.width(), multicast(family));
    let told = black_box(family);
    let ours = |sheet: &[u8]| archive::check_sheet(told, sheet).refusal;
    let theirs = |sheet: &[u8]| sheet::check_sheet(told, sheet).err();
    let series = named("refuse sheet, last pair multicast", family);
    refused_row(&series, &sheet, (14, last), ours, theirs)
}

fn refused_asserts(series: &str, family: Family, message: Vec<u8>, expected: Expected) -> Row {
    let mut a = vec![0; family.assert_entry() * MANY];
    let mut s = a.clone();
    let (told, path) = (black_box(family), black_box(PATH));
    let ours = |m: &[u8]| archive::read_asserts(told, path, m, black_box(&mut a)).refusal;
    let theirs = |m: &[u8]| read::read_asserts(told, path, m, black_box(&mut s)).err();
    refused_row(&named(series, family), &sealed(family, message), expected, ours, theirs)
}

fn refused_pairs(series: &str, family: Family, message: Vec<u8>, expected: Expected) -> Row {
    let mut a = vec![0; family.pair_entry() * MANY];
    let mut s = a.clone();
    let (told, path) = (black_box(family), black_box(PATH));
    let ours = |m: &[u8]| archive::read_pairs(told, path, m, black_box(&mut a)).refusal;
    let theirs = |m: &[u8]| read::read_pairs(told, path, m, black_box(&mut s)).err();
    refused_row(&named(series, family), &sealed(family, message), expected, ours, theirs)
}

/// Its last value, the generation identifier, begins at 22.
fn refused_hello(family: Family) -> Row {
    let message = sealed(family, input::HELLO[..25].to_vec());
    let (told, path) = (black_box(family), black_box(PATH));
    let ours = |m: &[u8]| archive::read_hello(told, path, m).refusal;
    let theirs = |m: &[u8]| hello::read_hello(told, path, m).err();
    refused_row(&named("refuse Hello, last value cut", family), &message, (6, 22), ours, theirs)
}

/// Of its 24 octets the last is the time zone.
fn refused_attribute() -> Row {
    let attribute = &input::attributes(1)[..23];
    let ours = |octets: &[u8]| archive::popcount_read(octets, 0).refusal;
    let theirs = |octets: &[u8]| popcount::read_attribute(octets, 0).err();
    refused_row("refuse Pop-Count, last value cut", attribute, (6, 23), ours, theirs)
}

fn refused_contributors() -> Row {
    let end = 24 * ATTRIBUTES - 1;
    let contributors = &input::attributes(ATTRIBUTES)[..end];
    let (a_own, s_own) = own_values();
    let (mut a, mut s) = ([0; 22], [0; 22]);
    let ours = |octets: &[u8]| archive::popcount_merge(a_own, true, octets, black_box(&mut a)).refusal;
    let theirs = |octets: &[u8]| popcount::merge(s_own, octets, true, black_box(&mut s)).err();
    refused_row("refuse to merge Pop-Count, last value cut", contributors, (6, end), ours, theirs)
}

fn refused_row(
    series: &str,
    octets: &[u8],
    expected: Expected,
    mut ours: impl FnMut(&[u8]) -> archive::Refusal,
    mut theirs: impl FnMut(&[u8]) -> Option<Refusal>,
) -> Row {
    let (a, s) = (ours(octets), theirs(octets).expect("the second program refuses"));
    assert_eq!((a.number, a.place), (s.number, s.place), "{series}");
    assert_eq!((s.number, s.place), expected, "{series}");
    let times = compare(
        &mut side(|| {
            black_box(ours(black_box(octets)));
        }),
        &mut side(|| {
            black_box(theirs(black_box(octets)));
        }),
    );
    octets_row(series, octets.len(), times)
}
