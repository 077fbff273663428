//! Reading of messages: header, body, single records and entries.
//! A reading call checks the whole message first and writes entries after.

use crate::checksum::checksum_of;
use crate::family::{of_family, Address, Addresses, Family, Octets, Path};
use crate::{fault, field, refuse, Answer, Fault, Kind, Refusal, MESSAGE_MOST};

/// An assert record. `r_preference` is the R bit with the preference.
#[derive(Clone, Copy, Debug, PartialEq, Eq)]
pub struct AssertRecord {
    pub group: Address,
    pub source: Address,
    pub r_preference: u32,
    pub metric: u32,
}

/// A pair of a Null-Register or Register-Stop.
#[derive(Clone, Copy, Debug, PartialEq, Eq)]
pub struct PairRecord {
    pub group: Address,
    pub source: Address,
}

/// A record read singly.
#[derive(Clone, Copy, Debug, PartialEq, Eq)]
pub enum Record {
    Assert(AssertRecord),
    Pair(PairRecord),
}

/// The kind of a message, its header and checksum checked.
pub fn header(family: Family, path: Path, m: &[u8]) -> Answer<Kind> {
    of_family!(family, header_of(path, m))
}

#[inline]
pub(crate) fn header_of<F: Addresses>(path: Path, m: &[u8]) -> Answer<Kind> {
    if m.len() < 4 || m.len() > MESSAGE_MOST {
        return refuse(1, 0);
    }
    if m[0] >> 4 != 2 {
        return refuse(2, 0);
    }
    if checksum_of::<F>(path, m) != 0 {
        return refuse(3, 0);
    }
    match kind(m[0] & 15, m[1]) {
        Some(kind) => Ok(kind),
        None => refuse(4, 0),
    }
}

fn kind(message_type: u8, flags: u8) -> Option<Kind> {
    match (message_type, flags >> 4) {
        (0, _) => Some(Kind::Hello),
        (5, _) => Some(assert_kind(flags)),
        (13, 0) => Some(Kind::NullRegister),
        (13, 1) => Some(Kind::RegisterStop),
        _ => None,
    }
}

fn assert_kind(flags: u8) -> Kind {
    match flags & 3 {
        1 => Kind::Simple,
        3 => Kind::Aggregated,
        _ => Kind::Assert,
    }
}

/// The part of the message past its header; empty where `header` refuses.
pub fn body(family: Family, path: Path, m: &[u8]) -> &[u8] {
    match header(family, path, m) {
        Ok(_) => &m[4..],
        Err(_) => &[],
    }
}

/// One record at a place in lent octets, and the place after it.
pub fn read_record(family: Family, kind: Kind, octets: &[u8], at: usize) -> Answer<(Record, usize)> {
    of_family!(family, record_of(kind, octets, at))
}

fn record_of<F: Addresses>(kind: Kind, octets: &[u8], at: usize) -> Answer<(Record, usize)> {
    let rest = octets.get(at..).unwrap_or(&[]);
    let (record, length) = match kind {
        Kind::Hello | Kind::Aggregated => return refuse(4, 0),
        Kind::Assert | Kind::Simple => {
            (assert_record::<F>(rest).map(|record| record.numbers()), F::AssertRecord::SIZE)
        }
        Kind::NullRegister => {
            (pair_record::<F>(rest, false).map(|record| record.numbers()), F::PairRecord::SIZE)
        }
        Kind::RegisterStop => {
            (pair_record::<F>(rest, true).map(|record| record.numbers()), F::PairRecord::SIZE)
        }
    };
    match record {
        Ok(record) => Ok((record, at + length)),
        Err(fault) => Err(fault.refusal(at, rest)),
    }
}

/// Unpacks a plain, simple or aggregated assert into entries.
pub fn read_asserts(family: Family, path: Path, m: &[u8], entries: &mut [u8]) -> Answer<(Kind, usize)> {
    of_family!(family, asserts_of(path, m, entries))
}

fn asserts_of<F: Addresses>(path: Path, m: &[u8], entries: &mut [u8]) -> Answer<(Kind, usize)> {
    let kind = header_of::<F>(path, m)?;
    let count = match kind {
        Kind::Assert => check_plain::<F>(m)?,
        Kind::Simple => check_simple::<F>(m)?,
        Kind::Aggregated => check_aggregated::<F>(m)?,
        _ => return refuse(4, 0),
    };
    if entries.len() < F::AssertEntry::SIZE * count {
        return refuse(8, 0);
    }
    match kind {
        Kind::Aggregated => fill_aggregated::<F>(&m[8..], entries),
        Kind::Simple => fill_asserts::<F>(&m[8..], entries),
        _ => fill_asserts::<F>(&m[4..], entries),
    }
    Ok((kind, count))
}

/// Unpacks a Null-Register or Register-Stop into entries.
pub fn read_pairs(family: Family, path: Path, m: &[u8], entries: &mut [u8]) -> Answer<(Kind, usize)> {
    of_family!(family, pairs_of(path, m, entries))
}

fn pairs_of<F: Addresses>(path: Path, m: &[u8], entries: &mut [u8]) -> Answer<(Kind, usize)> {
    let kind = header_of::<F>(path, m)?;
    let zero_source = match kind {
        Kind::NullRegister => false,
        Kind::RegisterStop => true,
        _ => return refuse(4, 0),
    };
    let count = check_pairs::<F>(m, zero_source)?;
    if entries.len() < F::PairEntry::SIZE * count {
        return refuse(8, 0);
    }
    fill_pairs::<F>(&m[4..], entries);
    Ok((kind, count))
}

// The readers of fields and records do not know where their octets stand; the
// caller does, and makes a refusal of their fault.

#[inline(always)]
fn group_address<F: Addresses>(f: &F::Group) -> &F::Address {
    F::Address::at(f.as_ref(), 4)
}

#[inline(always)]
fn source_address<F: Addresses>(f: &F::Source) -> &F::Address {
    F::Address::at(f.as_ref(), 2)
}

#[inline(always)]
fn group_ok<F: Addresses>(f: &F::Group) -> bool {
    let octets = f.as_ref();
    octets[0] == F::PREFIX[0] && octets[1] == 0 && octets[3] == F::MASK && F::is_group(group_address::<F>(f))
}

#[inline(always)]
fn source_ok<F: Addresses>(f: &F::Source, zero: bool) -> bool {
    let octets = f.as_ref();
    octets[0] == F::PREFIX[0] && octets[1] == 0 && F::is_source(source_address::<F>(f), zero)
}

#[inline(always)]
fn group<F: Addresses>(octets: &[u8]) -> Result<(&F::Address, &[u8]), Fault> {
    let (f, rest) = field::<F::Group>(octets)?;
    if !group_ok::<F>(f) {
        return Err(fault(7, octets));
    }
    Ok((group_address::<F>(f), rest))
}

#[inline(always)]
fn source<F: Addresses>(octets: &[u8], zero: bool) -> Result<(&F::Address, &[u8]), Fault> {
    let (f, rest) = field::<F::Source>(octets)?;
    if !source_ok::<F>(f, zero) {
        return Err(fault(7, octets));
    }
    Ok((source_address::<F>(f), rest))
}

/// A number, at least so large, and the two reserved octets after it. They are
/// a field of their own, so a number that is too small is found first.
#[inline(always)]
fn number(octets: &[u8], least: usize) -> Result<(usize, &[u8]), Fault> {
    let (n, rest) = field::<[u8; 2]>(octets)?;
    let n = usize::from(u16::from_be_bytes(*n));
    if n < least {
        return Err(fault(6, octets));
    }
    let (_reserved, rest) = field::<[u8; 2]>(rest)?;
    Ok((n, rest))
}

/// An assert record as it stands in the message.
struct AssertThere<'a, F: Addresses> {
    group: &'a F::Address,
    source: &'a F::Address,
    r_preference: u32,
    metric: u32,
}

impl<F: Addresses> AssertThere<'_, F> {
    fn numbers(&self) -> Record {
        let (group, source) = (F::number(self.group), F::number(self.source));
        let AssertThere { r_preference, metric, .. } = *self;
        Record::Assert(AssertRecord { group, source, r_preference, metric })
    }
}

/// A pair as it stands in the message.
struct PairThere<'a, F: Addresses> {
    group: &'a F::Address,
    source: &'a F::Address,
}

impl<F: Addresses> PairThere<'_, F> {
    fn numbers(&self) -> Record {
        Record::Pair(PairRecord { group: F::number(self.group), source: F::number(self.source) })
    }
}

/// A zero source with R=0 is found at the R word, before the metric; at fault
/// is the source. Any other source that is not allowed is found at the source.
#[inline(always)]
fn assert_record<F: Addresses>(octets: &[u8]) -> Result<AssertThere<'_, F>, Fault> {
    let (group, from_source) = group::<F>(octets)?;
    let (source, rest) = source::<F>(from_source, true)?;
    let (r_preference, rest) = field::<[u8; 4]>(rest)?;
    let r_preference = u32::from_be_bytes(*r_preference);
    if !F::is_source(source, r_preference >> 31 == 1) {
        return Err(fault(7, from_source));
    }
    let (metric, _) = field::<[u8; 4]>(rest)?;
    let metric = u32::from_be_bytes(*metric);
    Ok(AssertThere { group, source, r_preference, metric })
}

#[inline(always)]
fn pair_record<F: Addresses>(octets: &[u8], zero_source: bool) -> Result<PairThere<'_, F>, Fault> {
    let (group, rest) = group::<F>(octets)?;
    let (source, _) = source::<F>(rest, zero_source)?;
    Ok(PairThere { group, source })
}

#[inline]
pub(crate) fn check_plain<F: Addresses>(m: &[u8]) -> Answer<usize> {
    assert_record::<F>(&m[4..]).map_err(|fault| fault.refusal(4, &m[4..]))?;
    let end = 4 + F::AssertRecord::SIZE;
    if m.len() > end {
        return refuse(6, end);
    }
    Ok(1)
}

/// Zero and Reserved of a packed assert, and that a record begins after them.
fn check_zero(m: &[u8]) -> Answer<()> {
    let Some(zero) = m.get(4) else {
        return refuse(6, 4);
    };
    if *zero != 0 {
        return refuse(5, 4);
    }
    if m.len() < 8 {
        return Err(Refusal { number: 6, place: 5, within: 4 });
    }
    if m.len() == 8 {
        return refuse(5, 8);
    }
    Ok(())
}

#[inline]
pub(crate) fn check_simple<F: Addresses>(m: &[u8]) -> Answer<usize> {
    check_zero(m)?;
    check_records::<F::AssertRecord>(m, 8, |octets| assert_record::<F>(octets).map(drop))
}

#[inline]
pub(crate) fn check_pairs<F: Addresses>(m: &[u8], zero_source: bool) -> Answer<usize> {
    if m.len() == 4 {
        return refuse(5, 4);
    }
    check_records::<F::PairRecord>(m, 4, |octets| pair_record::<F>(octets, zero_source).map(drop))
}

/// How many records stand from a place to the message's end. The first that is
/// not good, or is cut, is read again for its fault.
#[inline(always)]
fn check_records<T: Octets>(
    m: &[u8],
    at: usize,
    record: impl Fn(&[u8]) -> Result<(), Fault>,
) -> Answer<usize> {
    let (records, _) = T::chunks(&m[at..]);
    let good = records.iter().take_while(|octets| record(octets.as_ref()).is_ok()).count();
    let rest = &m[at + T::SIZE * good..];
    if !rest.is_empty() {
        record(rest).map_err(|fault| fault.refusal(m.len() - rest.len(), rest))?;
    }
    Ok(good)
}

pub(crate) fn check_aggregated<F: Addresses>(m: &[u8]) -> Answer<usize> {
    check_zero(m)?;
    let mut rest = &m[8..];
    let mut count = 0;
    while !rest.is_empty() {
        match aggregated_record::<F>(rest) {
            Ok((n, after)) => {
                count += n;
                rest = after;
            }
            Err(fault) => return Err(fault.refusal(m.len() - rest.len(), rest)),
        }
    }
    Ok(count)
}

/// The number of assert records of one aggregated record, and what follows.
fn aggregated_record<F: Addresses>(octets: &[u8]) -> Result<(usize, &[u8]), Fault> {
    let (r_preference, rest) = field::<[u8; 4]>(octets)?;
    let (_metric, rest) = field::<[u8; 4]>(rest)?;
    if r_preference[0] & 0x80 == 0 {
        source_aggregated::<F>(rest)
    } else {
        rp_aggregated::<F>(rest)
    }
}

fn source_aggregated<F: Addresses>(octets: &[u8]) -> Result<(usize, &[u8]), Fault> {
    let (_, rest) = source::<F>(octets, false)?;
    let (groups, rest) = number(rest, 1)?;
    Ok((groups, run(rest, groups, group_ok::<F>)?))
}

fn rp_aggregated<F: Addresses>(octets: &[u8]) -> Result<(usize, &[u8]), Fault> {
    let (group_records, mut rest) = number(octets, 1)?;
    let mut count = 0;
    for _ in 0..group_records {
        let (_, after) = group::<F>(rest)?;
        let (sources, after) = number(after, 0)?;
        rest = run(after, sources, |f| source_ok::<F>(f, true))?;
        count += sources.max(1);
    }
    Ok((count, rest))
}

/// What follows `n` fields, each whole and good. A bad field comes before
/// the end of the octets, a cut one at it.
#[inline(always)]
fn run<T: Octets>(octets: &[u8], n: usize, good: impl Fn(&T) -> bool) -> Result<&[u8], Fault> {
    let (fields, _) = T::chunks(octets);
    let there = n.min(fields.len());
    if let Some(bad) = fields[..there].iter().position(|field| !good(field)) {
        return Err(fault(7, &octets[T::SIZE * bad..]));
    }
    let rest = &octets[T::SIZE * there..];
    if there < n {
        return Err(fault(6, rest));
    }
    Ok(rest)
}

// The filling functions run on checked octets and entries with room. An entry is
// its prefix, group, source and, of an assert, R with preference and metric.

type Rows<'a, F> = std::slice::IterMut<'a, <F as Addresses>::AssertEntry>;

fn fill_asserts<F: Addresses>(octets: &[u8], entries: &mut [u8]) {
    let (records, _) = F::AssertRecord::chunks(octets);
    let (rows, _) = F::AssertEntry::chunks_mut(entries);
    for (record, row) in records.iter().zip(rows) {
        let numbers = F::Group::SIZE + F::Source::SIZE;
        put_pair::<F>(record.as_ref(), row.as_mut());
        row.as_mut()[4 + 2 * F::WIDTH..].copy_from_slice(&record.as_ref()[numbers..]);
    }
}

fn fill_pairs<F: Addresses>(octets: &[u8], entries: &mut [u8]) {
    let (records, _) = F::PairRecord::chunks(octets);
    let (rows, _) = F::PairEntry::chunks_mut(entries);
    for (record, row) in records.iter().zip(rows) {
        put_pair::<F>(record.as_ref(), row.as_mut());
    }
}

/// Prefix, group and source of the entry of a record.
#[inline(always)]
fn put_pair<F: Addresses>(record: &[u8], row: &mut [u8]) {
    row[..4].copy_from_slice(&F::PREFIX);
    row[4..4 + F::WIDTH].copy_from_slice(&record[4..4 + F::WIDTH]);
    let from = F::Group::SIZE + 2;
    row[4 + F::WIDTH..4 + 2 * F::WIDTH].copy_from_slice(&record[from..from + F::WIDTH]);
}

/// An entry of which group and source are still 0.
#[inline(always)]
fn entry_of<F: Addresses>(numbers: &[u8]) -> F::AssertEntry {
    let mut entry = F::AssertEntry::ZERO;
    entry.as_mut()[..4].copy_from_slice(&F::PREFIX);
    entry.as_mut()[4 + 2 * F::WIDTH..].copy_from_slice(numbers);
    entry
}

#[inline(always)]
fn set_group<F: Addresses>(entry: &mut F::AssertEntry, group: &[u8]) {
    entry.as_mut()[4..4 + F::WIDTH].copy_from_slice(group);
}

#[inline(always)]
fn set_source<F: Addresses>(entry: &mut F::AssertEntry, source: &[u8]) {
    entry.as_mut()[4 + F::WIDTH..4 + 2 * F::WIDTH].copy_from_slice(source);
}

fn fill_aggregated<F: Addresses>(octets: &[u8], entries: &mut [u8]) {
    let mut rows = F::AssertEntry::chunks_mut(entries).0.iter_mut();
    let mut rest = octets;
    while !rest.is_empty() {
        rest = if rest[0] & 0x80 == 0 {
            fill_source_aggregated::<F>(rest, &mut rows)
        } else {
            fill_rp_aggregated::<F>(rest, &mut rows)
        };
    }
}

/// Two octets that say how many fields follow.
fn count_at(octets: &[u8], at: usize) -> usize {
    usize::from(u16::from_be_bytes([octets[at], octets[at + 1]]))
}

fn fill_source_aggregated<'a, F: Addresses>(octets: &'a [u8], rows: &mut Rows<F>) -> &'a [u8] {
    let head = 8 + F::Source::SIZE + 4;
    let end = head + F::Group::SIZE * count_at(octets, head - 4);
    let mut entry = entry_of::<F>(&octets[..8]);
    set_source::<F>(&mut entry, &octets[10..10 + F::WIDTH]);
    let (groups, _) = F::Group::chunks(&octets[head..end]);
    for (group, row) in groups.iter().zip(rows) {
        set_group::<F>(&mut entry, &group.as_ref()[4..]);
        *row = entry;
    }
    &octets[end..]
}

fn fill_rp_aggregated<'a, F: Addresses>(octets: &'a [u8], rows: &mut Rows<F>) -> &'a [u8] {
    let mut entry = entry_of::<F>(&octets[..8]);
    let mut rest = &octets[12..];
    for _ in 0..count_at(octets, 8) {
        set_group::<F>(&mut entry, &rest[4..4 + F::WIDTH]);
        rest = fill_group_record::<F>(rest, entry, rows);
    }
    rest
}

/// The entry comes with source 0, which p=0 stands for.
fn fill_group_record<'a, F: Addresses>(
    octets: &'a [u8],
    mut entry: F::AssertEntry,
    rows: &mut Rows<F>,
) -> &'a [u8] {
    let sources = count_at(octets, F::Group::SIZE);
    let end = F::GROUP_HEAD + F::Source::SIZE * sources;
    if sources == 0 {
        if let Some(row) = rows.next() {
            *row = entry;
        }
    }
    let (fields, _) = F::Source::chunks(&octets[F::GROUP_HEAD..end]);
    for (source, row) in fields.iter().zip(rows) {
        set_source::<F>(&mut entry, &source.as_ref()[2..]);
        *row = entry;
    }
    &octets[end..]
}
