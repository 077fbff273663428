//! Packing of entries into messages. Every call writes one message into the
//! lent buffer and leaves the octets past its length as they are.

use crate::checksum::checksum_of;
use crate::family::{of_family, Addresses, Family, Octets, Path};
use crate::{assert_entry_ok, first_bad, pair_entry_ok, refuse, Answer, MESSAGE_MOST};

/// The limit that 0 stands for in both families: an IPv4 datagram of 576 octets
/// without its header.
pub const USUAL_LIMIT: usize = 556;

/// An RP aggregated record before its group records.
const RP_HEAD: usize = 12;

/// A plain assert: one entry.
pub fn pack_assert(
    family: Family,
    path: Path,
    entries: &[u8],
    start: usize,
    limit: usize,
    buffer: &mut [u8],
) -> Answer<(usize, usize)> {
    of_family!(family, assert_of(path, entries, start, limit, buffer))
}

/// A simple packed assert.
pub fn pack_simple(
    family: Family,
    path: Path,
    entries: &[u8],
    start: usize,
    limit: usize,
    buffer: &mut [u8],
) -> Answer<(usize, usize)> {
    of_family!(family, simple_of(path, entries, start, limit, buffer))
}

/// An aggregated packed assert.
pub fn pack_aggregated(
    family: Family,
    path: Path,
    entries: &[u8],
    start: usize,
    limit: usize,
    buffer: &mut [u8],
) -> Answer<(usize, usize)> {
    of_family!(family, aggregated_of(path, entries, start, limit, buffer))
}

/// A packed Null-Register.
pub fn pack_null_register(
    family: Family,
    path: Path,
    entries: &[u8],
    start: usize,
    limit: usize,
    buffer: &mut [u8],
) -> Answer<(usize, usize)> {
    of_family!(family, pairs_of(path, entries, start, limit, buffer, false))
}

/// A packed Register-Stop.
pub fn pack_register_stop(
    family: Family,
    path: Path,
    entries: &[u8],
    start: usize,
    limit: usize,
    buffer: &mut [u8],
) -> Answer<(usize, usize)> {
    of_family!(family, pairs_of(path, entries, start, limit, buffer, true))
}

/// Both packed asserts; true where the aggregated one is chosen, with the
/// chosen message's length and taken entries.
pub fn pack_both(
    family: Family,
    path: Path,
    entries: &[u8],
    start: usize,
    limit: usize,
    simple: &mut [u8],
    aggregated: &mut [u8],
) -> Answer<(bool, usize, usize)> {
    of_family!(family, both_of(path, entries, start, limit, simple, aggregated))
}

fn assert_of<F: Addresses>(
    path: Path,
    entries: &[u8],
    start: usize,
    limit: usize,
    buffer: &mut [u8],
) -> Answer<(usize, usize)> {
    let (_, left) = prepare_asserts::<F>(entries, start, limit, buffer.len())?;
    let Some(entry) = left.first() else {
        return Ok((0, 0));
    };
    let length = 4 + F::AssertRecord::SIZE;
    put_header(buffer, 0x25, 0);
    put_asserts::<F>(&mut buffer[4..length], std::slice::from_ref(entry));
    seal::<F>(path, &mut buffer[..length]);
    Ok((length, 1))
}

fn simple_of<F: Addresses>(
    path: Path,
    entries: &[u8],
    start: usize,
    limit: usize,
    buffer: &mut [u8],
) -> Answer<(usize, usize)> {
    let (limit, left) = prepare_asserts::<F>(entries, start, limit, buffer.len())?;
    Ok(write_simple::<F>(path, left, limit, buffer))
}

fn aggregated_of<F: Addresses>(
    path: Path,
    entries: &[u8],
    start: usize,
    limit: usize,
    buffer: &mut [u8],
) -> Answer<(usize, usize)> {
    let (limit, left) = prepare_asserts::<F>(entries, start, limit, buffer.len())?;
    Ok(write_aggregated::<F>(path, left, limit, buffer))
}

/// Register-Stops may have source 0, Null-Registers not.
fn pairs_of<F: Addresses>(
    path: Path,
    entries: &[u8],
    start: usize,
    limit: usize,
    buffer: &mut [u8],
    stop: bool,
) -> Answer<(usize, usize)> {
    let good = |entry: &F::PairEntry| pair_entry_ok::<F>(entry, stop);
    let (limit, left) = prepare::<F, F::PairEntry>(entries, start, limit, buffer.len(), good)?;
    let second = if stop { 0x10 } else { 0 };
    Ok(write_pairs::<F>(path, left, limit, second, buffer))
}

fn both_of<F: Addresses>(
    path: Path,
    entries: &[u8],
    start: usize,
    limit: usize,
    simple: &mut [u8],
    aggregated: &mut [u8],
) -> Answer<(bool, usize, usize)> {
    let room = simple.len().min(aggregated.len());
    let (limit, left) = prepare_asserts::<F>(entries, start, limit, room)?;
    let (simple_length, simple_taken) = write_simple::<F>(path, left, limit, simple);
    let (length, taken) = write_aggregated::<F>(path, left, limit, aggregated);
    if taken > simple_taken || (taken == simple_taken && length < simple_length) {
        Ok((true, length, taken))
    } else {
        Ok((false, simple_length, simple_taken))
    }
}

fn prepare_asserts<F: Addresses>(
    entries: &[u8],
    start: usize,
    limit: usize,
    room: usize,
) -> Answer<(usize, &[F::AssertEntry])> {
    prepare::<F, F::AssertEntry>(entries, start, limit, room, assert_entry_ok::<F>)
}

/// The limit as read and the entries from the start on, all of them good.
fn prepare<F: Addresses, T: Octets>(
    entries: &[u8],
    start: usize,
    limit: usize,
    room: usize,
    good: impl Fn(&T) -> bool,
) -> Answer<(usize, &[T])> {
    let limit = if limit == 0 { USUAL_LIMIT } else { limit };
    if !(F::LEAST_LIMIT..=MESSAGE_MOST).contains(&limit) {
        return refuse(9, 0);
    }
    if room < limit {
        return refuse(8, 0);
    }
    let (list, cut) = T::chunks(entries);
    if !cut.is_empty() || start > list.len() {
        return refuse(10, 0);
    }
    let left = &list[start..];
    match first_bad(left, good) {
        Some(bad) => refuse(7, start + bad),
        None => Ok((limit, left)),
    }
}

/// Header with a checksum of 0.
pub(crate) fn put_header(buffer: &mut [u8], first: u8, second: u8) {
    buffer[..4].copy_from_slice(&[first, second, 0, 0]);
}

/// The checksum of a whole message whose field is 0.
pub(crate) fn seal<F: Addresses>(path: Path, message: &mut [u8]) {
    let sum = checksum_of::<F>(path, message);
    message[2..4].copy_from_slice(&sum.to_be_bytes());
}

/// The group of an entry, its source, and the octets behind them.
#[inline(always)]
fn group_of<F: Addresses, T: Octets>(entry: &T) -> &F::Address {
    F::Address::at(entry.as_ref(), 4)
}

#[inline(always)]
fn source_of<F: Addresses, T: Octets>(entry: &T) -> &F::Address {
    F::Address::at(entry.as_ref(), 4 + F::WIDTH)
}

#[inline(always)]
fn numbers_of<F: Addresses>(entry: &F::AssertEntry) -> &[u8; 8] {
    <[u8; 8]>::at(entry.as_ref(), 4 + 2 * F::WIDTH)
}

/// The group of an entry in its encoded form.
#[inline(always)]
fn encoded_group<F: Addresses, T: Octets>(entry: &T) -> F::Group {
    let mut field = F::Group::ZERO;
    field.as_mut()[0] = F::PREFIX[0];
    field.as_mut()[3] = F::MASK;
    field.as_mut()[4..].copy_from_slice(group_of::<F, T>(entry).as_ref());
    field
}

/// The source behind it.
#[inline(always)]
fn encoded_source<F: Addresses, T: Octets>(entry: &T) -> F::Source {
    let mut field = F::Source::ZERO;
    field.as_mut()[0] = F::PREFIX[0];
    field.as_mut()[2..].copy_from_slice(source_of::<F, T>(entry).as_ref());
    field
}

/// Group and source at the head of a record.
#[inline(always)]
fn put_pair<F: Addresses, T: Octets>(record: &mut [u8], entry: &T) {
    record[..F::Group::SIZE].copy_from_slice(encoded_group::<F, T>(entry).as_ref());
    record[F::Group::SIZE..][..F::Source::SIZE].copy_from_slice(encoded_source::<F, T>(entry).as_ref());
}

fn put_asserts<F: Addresses>(octets: &mut [u8], entries: &[F::AssertEntry]) {
    let (records, _) = F::AssertRecord::chunks_mut(octets);
    for (record, entry) in records.iter_mut().zip(entries) {
        let record = record.as_mut();
        put_pair::<F, F::AssertEntry>(record, entry);
        record[F::Group::SIZE + F::Source::SIZE..].copy_from_slice(numbers_of::<F>(entry));
    }
}

fn put_pairs<F: Addresses>(octets: &mut [u8], entries: &[F::PairEntry]) {
    let (records, _) = F::PairRecord::chunks_mut(octets);
    for (record, entry) in records.iter_mut().zip(entries) {
        put_pair::<F, F::PairEntry>(record.as_mut(), entry);
    }
}

fn write_simple<F: Addresses>(
    path: Path,
    left: &[F::AssertEntry],
    limit: usize,
    buffer: &mut [u8],
) -> (usize, usize) {
    let taken = left.len().min((limit - 8) / F::AssertRecord::SIZE);
    if taken == 0 {
        return (0, 0);
    }
    let length = 8 + F::AssertRecord::SIZE * taken;
    put_header(buffer, 0x25, 1);
    buffer[4..8].fill(0);
    put_asserts::<F>(&mut buffer[8..length], left);
    seal::<F>(path, &mut buffer[..length]);
    (length, taken)
}

fn write_pairs<F: Addresses>(
    path: Path,
    left: &[F::PairEntry],
    limit: usize,
    second: u8,
    buffer: &mut [u8],
) -> (usize, usize) {
    let taken = left.len().min((limit - 4) / F::PairRecord::SIZE);
    if taken == 0 {
        return (0, 0);
    }
    let length = 4 + F::PairRecord::SIZE * taken;
    put_header(buffer, 0x2D, second);
    put_pairs::<F>(&mut buffer[4..length], left);
    seal::<F>(path, &mut buffer[..length]);
    (length, taken)
}

/// Record after record until one does not fit. A record cut by the limit
/// leaves less room than the next entry needs in any other record.
fn write_aggregated<F: Addresses>(
    path: Path,
    left: &[F::AssertEntry],
    limit: usize,
    buffer: &mut [u8],
) -> (usize, usize) {
    if left.is_empty() {
        return (0, 0);
    }
    put_header(buffer, 0x25, 3);
    buffer[4..8].fill(0);
    let mut length = 8;
    let mut taken = 0;
    while taken < left.len() {
        let (octets, entries) = write_record::<F>(&left[taken..], &mut buffer[length..limit]);
        if entries == 0 {
            break;
        }
        length += octets;
        taken += entries;
    }
    seal::<F>(path, &mut buffer[..length]);
    (length, taken)
}

/// One aggregated record within the room: its octets and its entries.
fn write_record<F: Addresses>(left: &[F::AssertEntry], room: &mut [u8]) -> (usize, usize) {
    if numbers_of::<F>(&left[0])[0] & 0x80 == 0 {
        write_source_aggregated::<F>(left, room)
    } else {
        write_rp_aggregated::<F>(left, room)
    }
}

fn number(n: usize) -> [u8; 2] {
    (n as u16).to_be_bytes()
}

/// How many entries at the head, `most` at most, have the source and the numbers
/// of the first.
fn same_source<F: Addresses>(left: &[F::AssertEntry], most: usize) -> usize {
    let first = &left[0].as_ref()[4 + F::WIDTH..];
    left.iter().take(most).take_while(|entry| entry.as_ref()[4 + F::WIDTH..] == *first).count()
}

fn write_source_aggregated<F: Addresses>(left: &[F::AssertEntry], room: &mut [u8]) -> (usize, usize) {
    let source_head = 8 + F::Source::SIZE + 4;
    if room.len() < source_head + F::Group::SIZE {
        return (0, 0);
    }
    let groups = same_source::<F>(left, (room.len() - source_head) / F::Group::SIZE);
    let length = source_head + F::Group::SIZE * groups;
    let (head, fields) = room[..length].split_at_mut(source_head);
    head[..8].copy_from_slice(numbers_of::<F>(&left[0]));
    head[8..8 + F::Source::SIZE].copy_from_slice(encoded_source::<F, F::AssertEntry>(&left[0]).as_ref());
    head[source_head - 4..source_head - 2].copy_from_slice(&number(groups));
    head[source_head - 2..].fill(0);
    let (fields, _) = F::Group::chunks_mut(fields);
    for (field, entry) in fields.iter_mut().zip(left) {
        *field = encoded_group::<F, F::AssertEntry>(entry);
    }
    (length, groups)
}

fn write_rp_aggregated<F: Addresses>(left: &[F::AssertEntry], room: &mut [u8]) -> (usize, usize) {
    if room.len() < RP_HEAD + F::GROUP_HEAD {
        return (0, 0);
    }
    let key = numbers_of::<F>(&left[0]);
    let mut length = RP_HEAD;
    let mut taken = 0;
    let mut group_records = 0;
    while taken < left.len() && numbers_of::<F>(&left[taken]) == key {
        let run = Run::first::<F>(&left[taken..], room.len() - length);
        if run.entries == 0 {
            break;
        }
        length += write_run::<F>(&left[taken..], run, &mut room[length..]);
        taken += run.entries;
        group_records += run.group_records();
    }
    if taken == 0 {
        return (0, 0);
    }
    room[..8].copy_from_slice(key);
    room[8..10].copy_from_slice(&number(group_records));
    room[10..12].fill(0);
    (length, taken)
}

/// The entries of one group at the head of a list that fit a room: in one group
/// record that names their sources, or in as many without sources.
#[derive(Clone, Copy)]
struct Run {
    entries: usize,
    lone: bool,
}

impl Run {
    /// The most entries with source 0 that take fewer octets in group records of
    /// their own, p=0, than in one: n heads against a head and n sources. One in
    /// IPv4, three in IPv6.
    const fn lone_most<F: Addresses>() -> usize {
        (F::GROUP_HEAD - 1) / (F::GROUP_HEAD - F::Source::SIZE)
    }

    fn first<F: Addresses>(left: &[F::AssertEntry], room: usize) -> Run {
        let most = room.saturating_sub(F::GROUP_HEAD) / F::Source::SIZE;
        let entries =
            left.iter().take(most).take_while(|entry| same_group_record::<F>(&left[0], entry)).count();
        if entries > Run::lone_most::<F>() || !left[..entries].iter().all(has_no_source::<F>) {
            return Run { entries, lone: false };
        }
        // No more of them can be named, and p=0 is the shorter form.
        let most = (room / F::GROUP_HEAD).min(Run::lone_most::<F>());
        let is_lone =
            |entry: &&F::AssertEntry| has_no_source::<F>(entry) && same_group_record::<F>(&left[0], entry);
        Run { entries: left.iter().take(most).take_while(is_lone).count(), lone: true }
    }

    fn group_records(self) -> usize {
        if self.lone {
            self.entries
        } else {
            1
        }
    }
}

#[inline(always)]
fn same_group_record<F: Addresses>(a: &F::AssertEntry, b: &F::AssertEntry) -> bool {
    group_of::<F, F::AssertEntry>(a) == group_of::<F, F::AssertEntry>(b)
        && numbers_of::<F>(a) == numbers_of::<F>(b)
}

#[inline(always)]
fn has_no_source<F: Addresses>(entry: &F::AssertEntry) -> bool {
    *source_of::<F, F::AssertEntry>(entry) == F::Address::ZERO
}

/// The octets that it takes.
fn write_run<F: Addresses>(left: &[F::AssertEntry], run: Run, room: &mut [u8]) -> usize {
    if run.lone {
        for (head, entry) in room.chunks_exact_mut(F::GROUP_HEAD).zip(&left[..run.entries]) {
            put_group_head::<F>(head, entry, 0);
        }
        return F::GROUP_HEAD * run.entries;
    }
    let length = F::GROUP_HEAD + F::Source::SIZE * run.entries;
    let (head, fields) = room[..length].split_at_mut(F::GROUP_HEAD);
    put_group_head::<F>(head, &left[0], run.entries);
    let (fields, _) = F::Source::chunks_mut(fields);
    for (field, entry) in fields.iter_mut().zip(left) {
        *field = encoded_source::<F, F::AssertEntry>(entry);
    }
    length
}

#[inline(always)]
fn put_group_head<F: Addresses>(head: &mut [u8], entry: &F::AssertEntry, sources: usize) {
    head[..F::Group::SIZE].copy_from_slice(encoded_group::<F, F::AssertEntry>(entry).as_ref());
    head[F::Group::SIZE..F::Group::SIZE + 2].copy_from_slice(&number(sources));
    head[F::Group::SIZE + 2..].fill(0);
}
