//! The least train of aggregated messages by trying all of them, for short
//! lists of good entries.

use crate::family::Family;

/// The most entries that are tried.
pub const ENTRIES_MOST: usize = 6;

/// What counts of an entry: whether it is of an RP and has a source, and what it
/// has in common with the one before it.
#[derive(Clone, Copy)]
struct Entry {
    is_rp: bool,
    has_source: bool,
    /// They may stand in one source aggregated record, or in one group record.
    joins: bool,
    /// They may stand in one RP aggregated record.
    same_record: bool,
}

/// The entries of a list, each after the one before it.
fn entries_of(family: Family, octets: &[u8]) -> Option<Vec<Entry>> {
    let entries = octets.chunks_exact(family.assert_entry());
    if !entries.remainder().is_empty() || entries.len() > ENTRIES_MOST {
        return None;
    }
    let list: Vec<[&[u8]; 3]> = entries.map(|entry| fields_of(family, entry)).collect();
    let entry = |i: usize| {
        let [group, source, numbers] = list[i];
        let before = if i == 0 { list[0] } else { list[i - 1] };
        let is_rp = numbers[0] & 0x80 != 0;
        let same_numbers = before[2] == numbers;
        let alike = if is_rp { before[0] == group } else { before[1] == source };
        Entry {
            is_rp,
            has_source: source.iter().any(|octet| *octet != 0),
            joins: same_numbers && alike,
            same_record: same_numbers && is_rp,
        }
    };
    Some((0..list.len()).map(entry).collect())
}

/// Group, source, and R with preference and metric of an entry.
fn fields_of(family: Family, entry: &[u8]) -> [&[u8]; 3] {
    let (group, rest) = entry[4..].split_at(family.width());
    let (source, numbers) = rest.split_at(family.width());
    [group, source, numbers]
}

/// What lies between two neighbouring entries.
#[derive(Clone, Copy, PartialEq)]
enum Cut {
    /// The same source aggregated record, or the same group record.
    None,
    /// A new group record of the same RP aggregated record.
    GroupRecord,
    /// A new aggregated record of the same message.
    Record,
    /// A new message.
    Message,
}

const CUTS: [Cut; 4] = [Cut::None, Cut::GroupRecord, Cut::Record, Cut::Message];

/// The least number of aggregated messages, each within the limit, that
/// unpack to the list. `None` if no train does, or the list is not whole or
/// longer than six entries.
pub fn least_messages(family: Family, entries: &[u8], limit: usize) -> Option<usize> {
    let list = entries_of(family, entries)?;
    if list.is_empty() {
        return Some(0);
    }
    let ways = 4usize.pow(list.len() as u32 - 1);
    (0..ways).filter_map(|way| messages(family, &list, way, limit)).min()
}

/// The messages of one way to cut, two bits for each boundary; `None` if the
/// form does not allow it or a message is over the limit.
fn messages(family: Family, list: &[Entry], way: usize, limit: usize) -> Option<usize> {
    let mut count = 0;
    let mut length = 0;
    let mut first = 0;
    for end in 1..=list.len() {
        let cut = cut_after(way, end, list.len());
        if cut == Cut::None {
            if !list[end].joins {
                return None;
            }
            continue;
        }
        if cut == Cut::GroupRecord && !list[end].same_record {
            return None;
        }
        length += piece(family, &list[first..end], cut_before(way, first));
        first = end;
        if cut == Cut::Message {
            if length > limit {
                return None;
            }
            count += 1;
            length = 0;
        }
    }
    Some(count)
}

/// The cut before entry `end`; the list's end closes a message.
fn cut_after(way: usize, end: usize, entries: usize) -> Cut {
    if end == entries {
        return Cut::Message;
    }
    cut_before(way, end)
}

/// The cut before an entry; before the first a message begins.
fn cut_before(way: usize, entry: usize) -> Cut {
    if entry == 0 {
        return Cut::Message;
    }
    CUTS[way >> (2 * (entry - 1)) & 3]
}

/// The octets of one run of joined entries with all the heads it opens.
fn piece(family: Family, run: &[Entry], before: Cut) -> usize {
    let (group, source) = (4 + family.width(), 2 + family.width());
    let message = if before == Cut::Message { 8 } else { 0 };
    if !run[0].is_rp {
        return message + 8 + source + 4 + group * run.len();
    }
    let record = if before == Cut::GroupRecord { 0 } else { 12 };
    let sources = if run.len() == 1 && !run[0].has_source { 0 } else { run.len() };
    message + record + group + 4 + source * sources
}
