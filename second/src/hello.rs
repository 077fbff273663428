//! Reading and writing of Hello messages.

use crate::family::{of_family, Addresses, Family, Path};
use crate::pack::{put_header, seal};
use crate::read::header_of;
use crate::{fault, refuse, Answer, Fault, Kind};

/// What a Hello says. A priority not announced is `None`.
#[derive(Clone, Copy, Debug, PartialEq, Eq)]
pub struct Hello {
    pub holdtime: u16,
    pub priority: Option<u32>,
    pub packing: bool,
}

/// The holdtime of a Hello without that option, in seconds.
pub const DEFAULT_HOLDTIME: u16 = 105;

const HOLDTIME: u16 = 1;
const PRIORITY: u16 = 19;
const PACKED_ASSERT: u16 = 40;

// Octets of the header, and of each option with its type and length.
const HEADER: usize = 4;
const HOLDTIME_OPTION: usize = 6;
const PRIORITY_OPTION: usize = 8;
const PACKED_ASSERT_OPTION: usize = 4;

/// The known options seen so far.
#[derive(Default)]
pub(crate) struct Seen {
    holdtime: Option<u16>,
    priority: Option<u32>,
    packing: bool,
}

pub fn read_hello(family: Family, path: Path, m: &[u8]) -> Answer<Hello> {
    of_family!(family, read_of(path, m))
}

fn read_of<F: Addresses>(path: Path, m: &[u8]) -> Answer<Hello> {
    if header_of::<F>(path, m)? != Kind::Hello {
        return refuse(4, 0);
    }
    let seen = check_options(m)?;
    Ok(Hello {
        holdtime: seen.holdtime.unwrap_or(DEFAULT_HOLDTIME),
        priority: seen.priority,
        packing: seen.packing,
    })
}

/// The known options of a Hello whose header was checked.
#[inline]
pub(crate) fn check_options(m: &[u8]) -> Answer<Seen> {
    let mut seen = Seen::default();
    let mut rest = &m[4..];
    while !rest.is_empty() {
        match option(rest, &mut seen) {
            Ok(after) => rest = after,
            Err(fault) => return Err(fault.refusal(m.len() - rest.len(), rest)),
        }
    }
    Ok(seen)
}

/// One option; what follows it.
fn option<'a>(octets: &'a [u8], seen: &mut Seen) -> Result<&'a [u8], Fault> {
    let (head, rest) = octets.split_first_chunk::<4>().ok_or_else(|| cut_head(octets))?;
    let option_type = u16::from_be_bytes([head[0], head[1]]);
    let length = u16::from_be_bytes([head[2], head[3]]);
    if !allowed(option_type, length, seen) {
        return Err(fault(13, octets));
    }
    let (value, rest) = rest.split_at_checked(usize::from(length)).ok_or(fault(6, rest))?;
    match (option_type, value) {
        (HOLDTIME, &[a, b]) => seen.holdtime = Some(u16::from_be_bytes([a, b])),
        (PRIORITY, &[a, b, c, d]) => seen.priority = Some(u32::from_be_bytes([a, b, c, d])),
        (PACKED_ASSERT, _) => seen.packing = true,
        _ => {}
    }
    Ok(rest)
}

/// The fault of octets that end in the type or in the length.
fn cut_head(octets: &[u8]) -> Fault {
    fault(6, octets.get(2..).unwrap_or(octets))
}

/// A known option has its one length and was not given before.
fn allowed(option_type: u16, length: u16, seen: &Seen) -> bool {
    match option_type {
        HOLDTIME => length == 2 && seen.holdtime.is_none(),
        PRIORITY => length == 4 && seen.priority.is_none(),
        PACKED_ASSERT => length == 0 && !seen.packing,
        _ => true,
    }
}

/// Writes a Hello; its length. The holdtime is written also where it is the
/// default, so that nothing depends on what a reader takes for none.
pub fn write_hello(family: Family, path: Path, said: Hello, buffer: &mut [u8]) -> Answer<usize> {
    of_family!(family, write_of(path, said, buffer))
}

fn write_of<F: Addresses>(path: Path, said: Hello, buffer: &mut [u8]) -> Answer<usize> {
    let length = length(&said);
    let Some(message) = buffer.get_mut(..length) else {
        return refuse(8, 0);
    };
    put_header(message, 0x20, 0);
    let mut rest = &mut message[HEADER..];
    rest = put_option(rest, HOLDTIME, said.holdtime.to_be_bytes());
    if let Some(priority) = said.priority {
        rest = put_option(rest, PRIORITY, priority.to_be_bytes());
    }
    if said.packing {
        put_option(rest, PACKED_ASSERT, []);
    }
    seal::<F>(path, message);
    Ok(length)
}

/// The octets of the message, which are known before any is written.
fn length(said: &Hello) -> usize {
    let priority = if said.priority.is_some() { PRIORITY_OPTION } else { 0 };
    let packing = if said.packing { PACKED_ASSERT_OPTION } else { 0 };
    HEADER + HOLDTIME_OPTION + priority + packing
}

/// Type, length and value of an option; what is left of the room.
fn put_option<const N: usize>(room: &mut [u8], option_type: u16, value: [u8; N]) -> &mut [u8] {
    let (option, rest) = room.split_at_mut(4 + N);
    option[..2].copy_from_slice(&option_type.to_be_bytes());
    option[2..4].copy_from_slice(&(N as u16).to_be_bytes());
    option[4..].copy_from_slice(&value);
    rest
}
