//! The two address families. All code is written once, over the sizes that a
//! family gives, and made for each: which family it is, is asked once in a call.

/// A family, by the number that stands in messages and entries.
#[derive(Clone, Copy, Debug, PartialEq, Eq, PartialOrd, Ord)]
pub enum Family {
    Ipv4 = 1,
    Ipv6 = 2,
}

impl Family {
    pub const ALL: [Family; 2] = [Family::Ipv4, Family::Ipv6];

    pub fn number(self) -> u8 {
        self as u8
    }

    pub fn from_number(number: u8) -> Option<Family> {
        Family::ALL.into_iter().find(|family| family.number() == number)
    }

    /// The octets of an address.
    pub fn width(self) -> usize {
        match self {
            Family::Ipv4 => 4,
            Family::Ipv6 => 16,
        }
    }

    /// The octets of an assert entry: prefix, group, source, R with preference,
    /// metric.
    pub fn assert_entry(self) -> usize {
        12 + 2 * self.width()
    }

    /// The octets of a pair entry: prefix, group, source.
    pub fn pair_entry(self) -> usize {
        4 + 2 * self.width()
    }

    /// The octets of a neighbour in a sheet.
    pub fn sheet_row(self) -> usize {
        12 + self.width()
    }

    /// The least limit of a message that is packed.
    pub fn least_limit(self) -> usize {
        match self {
            Family::Ipv4 => Ipv4::LEAST_LIMIT,
            Family::Ipv6 => Ipv6::LEAST_LIMIT,
        }
    }
}

/// An address as a number of 128 bits. An IPv4 address has 0 in the high half,
/// and 10.0.0.1 is 0x0A000001.
#[derive(Clone, Copy, Debug, Default, PartialEq, Eq, PartialOrd, Ord)]
pub struct Address {
    pub high: u64,
    pub low: u64,
}

impl Address {
    #[inline(always)]
    pub(crate) fn is_zero(self) -> bool {
        self.high | self.low == 0
    }
}

impl From<u32> for Address {
    #[inline(always)]
    fn from(number: u32) -> Address {
        Address { high: 0, low: u64::from(number) }
    }
}

impl From<u128> for Address {
    #[inline(always)]
    fn from(number: u128) -> Address {
        Address { high: (number >> 64) as u64, low: number as u64 }
    }
}

impl From<Address> for u128 {
    #[inline(always)]
    fn from(address: Address) -> u128 {
        u128::from(address.high) << 64 | u128::from(address.low)
    }
}

/// The addresses of the IPv6 header that a message is sent with. IPv4 has no
/// pseudo-header, and ignores them.
#[derive(Clone, Copy, Debug, Default, PartialEq, Eq)]
pub struct Path {
    pub source: Address,
    pub destination: Address,
}

/// So many octets.
pub(crate) trait Octets: Copy + PartialEq + AsRef<[u8]> + AsMut<[u8]> + 'static {
    const SIZE: usize;
    const ZERO: Self;

    /// As many as there are, and what is left.
    fn chunks(octets: &[u8]) -> (&[Self], &[u8]);

    fn chunks_mut(octets: &mut [u8]) -> (&mut [Self], &mut [u8]);

    /// The first, and what follows.
    fn first(octets: &[u8]) -> Option<(&Self, &[u8])>;

    /// Those that begin at a place, and are there.
    fn at(octets: &[u8], at: usize) -> &Self;
}

impl<const N: usize> Octets for [u8; N] {
    const SIZE: usize = N;
    const ZERO: Self = [0; N];

    #[inline(always)]
    fn chunks(octets: &[u8]) -> (&[Self], &[u8]) {
        octets.as_chunks::<N>()
    }

    #[inline(always)]
    fn chunks_mut(octets: &mut [u8]) -> (&mut [Self], &mut [u8]) {
        octets.as_chunks_mut::<N>()
    }

    #[inline(always)]
    fn first(octets: &[u8]) -> Option<(&Self, &[u8])> {
        octets.split_first_chunk::<N>()
    }

    #[inline(always)]
    fn at(octets: &[u8], at: usize) -> &Self {
        octets[at..].first_chunk::<N>().expect("octets that are there")
    }
}

/// What a family gives: numbers, sizes, and what its addresses may be.
pub(crate) trait Addresses: 'static {
    const FAMILY: Family;
    /// The mask length of a group.
    const MASK: u8;

    type Address: Octets;
    /// Fields and records of messages.
    type Group: Octets;
    type Source: Octets;
    type AssertRecord: Octets;
    type PairRecord: Octets;
    /// Entries, and a neighbour in a sheet.
    type AssertEntry: Octets;
    type PairEntry: Octets;
    type Row: Octets;

    /// What every entry begins with.
    const PREFIX: [u8; 4] = [Self::FAMILY as u8, 0, 0, 0];
    const WIDTH: usize = Self::Address::SIZE;
    /// A group record without sources.
    const GROUP_HEAD: usize = Self::Group::SIZE + 4;
    /// The longest message of one entry: an RP aggregated record of one source.
    const LEAST_LIMIT: usize = 8 + 12 + Self::GROUP_HEAD + Self::Source::SIZE;

    fn is_group(address: &Self::Address) -> bool;

    /// Whether an address may be a source; `zero` says whether 0 may.
    fn is_source(address: &Self::Address, zero: bool) -> bool;

    /// An address as a number.
    fn number(address: &Self::Address) -> Address;

    /// The octets of an address of the family.
    fn octets(address: Address) -> Self::Address;

    /// Whether a number is an address of the family.
    fn has(address: Address) -> bool;

    /// Of one address always the same; of two mostly not.
    fn brief(address: Address) -> u32;

    /// The one's complement sum that a message's words are added to.
    fn before(path: Path, length: usize) -> u16;
}

pub(crate) enum Ipv4 {}

impl Addresses for Ipv4 {
    const FAMILY: Family = Family::Ipv4;
    const MASK: u8 = 32;

    type Address = [u8; 4];
    type Group = [u8; 8];
    type Source = [u8; 6];
    type AssertRecord = [u8; 22];
    type PairRecord = [u8; 14];
    type AssertEntry = [u8; 20];
    type PairEntry = [u8; 12];
    type Row = [u8; 16];

    /// 224.0.0.0/4.
    #[inline(always)]
    fn is_group(address: &[u8; 4]) -> bool {
        address[0] >> 4 == 14
    }

    /// Not in 224.0.0.0/4, and not 255.255.255.255. The first octet is asked
    /// first, since it decides for nearly all.
    #[inline(always)]
    fn is_source(address: &[u8; 4], zero: bool) -> bool {
        matches!(address[0], 1..=223)
            || match *address {
                [0, 0, 0, 0] => zero,
                [255, 255, 255, 255] => false,
                [first, ..] => first >> 4 != 14,
            }
    }

    #[inline(always)]
    fn number(address: &[u8; 4]) -> Address {
        Address::from(u32::from_be_bytes(*address))
    }

    #[inline(always)]
    fn octets(address: Address) -> [u8; 4] {
        (address.low as u32).to_be_bytes()
    }

    #[inline(always)]
    fn has(address: Address) -> bool {
        address.high | address.low >> 32 == 0
    }

    #[inline(always)]
    fn brief(address: Address) -> u32 {
        address.low as u32
    }

    #[inline(always)]
    fn before(_: Path, _: usize) -> u16 {
        0
    }
}

pub(crate) enum Ipv6 {}

impl Addresses for Ipv6 {
    const FAMILY: Family = Family::Ipv6;
    const MASK: u8 = 128;

    type Address = [u8; 16];
    type Group = [u8; 20];
    type Source = [u8; 18];
    type AssertRecord = [u8; 46];
    type PairRecord = [u8; 38];
    type AssertEntry = [u8; 44];
    type PairEntry = [u8; 36];
    type Row = [u8; 28];

    /// ff00::/8.
    #[inline(always)]
    fn is_group(address: &[u8; 16]) -> bool {
        address[0] == 255
    }

    /// Not in ff00::/8.
    #[inline(always)]
    fn is_source(address: &[u8; 16], zero: bool) -> bool {
        matches!(address[0], 1..=254) || address[0] == 0 && (zero || *address != [0; 16])
    }

    #[inline(always)]
    fn number(address: &[u8; 16]) -> Address {
        Address::from(u128::from_be_bytes(*address))
    }

    #[inline(always)]
    fn octets(address: Address) -> [u8; 16] {
        u128::from(address).to_be_bytes()
    }

    #[inline(always)]
    fn has(_: Address) -> bool {
        true
    }

    #[inline(always)]
    fn brief(address: Address) -> u32 {
        let both = address.high.rotate_left(32) ^ address.low;
        (both.wrapping_mul(0x9E37_79B9_7F4A_7C15) >> 32) as u32
    }

    fn before(path: Path, length: usize) -> u16 {
        pseudo_header(path, length)
    }
}

/// The next header of the pseudo-header: PIM.
const NEXT_HEADER: u64 = 103;

/// The sum of the words of the pseudo-header (RFC 8200): the two addresses, the
/// length in 32 bits, three octets of 0 and the next header. It is summed in
/// numbers of 32 bits, and the carries folded in at the end.
fn pseudo_header(path: Path, length: usize) -> u16 {
    let Path { source, destination } = path;
    let mut sum = u64::from(length as u32) + NEXT_HEADER;
    for half in [source.high, source.low, destination.high, destination.low] {
        sum += (half >> 32) + (half & 0xFFFF_FFFF);
    }
    while sum > 0xFFFF {
        sum = (sum & 0xFFFF) + (sum >> 16);
    }
    sum as u16
}

/// A call's code for the family that is named.
macro_rules! of_family {
    ($family:expr, $call:ident($($argument:expr),* $(,)?)) => {
        match $family {
            $crate::family::Family::Ipv4 => $call::<$crate::family::Ipv4>($($argument),*),
            $crate::family::Family::Ipv6 => $call::<$crate::family::Ipv6>($($argument),*),
        }
    };
}
pub(crate) use of_family;
