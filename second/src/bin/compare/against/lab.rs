//! The family of what is made for the calls, with its addresses; and what a call
//! is told of it, which may be another one.

use second::checksum::{checksum, checksum_ipv6};
use second::rng::Rng;
use second::{Address, Answer, Family, Path, Refusal};

/// A family, and the path that checksums are made from.
#[derive(Clone, Copy, Debug, PartialEq)]
pub struct Lab {
    pub family: Family,
    pub path: Path,
}

/// 2001:db8::1, the last address before ff00::/8, and fe80::1.
const DOCUMENTATION: u128 = 0x2001_0DB8 << 96 | 1;
const BEFORE_GROUPS: u128 = (0xFF << 120) - 1;
const LINK: u128 = 0xFE80 << 112 | 1;
const ALL_ROUTERS: u128 = 0xFF02 << 112 | 0xD;

impl Lab {
    /// With a path that IPv4 has to ignore, too.
    pub fn of(family: Family) -> Lab {
        let path = Path { source: LINK.into(), destination: ALL_ROUTERS.into() };
        Lab { family, path }
    }

    pub fn is_ipv4(self) -> bool {
        self.family == Family::Ipv4
    }

    fn either<T>(self, ipv4: T, ipv6: T) -> T {
        match self.family {
            Family::Ipv4 => ipv4,
            Family::Ipv6 => ipv6,
        }
    }

    // The addresses of small alphabets, so that neighbouring entries often join.

    pub fn groups(self) -> [u128; 3] {
        let ipv6 = 0xFF3E << 112;
        self.either([0xE801_0101, 0xE801_0102, 0xEFFF_FFFF], [ipv6 | 1, ipv6 | 2, u128::MAX])
    }

    /// The first one is none.
    pub fn sources(self) -> [u128; 3] {
        self.either([0, 0x0A00_0001, 0xFFFF_FFFE], [0, DOCUMENTATION, BEFORE_GROUPS])
    }

    pub fn no_groups(self) -> [u128; 4] {
        self.either(
            [0, 0x0A00_0001, 0xDFFF_FFFF, 0xF000_0000],
            [0, DOCUMENTATION, BEFORE_GROUPS, 0xF03E << 112],
        )
    }

    /// Addresses that are no sources. The last is of all ones.
    pub fn no_sources(self) -> [u128; 3] {
        self.either([0xE000_0000, 0xEFFF_FFFF, 0xFFFF_FFFF], [0xFF << 120, 0xFF02 << 112 | 0xD, u128::MAX])
    }

    /// Other sources beside them.
    pub fn edges(self) -> [u128; 3] {
        self.either([0xDFFF_FFFF, 0xF000_0000, 0xF000_0001], [BEFORE_GROUPS, 1, 1 << 120])
    }

    /// All of these, to be tried in turn.
    pub fn addresses(self) -> [u128; 8] {
        self.either(
            [0xE000_0000, 0xEFFF_FFFF, 0xF000_0000, 0xF000_0001, 0xFFFF_FFFE, 0xFFFF_FFFF, 0xDFFF_FFFF, 0],
            [0xFF << 120, 0xFF02 << 112 | 0xD, 1, 1 << 120, LINK, u128::MAX, BEFORE_GROUPS, 0],
        )
    }

    /// What neighbours' addresses are counted from.
    pub fn router(self) -> u128 {
        self.either(0x0A00_0000, LINK - 1)
    }

    /// An address as messages and entries have it.
    pub fn octets(self, address: u128) -> Vec<u8> {
        address.to_be_bytes()[16 - self.family.width()..].to_vec()
    }

    /// What an entry begins with.
    pub fn prefix(self) -> [u8; 4] {
        [self.family.number(), 0, 0, 0]
    }

    /// The octets of a group, and of a source, in a message.
    pub fn field_sizes(self) -> [usize; 2] {
        [4 + self.family.width(), 2 + self.family.width()]
    }

    /// Sets the checksum of a message that has one.
    pub fn seal(self, m: &mut [u8]) {
        if m.len() < 4 {
            return;
        }
        m[2..4].fill(0);
        let sum = if self.is_ipv4() { checksum(m) } else { checksum_ipv6(self.path, m) };
        m[2..4].copy_from_slice(&sum.to_be_bytes());
    }

    pub fn sealed(self, m: &[u8]) -> Vec<u8> {
        let mut m = m.to_vec();
        self.seal(&mut m);
        m
    }

    /// What a call is told.
    pub fn named(self) -> Named {
        Named { family: self.family.number(), path: self.path }
    }

    /// The other family, with the same path.
    pub fn other(self) -> Lab {
        let family = self.either(Family::Ipv6, Family::Ipv4);
        Lab { family, ..self }
    }
}

/// The family's number and the path that a call is given.
#[derive(Clone, Copy, Debug, PartialEq)]
pub struct Named {
    pub family: u8,
    pub path: Path,
}

/// Numbers that are no family.
pub const NEITHER: [u8; 5] = [0, 3, 4, 128, 255];

impl Named {
    /// What the library answers; 4 at 0 where no family is named.
    pub fn answer<T>(self, call: impl FnOnce(Family, Path) -> Answer<T>) -> Answer<T> {
        match Family::from_number(self.family) {
            Some(family) => call(family, self.path),
            None => Err(Refusal { number: 4, place: 0, within: 0 }),
        }
    }

    /// The lab that it names, if any.
    pub fn lab(self) -> Option<Lab> {
        Family::from_number(self.family).map(|family| Lab { family, path: self.path })
    }
}

/// What the library answers to a call that takes no path.
pub fn of_number<T>(number: u8, call: impl FnOnce(Family) -> Answer<T>) -> Answer<T> {
    Named { family: number, path: Path::default() }.answer(|family, _| call(family))
}

/// Two addresses of any kind.
pub fn any_path(rng: &mut Rng) -> Path {
    let mut address = || match rng.below(4) {
        0 => Address::default(),
        1 => Address { high: u64::MAX, low: u64::MAX },
        2 => Address { high: 0xFE80 << 48, low: rng.below(9) as u64 },
        _ => Address { high: rng.next_u64(), low: rng.next_u64() },
    };
    Path { source: address(), destination: address() }
}
