//! Messages and elections of IPv6 observed from other people's routers (FRR pim6d
//! 10.3). Each Hello stands with the source of its pseudo-header, its destination
//! being ff02::d.
mod common;
use common::*;
use second::hello::{self, Hello};
use second::neighbours::{self, Neighbour, Table};
use second::{Address, Family, Path};

const SIX: Family = Family::Ipv6;
const LINK: u128 = 0xFE80 << 112;
const ALL_ROUTERS: u128 = 0xFF02 << 112 | 0xD;

/// A Hello, the last number of its source fe80::N, holdtime and priority.
#[rustfmt::skip]
const HELLOS: [(&str, u128, u16, u32); 7] = [
    ("2000efc40001000200120002000401f409c40013000400000001001400043ea5777600180012020020010db8000700000000000000000001", 1, 18, 1),
    ("2000e60a0001000200120002000401f409c4001300040000000100140004248e9b4300180012020020010db8000700000000000000000003", 3, 18, 1),
    ("2000efbc0001000200120002000401f409c40013000400000009001400043ea5777600180012020020010db8000700000000000000000001", 1, 18, 9),
    ("20006fc60001000200120002000401f409c4001300047fffffff001400043ea5777600180012020020010db8000700000000000000000001", 1, 18, 2147483647),
    ("2000e60b0001000200120002000401f409c400130004ffffffff00140004248e9b4300180012020020010db8000700000000000000000003", 3, 18, 4294967295),
    ("20002dd000010002ffff0002000401f409c400130004000000010014000448c62f5a00180012020020010db8000700000000000000000002", 2, 65535, 1),
    ("2000efd60001000200000002000401f409c40013000400000001001400043ea5777600180012020020010db8000700000000000000000001", 1, 0, 1),
];

/// What a case is, routers fe80::N with their priority, and the one elected.
type Election = (&'static str, &'static [(u128, Option<u32>)], u128);

const ELECTIONS: [Election; 4] = [
    ("equal priorities, highest address", &[(1, Some(1)), (2, Some(1)), (3, Some(1))], 3),
    ("tie at the top is decided by address", &[(1, Some(9)), (2, Some(9)), (3, Some(1))], 2),
    (
        "one router without priority, highest address",
        &[(1, Some(9)), (2, Some(1)), (3, Some(1)), (0xff, None)],
        0xff,
    ),
    ("announced priority 0", &[(1, Some(1)), (2, Some(1)), (3, Some(1)), (0xff, Some(0))], 3),
];

fn path(source: u128) -> Path {
    Path { source: (LINK | source).into(), destination: ALL_ROUTERS.into() }
}

#[test]
fn hellos() {
    for (text, source, holdtime, priority) in HELLOS {
        let expected = Hello { holdtime, priority: Some(priority), packing: false };
        assert_eq!(hello::read_hello(SIX, path(source), &hex(text)), Ok(expected), "{text}");
        // From another router, or without the pseudo-header.
        assert_eq!(hello::read_hello(SIX, path(source + 1), &hex(text)), refusal(3, 0));
        assert_eq!(hello::read_hello(Family::Ipv4, path(source), &hex(text)), refusal(3, 0));
    }
}

fn row(router: &(u128, Option<u32>)) -> Neighbour {
    Neighbour {
        address: (LINK | router.0).into(),
        priority: router.1.unwrap_or(0),
        has_priority: router.1.is_some(),
        packs: false,
        holdtime: 18,
    }
}

#[test]
fn elections_over_a_list() {
    for (case, routers, elected) in ELECTIONS {
        let mut rows: Vec<Neighbour> = routers.iter().map(row).collect();
        let elected = Ok(Address::from(LINK | elected));
        assert_eq!(neighbours::elect_among(&rows), elected, "{case}");
        rows.reverse();
        assert_eq!(neighbours::elect_among(&rows), elected, "{case}");
    }
}

/// As each router that has a priority sees it, by Hellos that are written and
/// read.
#[test]
fn elections_over_a_table() {
    for (case, routers, elected) in ELECTIONS {
        for own in routers {
            let Some(own_priority) = own.1 else { continue };
            let mut table = Table::empty();
            for other in routers.iter().filter(|other| other.0 != own.0) {
                let said = Hello { holdtime: 18, priority: other.1, packing: true };
                let mut buffer = [0; 22];
                let length = hello::write_hello(SIX, path(other.0), said, &mut buffer).unwrap();
                let said = hello::read_hello(SIX, path(other.0), &buffer[..length]).unwrap();
                table = neighbours::hear(SIX, table, (LINK | other.0).into(), said).unwrap();
            }
            let answer = neighbours::elect(SIX, &table, (LINK | own.0).into(), own_priority);
            assert_eq!(answer, Ok((LINK | elected).into()), "{case}");
            // None of them is an address of IPv4.
            assert_eq!(neighbours::packing_allowed(Family::Ipv4, &table), refusal(14, 0));
        }
    }
}
