//! Messages and elections observed from other people's routers (FRR pimd
//! 8.4.4 and pimd 2.3.2 on test LANs), and packed registers with their values
//! as another reader gives them.
mod common;
use common::v4::*;
use common::*;
use second::hello::Hello;
use second::neighbours::{Neighbour, Table};
use second::Kind;

/// A Hello, its holdtime and its priority.
const HELLOS: &[(&str, u16, u32)] = &[
    ("2000b0620001000200120002000401f409c40013000400000001001400043ff7e3a2", 18, 1),
    ("2000afee0001000200120002000401f409c40013000400000001001400041bea0824", 18, 1),
    ("200077b20001000200120002000401f409c40013000400000009001400042d782eca", 18, 9),
    ("2000b0630001000200120002000401f409c400130004ffffffff001400043ff7e3a2", 18, 4294967295),
    ("20002ff00001000200120002000401f409c4001300047fffffff001400041bea0824", 18, 2147483647),
    ("2000b0590001000200120002000401f409c4001300040000000a001400043ff7e3a2", 18, 10),
    ("2000b0610001000200120002000401f409c40013000400000002001400043ff7e3a2", 18, 2),
    ("2000afe80001000200120002000401f409c40013000400000007001400041bea0824", 18, 7),
    ("200077b70001000200120002000401f409c40013000400000004001400042d782eca", 18, 4),
    ("2000216c0001000200120002000401f409c400130004049c8a5b001400043ff7e3a2", 18, 77367899),
    ("2000e5f10001000200120002000401f409c4001300041c5ead9f001400041bea0824", 18, 475966879),
    ("2000afec0001000200120002000401f409c40013000400000003001400041bea0824", 18, 3),
    ("2000ff8b0001000200120002000401f409c400130004ce17e24b001400041bea0824", 18, 3457671755),
    ("20005fed0001000200120002000401f409c4001300043d98126a001400041bea0824", 18, 1033376362),
    ("20001e7a0001000200120002000401f409c400130004aa11e7d7001400043ff7e3a2", 18, 2853300183),
    ("200049850001000200120002000401f409c400130004eb867ae3001400041bea0824", 18, 3951459043),
    ("2000f6c90001000200120002000401f409c400130004ce25b2cb001400042d782eca", 18, 3458577099),
    ("2000afed0001000200120002000401f409c40013000400000002001400041bea0824", 18, 2),
    ("200077b40001000200120002000401f409c40013000400000007001400042d782eca", 18, 7),
    ("2000b07400010002ffff0002000401f409c40013000400000001001400043ff7e3a2", 65535, 1),
    ("2000b00b0001000200690002000401f409c40013000400000001001400043ff7e3a2", 105, 1),
    ("2000a48800010002000a0002000401f409c40013000400000001001400041bea08240018000601000a4d0003", 10, 1),
    ("2000a48700010002000a0002000401f409c40013000400000001001400041bea08240018000601000a4e0003", 10, 1),
    ("200077cc0001000200000002000401f409c40013000400000001001400042d782eca", 0, 1),
    ("2000b0740001000200000002000401f409c40013000400000001001400043ff7e3a2", 0, 1),
    ("200005c700010002006900130004000000010014000462da76c2", 105, 1),
    ("2000b98100010002006900130004000000050014000456cbcf12", 105, 5),
    ("20003c7900010002006900130004fffffffe0014000411a69146", 105, 4294967294),
    ("20008c2f00010002006900130004000000010014000445400df4", 105, 1),
    ("2000031f0001000200690013000400000005001400045e247e1c", 105, 5),
    ("2000746700010002006900130004fffffffe00140004722df8d0", 105, 4294967294),
    ("2000e18c0001000200690002000401f409c40013000400000001001400043845b9d3", 105, 1),
    ("200044a20001000200690002000401f409c400130004000000010014000448d6462d", 105, 1),
    ("2000e1f50001000200000002000401f409c40013000400000001001400043845b9d3", 0, 1),
    ("2000a0fd0001000200000002000401f409c4001300040000000100140004701ac2f6", 0, 1),
    ("200079310001000200690002000401f409c400130004000000010014000405da549a", 105, 1),
    ("2000e80d0001000200000002000401f409c40013000400000001001400046d927e6e", 0, 1),
    ("2000bf3a0001000200690013000400000001001400044ec8d160", 105, 1),
    ("20003eed0001000200000013000400000001001400044983575c", 0, 1),
];

/// A plain assert: group, source, R with preference, metric.
const ASSERTS: &[(&str, u32, u32, u32, u32)] = &[
    ("2500e4e301000020e801010101000a0900640000006e0000001e", 0xE801_0101, 0x0A09_0064, 110, 30),
    ("2500e4ec01000020e801010201000a0900640000006e00000014", 0xE801_0102, 0x0A09_0064, 110, 20),
    ("2500e4e401000020e8ffffff01000a0900660000006e0000001e", 0xE8FF_FFFF, 0x0A09_0066, 110, 30),
    (
        "2500e56f01000020e801010101000a090064ffffffffffffffff",
        0xE801_0101,
        0x0A09_0064,
        R | 2147483647,
        4294967295,
    ),
    ("2500df0201000020ef00000101000a0900650000006600000007", 0xEF00_0001, 0x0A09_0065, 102, 7),
    ("2500dbfe01000020ef03030301000a0900640000006600000007", 0xEF03_0303, 0x0A09_0064, 102, 7),
];

/// What a case is, routers as address and priority, and the one elected.
type Election = (&'static str, &'static [(u32, Option<u32>)], u32);

#[rustfmt::skip]
const ELECTIONS: &[Election] = &[
    ("equal priorities, highest address",
     &[(0x0A07_0001, Some(1)), (0x0A07_0002, Some(1)), (0x0A07_0003, Some(1))],
     0x0A07_0003),
    ("middle router has the highest priority",
     &[(0x0A07_0001, Some(5)), (0x0A07_0002, Some(9)), (0x0A07_0003, Some(1))],
     0x0A07_0002),
    ("maximum priority",
     &[(0x0A07_0001, Some(4294967295)), (0x0A07_0002, Some(2147483648)), (0x0A07_0003, Some(2147483647))],
     0x0A07_0001),
    ("priority compares unsigned (0xffffffff > 1)",
     &[(0x0A07_0001, Some(4294967295)), (0x0A07_0002, Some(1)), (0x0A07_0003, Some(1))],
     0x0A07_0001),
    ("one router without priority, lowest address",
     &[(0x0A07_0001, Some(10)), (0x0A07_0002, Some(5)), (0x0A07_0003, Some(1)), (0x0A06_0001, None)],
     0x0A07_0003),
    ("announced priority 0 is a priority",
     &[(0x0A07_0001, Some(1)), (0x0A07_0002, Some(1)), (0x0A07_0003, Some(1)), (0x0A07_00C8, Some(0))],
     0x0A07_0003),
    ("addresses compare unsigned (200.1.1.1 > 10.x), equal priority",
     &[(0x0A07_0001, Some(1)), (0x0A07_0002, Some(1)), (0x0A07_0003, Some(1)), (0xC801_0101, Some(1))],
     0xC801_0101),
    ("addresses compare unsigned at the sign bit",
     &[(0x0A07_0001, Some(1)), (0x0A07_0002, Some(1)), (0x0A07_0003, Some(1)), (0x7EFF_FFFE, Some(7)), (0x8000_0001, Some(7))],
     0x8000_0001),
    ("before goodbye: injected priority 50",
     &[(0x0A07_0001, Some(1)), (0x0A07_0002, Some(1)), (0x0A07_0003, Some(1)), (0x0A07_00C8, Some(50))],
     0x0A07_00C8),
    ("no-priority neighbour present",
     &[(0x0A07_0001, Some(5)), (0x0A07_0002, Some(9)), (0x0A07_0003, Some(1)), (0x0A07_00C8, None)],
     0x0A07_00C8),
    ("and now again without priority",
     &[(0x0A07_0001, Some(5)), (0x0A07_0002, Some(9)), (0x0A07_0003, Some(1)), (0x0A07_00C8, None)],
     0x0A07_00C8),
    ("13 injected neighbours, 16 routers in all",
     &[(0x0A07_0001, Some(4)), (0x0A07_0002, Some(4)), (0x0A07_0003, Some(4)), (0x0A07_0014, Some(1)), (0x0A07_0015, Some(4)), (0x0A07_0016, Some(2)), (0x0A07_0017, Some(9)), (0x0A07_0018, Some(9)), (0x0A07_0019, Some(3)), (0x0A07_001A, Some(0)), (0x0A07_001B, Some(7)), (0x0A07_001C, Some(8)), (0x0A07_001D, Some(9)), (0x0A07_001E, Some(5)), (0x0A07_001F, Some(6)), (0x0A07_0020, Some(4))],
     0x0A07_001D),
    ("random 1 (seed 7761)",
     &[(0x0A07_0001, Some(1)), (0x0A07_0002, Some(1)), (0x0A07_0003, Some(4294967295)), (0x0A07_005C, Some(0)), (0xA47E_A660, Some(2147483647)), (0x0A07_00E4, Some(2)), (0x4DF7_FE1A, Some(1))],
     0x0A07_0003),
    ("random 3 (seed 7761)",
     &[(0x0A07_0001, Some(4294967295)), (0x0A07_0002, Some(2147483648)), (0x0A07_0003, Some(2147483648)), (0xA560_33E4, Some(2525394057)), (0x2874_CD63, Some(1)), (0x0A07_0059, Some(4294967295)), (0xB283_F9BE, Some(4294967295)), (0x8D49_2042, Some(0)), (0x4325_C063, None)],
     0xB283_F9BE),
    ("random 5 (seed 7761)",
     &[(0x0A07_0001, Some(4294967295)), (0x0A07_0002, Some(1)), (0x0A07_0003, Some(3556413606)), (0x68E3_878F, Some(1)), (0x0A07_00B2, Some(2)), (0x0A07_00DE, Some(0)), (0x0A07_00E2, Some(4294967295)), (0x27E1_C7C3, Some(3)), (0xD860_198B, Some(2147483647)), (0x5EE5_D4BB, Some(2147483647)), (0x4AC3_4C4D, Some(2147483648))],
     0x0A07_00E2),
    ("random 7 (seed 7761)",
     &[(0x0A07_0001, Some(3)), (0x0A07_0002, Some(2147483648)), (0x0A07_0003, Some(1)), (0x212C_C4F0, Some(2147483647)), (0x0A07_000B, Some(1)), (0x0A07_005F, Some(3)), (0x6014_68B4, Some(2147483647)), (0x9A7D_E6EC, Some(2113111497))],
     0x0A07_0002),
    ("random 9 (seed 7761)",
     &[(0x0A07_0001, Some(3)), (0x0A07_0002, Some(2147483648)), (0x0A07_0003, Some(1033376362)), (0x0A07_00EE, Some(1)), (0x198A_A23D, None), (0xBB6A_BEEE, None), (0x2B07_7B15, Some(1466808263)), (0xD94C_A822, Some(0))],
     0xD94C_A822),
    ("random 11 (seed 7761)",
     &[(0x0A07_0001, Some(4294967295)), (0x0A07_0002, Some(4294967295)), (0x0A07_0003, Some(3)), (0xB342_BD1D, Some(1)), (0xBAC4_4F93, Some(0)), (0x8D7B_F42D, Some(1)), (0x0A07_000F, Some(1)), (0x91B2_BF1C, Some(0)), (0xB692_239D, Some(1))],
     0x0A07_0002),
    ("random 13 (seed 7761)",
     &[(0x0A07_0001, Some(2147483648)), (0x0A07_0002, Some(2)), (0x0A07_0003, Some(1)), (0x0A07_00C2, Some(3742963714)), (0x0A07_00CE, Some(1)), (0x0A07_0059, Some(2147483647)), (0x0A07_00DD, None), (0x0A07_00B4, Some(1)), (0x57FD_F60A, Some(2147483647)), (0xB17D_F6F9, Some(2)), (0x4189_1CB3, Some(1026726397))],
     0xB17D_F6F9),
    ("random 15 (seed 7761)",
     &[(0x0A07_0001, Some(2147483648)), (0x0A07_0002, Some(2)), (0x0A07_0003, Some(1)), (0x6B1A_3CCB, Some(1)), (0x0A07_00B2, Some(0)), (0xA88F_B688, Some(2)), (0x78DA_CE3D, Some(2147483647)), (0x0A07_0042, Some(2)), (0x0A07_00B0, Some(1))],
     0x0A07_0001),
    ("random 17 (seed 7761)",
     &[(0x0A07_0001, Some(2147483648)), (0x0A07_0002, Some(3)), (0x0A07_0003, Some(1)), (0x0A07_0010, Some(2147483647)), (0x2735_6E31, Some(4294967295)), (0x0A07_00C6, Some(2147483647))],
     0x2735_6E31),
    ("random 19 (seed 7761)",
     &[(0x0A07_0001, Some(1)), (0x0A07_0002, Some(3)), (0x0A07_0003, Some(2)), (0x0A07_00BB, Some(4294967295)), (0x25C6_35F1, Some(1))],
     0x0A07_00BB),
    ("random 21 (seed 7761)",
     &[(0x0A07_0001, Some(3)), (0x0A07_0002, Some(839255358)), (0x0A07_0003, Some(3)), (0x0A07_00EC, None), (0x248E_6AE7, Some(3))],
     0x248E_6AE7),
    ("random 23 (seed 7761)",
     &[(0x0A07_0001, Some(3)), (0x0A07_0002, Some(4294967295)), (0x0A07_0003, Some(1)), (0x8FD4_FB46, Some(2)), (0x2B07_569C, None)],
     0x8FD4_FB46),
    ("FRR r1 raised to 9",
     &[(0x0A07_0001, Some(9)), (0x0A07_0002, Some(1)), (0x0A07_0003, Some(1)), (0x0A07_0096, Some(1))],
     0x0A07_0001),
    ("a no-priority neighbour with the highest address",
     &[(0x0A07_0001, Some(9)), (0x0A07_0002, Some(1)), (0x0A07_0003, Some(1)), (0x0A07_0096, Some(1)), (0x0A07_00C8, None)],
     0x0A07_00C8),
    ("no-priority neighbour gone again",
     &[(0x0A07_0001, Some(9)), (0x0A07_0002, Some(1)), (0x0A07_0003, Some(1)), (0x0A07_0096, Some(1))],
     0x0A07_0001),
    ("pimd 5, FRR r2 7",
     &[(0x0A07_0001, Some(1)), (0x0A07_0002, Some(7)), (0x0A07_0003, Some(1)), (0x0A07_0096, Some(5))],
     0x0A07_0002),
    ("pimd 5, injected priority 5, lower address",
     &[(0x0A07_0001, Some(1)), (0x0A07_0002, Some(1)), (0x0A07_0003, Some(1)), (0x0A07_0096, Some(5)), (0x0A07_0064, Some(5))],
     0x0A07_0096),
    ("pimd 5, injected priority 0x80000000, lower address",
     &[(0x0A07_0001, Some(1)), (0x0A07_0002, Some(1)), (0x0A07_0003, Some(1)), (0x0A07_0096, Some(5)), (0x0A07_0064, Some(2147483648))],
     0x0A07_0064),
    ("pimd 4294967294, FRR r1 2147483647",
     &[(0x0A07_0001, Some(2147483647)), (0x0A07_0002, Some(1)), (0x0A07_0003, Some(1)), (0x0A07_0096, Some(4294967294))],
     0x0A07_0096),
];

#[test]
fn hellos() {
    for (text, holdtime, priority) in HELLOS {
        let expected = Hello { holdtime: *holdtime, priority: Some(*priority), packing: false };
        assert_eq!(read_hello(&hex(text)), Ok(expected), "{text}");
    }
}

/// pimd's Hellos begin with holdtime and priority, as ours do; then they have
/// an option that is not written here, so the checksum is another.
#[test]
fn hellos_written() {
    let pimd: Vec<_> = HELLOS.iter().filter(|(text, ..)| text[20..24] == *"0013").collect();
    assert_eq!(pimd.len(), 8);
    for (text, holdtime, priority) in pimd {
        let said = Hello { holdtime: *holdtime, priority: Some(*priority), packing: false };
        let mut buffer = [0; 18];
        assert_eq!(write_hello(said, &mut buffer), Ok(18));
        assert_eq!((&buffer[..2], &buffer[4..]), (&hex(text)[..2], &hex(text)[4..18]));
    }
}

#[test]
fn asserts() {
    for (text, group, source, r_preference, metric) in ASSERTS {
        let expected = entry(*group, *source, *r_preference, *metric);
        let mut entries = [0; 20];
        assert_eq!(read_asserts(&hex(text), &mut entries), Ok((Kind::Assert, 1)));
        assert_eq!(entries[..], expected);
        let mut buffer = [0; 38];
        assert_eq!(pack_assert(&entries, 0, 38, &mut buffer), Ok((26, 1)));
        assert_eq!(buffer[..26], hex(text));
    }
}

/// Reads as the pairs of a kind; packing them gives the octets again, the
/// ignored half of octet 1 as 0.
fn pairs(text: &str, kind: Kind, expected: &[(u32, u32)]) {
    let expected: Vec<u8> = expected.iter().flat_map(|(group, source)| pair(*group, *source)).collect();
    let mut entries = vec![0; expected.len()];
    assert_eq!(read_pairs(&hex(text), &mut entries), Ok((kind, expected.len() / PAIR_ENTRY)));
    assert_eq!(entries, expected);
    let mut written = hex(text);
    written[1] &= 0xF0;
    seal(&mut written);
    let mut buffer = [0; 100];
    let pack = if kind == Kind::NullRegister { pack_null_register } else { pack_register_stop };
    assert_eq!(pack(&entries, 0, 100, &mut buffer), Ok((written.len(), entries.len() / PAIR_ENTRY)));
    assert_eq!(buffer[..written.len()], written);
}

#[test]
fn packed_registers() {
    let (g, s) = (0xEF01_0101, 0x0A00_0001);

    let two = "2d00dab501000020ef01010101000a00000101000020ef01010201000a000002";
    pairs(two, Kind::NullRegister, &[(g, s), (g + 1, s + 1)]);
    pairs("2d00d6db01000020ef01010101000a000001", Kind::NullRegister, &[(g, s)]);
    pairs("2d0fd6cc01000020ef01010101000a000001", Kind::NullRegister, &[(g, s)]);
    // The checksum is the complement of 2D10 + 0100 + 0020 + EF01 + 0101 + 0100 + 0A00 + 0001 = 2934
    // and 0100 + 0020 + EF01 + 0102 + 0100 more, 1B58.
    let two = "2d10e4a701000020ef01010101000a00000101000020ef010102010000000000";
    pairs(two, Kind::RegisterStop, &[(g, s), (g + 1, 0)]);
    // Another subtype, the draft's Count word, and a source cut short.
    let read = |text| read_pairs(&hex(text), &mut [0; 80]);
    assert_eq!(read("2d20d6bb01000020ef01010101000a000001"), refusal(4, 0));
    assert_eq!(read("2d00d6da0000000101000020ef01010101000a000001"), refusal(7, 4));
    assert_eq!(read("2d00d6dc01000020ef01010101000a0000"), refusal_within(6, 12, 4));
    // These two pairs, and a third at 32 whose source is 255.255.255.255.
    let three =
        "2d10028701000020ef01010101000a00000101000020ef01010201000000000001000020e00000000100ffffffff";
    assert_eq!(read(three), refusal_within(7, 40, 32));
}

fn row(router: &(u32, Option<u32>)) -> Neighbour {
    Neighbour {
        address: router.0.into(),
        priority: router.1.unwrap_or(0),
        has_priority: router.1.is_some(),
        packs: false,
        holdtime: 18,
    }
}

#[test]
fn elections_over_a_list() {
    for (case, routers, elected) in ELECTIONS {
        let mut rows: Vec<Neighbour> = routers.iter().map(row).collect();
        assert_eq!(elect_among(&rows), Ok(*elected), "{case}");
        rows.reverse();
        assert_eq!(elect_among(&rows), Ok(*elected), "{case}");
    }
}

/// As each router that has a priority sees it.
#[test]
fn elections_over_a_table() {
    for (case, routers, elected) in ELECTIONS {
        for own in *routers {
            let Some(own_priority) = own.1 else { continue };
            let mut table = Table::empty();
            for other in routers.iter().filter(|other| other.0 != own.0) {
                let hello = Hello { holdtime: 18, priority: other.1, packing: true };
                table = hear(table, other.0, hello).unwrap();
            }
            assert_eq!(elect(&table, own.0, own_priority), Ok(*elected), "{case}");
        }
    }
}
