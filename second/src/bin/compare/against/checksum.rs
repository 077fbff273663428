//! The checksums of any octets, and whether they hold.

use super::expect::path_form;
use super::lab::{any_path, Lab, Named};
use super::make::octets;
use super::{calls, Run};
use second::checksum::{checksum, checksum_ipv6};
use second::{Family, Path};

pub fn compare(run: &mut Run) {
    for length in (0..=300).chain([555, 556, 1_479, 1_480, 65_514, 65_515, 65_516, 65_535, 65_536, 1 << 20]) {
        for fill in [0, 0xFF, 0x80] {
            any(run, &vec![fill; length]);
        }
        for _ in 0..3 * run.rounds {
            let m = octets(&mut run.rng, length);
            any(run, &m);
        }
    }
}

/// Octets as they are, sealed, and sealed with one bit of them or of the path
/// changed; in each family.
fn any(run: &mut Run, m: &[u8]) {
    for family in Family::ALL {
        let lab = Lab { family, path: any_path(&mut run.rng) };
        both(run, lab.named(), m);
        let mut m = lab.sealed(m);
        both(run, lab.named(), &m);
        let mut other = lab.path;
        other.destination.low ^= 1 << run.below(64);
        both(run, Named { path: other, ..lab.named() }, &m);
        if !m.is_empty() {
            let at = run.below(m.len());
            m[at] ^= 1 << run.below(8);
            both(run, lab.named(), &m);
        }
    }
}

/// Both checksum calls of a family on a message.
pub fn both(run: &mut Run, named: Named, m: &[u8]) {
    let lent = run.input("message", m);
    let numbers = format_args!("{named:?}");
    if named.family != Family::Ipv6.number() {
        let (first, second) = (calls::checksum(&lent), checksum(&unsealed(m)));
        run.tally.call("pim_checksum", numbers, &[&lent], &first, &second);
        let (first, second) = (calls::checksum_holds(&lent), u8::from(checksum(m) == 0));
        run.tally.call("pim_checksum_holds", numbers, &[&lent], &first, &second);
        return;
    }
    let path: Path = named.path;
    let (first, second) = (calls::checksum_ipv6(path_form(path), &lent), checksum_ipv6(path, &unsealed(m)));
    run.tally.call("pim_checksum_ipv6", numbers, &[&lent], &first, &second);
    let first = calls::checksum_ipv6_holds(path_form(path), &lent);
    let second = u8::from(checksum_ipv6(path, m) == 0);
    run.tally.call("pim_checksum_ipv6_holds", numbers, &[&lent], &first, &second);
}

/// The message with its own field as 0, as far as the field is there.
fn unsealed(m: &[u8]) -> Vec<u8> {
    let mut copy = m.to_vec();
    for octet in copy.iter_mut().take(4).skip(2) {
        *octet = 0;
    }
    copy
}
