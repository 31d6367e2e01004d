//! What an answered sheet must be, whatever way it was made: each line with the reading that its
//! address had, sorted lines rising by address with equal addresses in their old order, and the same
//! again when asked again.

use crate::case::{Case, Shown};
use crate::judge::Judge;
use crate::rules::strict;
use crate::sheets::lines;
use std::collections::HashMap;
use std::net::IpAddr;

/// Checks both answers to a sheet that is accepted. Returns whether it is.
pub fn check(judge: &mut Judge, sheet: &[u8]) -> bool {
    let [unsorted, sorted] = [0, 1].map(|sorted| respelt(sheet, sorted));
    judge.expect(unsorted.is_some() == sorted.is_some(), || {
        told(sheet, "accepted in one order alone")
    });
    let (Some(unsorted), Some(sorted)) = (unsorted, sorted) else {
        return false;
    };
    for (holds, law) in [
        (keeps_lines(sheet, &unsorted), "a line is not as it was"),
        (rises(&sorted), "the sorted lines do not rise"),
        (
            keeps_order(&unsorted, &sorted),
            "not the same lines under each address, in their order",
        ),
        (
            again(&unsorted, 0, &unsorted) && again(&sorted, 0, &sorted),
            "respelt twice",
        ),
        (again(&sorted, 1, &sorted), "sorted twice"),
        (again(&unsorted, 1, &sorted), "sorted behind respelling"),
    ] {
        judge.expect(holds, || told(sheet, law));
    }
    let stirred = stirred(judge, sheet);
    judge.expect(again(&stirred, 1, &sorted), || {
        told(
            sheet,
            "sorted otherwise where other addresses stand between",
        )
    });
    true
}

fn told(sheet: &[u8], law: &str) -> String {
    format!("sheet {}: {law}", Shown(sheet))
}

fn respelt(sheet: &[u8], sorted: u32) -> Option<Vec<u8>> {
    let sheet = sheet.to_vec();
    let (answer, bytes) = Case::Respell { sheet, sorted }.library_ample();
    (answer.refusal == 0).then_some(bytes)
}

fn again(sheet: &[u8], sorted: u32, expected: &[u8]) -> bool {
    respelt(sheet, sorted).as_deref() == Some(expected)
}

/// The address of a good line, and the bytes from the first comma on.
fn taken_apart(line: &[u8]) -> Option<(IpAddr, &[u8])> {
    let comma = line.iter().position(|&byte| byte == b',')?;
    let (address, reading) = line.split_at(comma);
    let address = strict(std::str::from_utf8(address).ok()?).ok()?;
    Some((address, reading))
}

/// Whether the lines mean the same addresses one by one, and have the same bytes behind these.
fn keeps_lines(sheet: &[u8], unsorted: &[u8]) -> bool {
    let (before, after) = (lines(sheet), lines(unsorted));
    let same = |(before, after): (&&[u8], &&[u8])| {
        let before = taken_apart(before);
        before.is_some() && before == taken_apart(after)
    };
    before.len() == after.len() && before.iter().zip(&after).all(same)
}

/// Whether no address is below that of the line before it. `std::net` has IPv4 before IPv6 too.
fn rises(sorted: &[u8]) -> bool {
    let addresses = lines(sorted)
        .into_iter()
        .map(|line| Some(taken_apart(line)?.0));
    let addresses: Option<Vec<IpAddr>> = addresses.collect();
    addresses.is_some_and(|addresses| addresses.is_sorted())
}

/// Whether each address has the same lines in the same order in both sheets.
fn keeps_order(one: &[u8], other: &[u8]) -> bool {
    under_addresses(one) == under_addresses(other)
}

fn under_addresses(sheet: &[u8]) -> HashMap<&[u8], Vec<&[u8]>> {
    let mut under: HashMap<&[u8], Vec<&[u8]>> = HashMap::new();
    for line in lines(sheet) {
        let address = line.split(|&byte| byte == b',').next().unwrap_or(line);
        under.entry(address).or_default().push(line);
    }
    under
}

/// The lines in another order, in which those with equal addresses are as before: some addresses, by a
/// random bit of each, stand before the others.
fn stirred(judge: &mut Judge, sheet: &[u8]) -> Vec<u8> {
    let multiplier = judge.random.bits() | 1;
    let first = |line: &&[u8]| {
        let number = match taken_apart(line).map(|(address, _)| address) {
            Some(IpAddr::V4(address)) => u32::from(address).into(),
            Some(IpAddr::V6(address)) => {
                let number = u128::from(address);
                (number >> 64) as u64 ^ number as u64
            }
            None => 0,
        };
        number.wrapping_mul(multiplier) >> 63 == 0
    };
    let (first, then): (Vec<&[u8]>, Vec<&[u8]>) = lines(sheet).into_iter().partition(first);
    [first.concat(), then.concat()].concat()
}

#[cfg(test)]
mod tests {
    use super::*;

    const SHEET: &[u8] = b"::2,1,9\n::1,5,5\n0::2,1,8\n1.2.3.4,3,3\n";
    const UNSORTED: &[u8] = b"::2,1,9\n::1,5,5\n::2,1,8\n1.2.3.4,3,3\n";
    const SORTED: &[u8] = b"1.2.3.4,3,3\n::1,5,5\n::2,1,9\n::2,1,8\n";

    #[test]
    fn lines_keep_their_readings() {
        assert!(keeps_lines(SHEET, UNSORTED));
        assert!(keeps_lines(b"", b""));
        assert!(!keeps_lines(SHEET, SORTED));
        assert!(!keeps_lines(b"::2,1,9\n::1,5,5\n", b"::2,5,5\n::1,1,9\n"));
        assert!(!keeps_lines(b"::2,1,9\n", b"::2,1,9\n::2,1,9\n"));
        assert!(!keeps_lines(b"x,1,9\n", b"x,1,9\n"));
    }

    #[test]
    fn sorted_lines_rise_and_keep_the_order_of_equal_addresses() {
        assert!(rises(SORTED) && rises(b""));
        assert!(!rises(UNSORTED));
        assert!(!rises(b"::,1,0\n255.255.255.255,1,0\n"));
        assert!(keeps_order(UNSORTED, SORTED));
        let swapped = b"1.2.3.4,3,3\n::1,5,5\n::2,1,8\n::2,1,9\n";
        assert!(rises(swapped) && !keeps_order(UNSORTED, swapped));
        let apprentice = b"1.2.3.4,1,9\n::1,5,5\n::2,1,8\n::2,3,3\n";
        assert!(rises(apprentice) && !keeps_order(UNSORTED, apprentice));
    }

    #[test]
    fn stirred_lines_keep_the_order_of_equal_addresses() {
        let mut judge = Judge::new(1);
        let mut moved = 0;
        for _ in 0..20 {
            let stirred = stirred(&mut judge, UNSORTED);
            assert!(keeps_order(UNSORTED, &stirred));
            moved += u32::from(stirred != UNSORTED);
        }
        assert!(moved > 0);
    }
}
