//! What the library writes, the library reads back as the same value.

use crate::case::{Answer, Case};
use crate::judge::Judge;
use crate::{lists, sheet_laws};

/// Checks the way back from a good answer of a writing call, of a split, of a join or of a call on
/// records or a sheet. Returns whether there is one.
pub fn check(judge: &mut Judge, case: &Case) -> bool {
    if let Case::Gather { .. } | Case::Uncovered { .. } = case {
        return lists::check(judge, case);
    }
    if let Case::Respell { sheet, .. } = case {
        return sheet_laws::check(judge, sheet);
    }
    let (answer, bytes) = case.library_ample();
    if answer.refusal != 0 {
        return false;
    }
    let Some((back, values, expected)) = way_back(case, answer, bytes) else {
        return false;
    };
    let (read, bytes) = back.library_ample();
    let same = read.refusal == 0 && read.values == values && filled(&bytes, &expected);
    judge.expect(same, || {
        format!("{case}, and back by {back}: {read:?}, bytes {bytes:?}")
    });
    true
}

/// The call that undoes this one, and the values and bytes it must give.
fn way_back(case: &Case, answer: Answer, bytes: Vec<u8>) -> Option<(Case, [u64; 2], Vec<u8>)> {
    let [network, host] = answer.values;
    Some(match case {
        Case::WriteAddress { address } => {
            let family = if address.len() == 4 { 4 } else { 6 };
            let back = Case::ReadAddress {
                text: bytes,
                family,
            };
            (back, [0, 0], address.clone())
        }
        Case::WriteNetwork { address, size } => {
            let number = u32::from_be_bytes(address[..].try_into().ok()?);
            let mask = u32::MAX.checked_shl(32 - size).unwrap_or(0);
            let cleared = (number & mask).to_be_bytes().to_vec();
            (
                Case::ReadNetwork { text: bytes },
                [(*size).into(), 0],
                cleared,
            )
        }
        Case::WriteBlock { address, length } => (
            Case::ReadBlock { text: bytes },
            [(*length).into(), 0],
            address.clone(),
        ),
        Case::Split { address } => {
            let (network, host) = (network as u32, host as u32);
            (Case::Join { network, host }, [0, 0], address.clone())
        }
        Case::Join { network, host } => (
            Case::Split { address: bytes },
            [(*network).into(), (*host).into()],
            vec![],
        ),
        _ => return None,
    })
}

/// Whether the bytes, filled up with zeros, are the expected ones. Only a network may have fewer.
fn filled(bytes: &[u8], expected: &[u8]) -> bool {
    match expected.split_at_checked(bytes.len()) {
        Some((given, missing)) => given == bytes && missing.iter().all(|&byte| byte == 0),
        None => false,
    }
}
