//! What an answered list must be, whatever way it was found: the fewest blocks of its cover, the
//! cover that was asked for, and the same for every order of the list.

use crate::case::{Answer, Case};
use crate::judge::Judge;
use crate::rules::{MOST_RECORDS, TOO_MANY};
use std::collections::BTreeMap;

/// The first and the last address of a block.
type Span = (u128, u128);

/// Checks a good answer of a call on records. Returns whether there is one.
pub fn check(judge: &mut Judge, case: &Case) -> bool {
    let (Case::Gather { records, family } | Case::Uncovered { records, family }) = case else {
        return false;
    };
    let (answer, bytes) = case.library_ample();
    if answer.refusal != 0 {
        return false;
    }
    let width = if *family == 4 { 32 } else { 128 };
    let gathers = matches!(case, Case::Gather { .. });
    let (Some(list), Some(found)) = (spans(records, width), spans(&bytes, width)) else {
        judge.fail(&format!("{case}: a record that is no block"));
        return true;
    };
    judge.expect(are_fewest(&found), || {
        format!("{case}: not the fewest blocks")
    });
    let ((begins, changes), (found_begins, found_changes)) =
        (cover(&list, width), cover(&found, width));
    let asked_for = changes == found_changes && gathers == (begins == found_begins);
    judge.expect(asked_for, || format!("{case}: not the cover asked for"));

    let stirred = stirred(judge, records, width as usize / 8 + 1);
    same(judge, case, &of(case, stirred), (answer, &bytes));
    if gathers {
        judge.expect(found.len() <= list.len(), || {
            format!("{case}: more blocks than the list has")
        });
        same(judge, case, &of(case, bytes.clone()), (answer, &bytes));
        return true;
    }
    uncovered_again(judge, case, (answer, bytes), found.len());
    true
}

/// What is not covered is that of the gathered list, and, asked for again, the gathered list.
fn uncovered_again(judge: &mut Judge, case: &Case, uncovered: (Answer, Vec<u8>), blocks: usize) {
    let (answer, bytes) = uncovered;
    let (Case::Gather { records, family } | Case::Uncovered { records, family }) = case else {
        return;
    };
    let (records, family) = (records.clone(), *family);
    let (gathered, list) = Case::Gather { records, family }.library_ample();
    same(judge, case, &of(case, list.clone()), (answer, &bytes));
    let twice = of(case, bytes);
    if blocks <= MOST_RECORDS {
        same(judge, case, &twice, (gathered, &list));
    } else {
        let too_many = Answer {
            refusal: TOO_MANY,
            ..Answer::default()
        };
        same(judge, case, &twice, (too_many, &[]));
    }
}

/// The same call on other records of the family.
fn of(case: &Case, records: Vec<u8>) -> Case {
    match *case {
        Case::Uncovered { family, .. } => Case::Uncovered { records, family },
        Case::Gather { family, .. } => Case::Gather { records, family },
        _ => panic!("not a call on records"),
    }
}

/// Expects that another call is answered so.
fn same(judge: &mut Judge, case: &Case, other: &Case, (answer, bytes): (Answer, &[u8])) {
    let (given, written) = other.library_ample();
    judge.expect(given == answer && written == bytes, || {
        format!("{case}, and then {other}: {given:?}")
    });
}

/// The records in another order, and some of them twice where the call takes so many.
fn stirred(judge: &mut Judge, records: &[u8], record: usize) -> Vec<u8> {
    let random = &mut judge.random;
    let mut list: Vec<&[u8]> = records.chunks(record).collect();
    let more = list.len().min(MOST_RECORDS.saturating_sub(list.len()));
    for _ in 0..random.below(more + 1) {
        list.push(list[random.below(list.len())]);
    }
    for place in 0..list.len() {
        list.swap(place, random.below(place + 1));
    }
    list.concat()
}

/// The blocks of records, if each is one.
fn spans(records: &[u8], width: u32) -> Option<Vec<Span>> {
    let span = |record: &[u8]| {
        let (&length, address) = record.split_last()?;
        let first = address
            .iter()
            .fold(0, |number, &octet| number << 8 | u128::from(octet));
        let free = width.checked_sub(length.into())?;
        let size = (0..free).fold(0, |size, bit| size | 1 << bit);
        (first & size == 0).then_some((first, first | size))
    };
    records.chunks(width as usize / 8 + 1).map(span).collect()
}

/// Whether the blocks rise, each behind the end of the one before, and no two are the halves of one
/// block. Then there are no fewer with their cover: of the blocks that a larger one is made of, the
/// two smallest side by side are halves.
fn are_fewest(blocks: &[Span]) -> bool {
    blocks.windows(2).all(|pair| {
        let [(first, last), (next, end)] = [pair[0], pair[1]];
        let size = last - first;
        let halves = end.wrapping_sub(next) == size && first & (size << 1 | 1) == 0;
        last < next && !(halves && last + 1 == next)
    })
}

/// Whether the first of all addresses is covered, and every other address that is covered where the
/// one before it is not, or not where that is.
fn cover(blocks: &[Span], width: u32) -> (bool, Vec<u128>) {
    let most = u128::MAX >> (128 - width);
    let mut steps: BTreeMap<u128, i64> = BTreeMap::new();
    for &(first, last) in blocks {
        *steps.entry(first).or_default() += 1;
        if last < most {
            *steps.entry(last + 1).or_default() -= 1;
        }
    }
    let begins = steps.remove(&0).unwrap_or(0);
    let mut depth = begins;
    let mut changes = Vec::new();
    for (address, step) in steps {
        if (depth > 0) != (depth + step > 0) {
            changes.push(address);
        }
        depth += step;
    }
    (begins > 0, changes)
}

#[cfg(test)]
mod tests {
    use super::*;

    #[test]
    fn fewest_blocks_have_no_halves() {
        assert!(are_fewest(&[]));
        assert!(are_fewest(&[(0, u128::MAX)]));
        assert!(are_fewest(&[(1, 1), (2, 3), (4, 4)]));
        assert!(are_fewest(&[(0, 0), (2, 2)]));
        assert!(!are_fewest(&[(0, 0), (1, 1)]));
        assert!(!are_fewest(&[(4, 5), (6, 7)]));
        assert!(!are_fewest(&[(4, 5), (5, 5)]));
        assert!(!are_fewest(&[(4, 5), (4, 5)]));
        assert!(!are_fewest(&[(2, 2), (0, 0)]));
        let middle = 1 << 127;
        assert!(!are_fewest(&[(0, middle - 1), (middle, u128::MAX)]));
    }

    #[test]
    fn a_cover_and_the_rest_change_at_the_same_addresses() {
        let most = u128::from(u32::MAX);
        assert_eq!(cover(&[], 32), (false, vec![]));
        assert_eq!(cover(&[(0, most)], 32), (true, vec![]));
        assert_eq!(cover(&[(4, 7), (6, 6), (8, 8)], 32), (false, vec![4, 9]));
        assert_eq!(cover(&[(0, 3), (9, most)], 32), (true, vec![4, 9]));
        assert_eq!(cover(&[(0, 3), (0, 1), (2, 2)], 128), (true, vec![4]));
        assert_eq!(
            cover(&[(u128::MAX, u128::MAX)], 128),
            (false, vec![u128::MAX])
        );
    }
}
