//! Lists of records gone through in order: every small one, every count, every room, every refusal.

use crate::case::Case;
use crate::generate;
use crate::rules::MOST_RECORDS;
use crate::run::Run;
use crate::sweeps::Sweep;

pub const SWEEPS: [Sweep; 5] = [
    small_lists,
    lists_of_every_count,
    every_byte_count,
    bad_records,
    several_refusals,
];

/// A first address and a length.
type Block = (u128, u32);

/// The families, with the bits of their addresses.
const FAMILIES: [(u32, u32); 2] = [(4, 32), (6, 128)];

/// The bytes put to both calls on records.
fn calls(records: &[u8], family: u32) -> [Case; 2] {
    let [list, records] = [records.to_vec(), records.to_vec()];
    [
        Case::Gather {
            records: list,
            family,
        },
        Case::Uncovered { records, family },
    ]
}

/// The exact need, one byte and one record to either side of it, as much as the list has, and an
/// empty buffer. All that is compared besides does not depend on the room.
fn compare_rooms(run: &mut Run, records: &[u8], family: u32) {
    for case in calls(records, family) {
        let need = run.judge.need(&case);
        for room in [
            0,
            need.saturating_sub(17),
            need.saturating_sub(5),
            need.saturating_sub(1),
            need + 1,
            need + 5,
            need + 17,
            records.len(),
        ] {
            run.judge.compare(&case, room);
        }
        run.compare(&case, need);
    }
}

fn compare_tight(run: &mut Run, records: &[u8], family: u32) {
    for case in calls(records, family) {
        run.compare_tight(&case);
    }
}

/// Every list of one or two, and every set of three, of the 15 blocks of three bits: at the start of all addresses, at
/// their end, and of the first three bits of an address.
fn small_lists(run: &mut Run) {
    for (family, width) in FAMILIES {
        let most = u128::MAX >> (128 - width);
        for (place, shift) in [(0, 0), (most - 7, 0), (0, width - 3)] {
            let blocks: Vec<Block> = (0..=3)
                .flat_map(|free| (0..8 >> free).map(move |n| (n << free, free)))
                .map(|(start, free)| (place + (start << shift), width - shift - free))
                .collect();
            let records = |list: &[Block]| generate::records(list, width);
            for (end, &one) in blocks.iter().enumerate() {
                compare_rooms(run, &records(&[one]), family);
                for &two in &blocks {
                    compare_rooms(run, &records(&[one, two]), family);
                }
                for (end, &two) in blocks[..end].iter().enumerate() {
                    for &three in &blocks[..end] {
                        compare_tight(run, &records(&[one, two, three]), family);
                    }
                }
            }
        }
    }
}

/// Lists from no record to a few more than a call takes.
fn lists_of_every_count(run: &mut Run) {
    for (family, width) in FAMILIES {
        let few = (0..=9).chain([31, 32, 33, 127, 128, 129, 255, 256, 257]);
        for count in few.chain(MOST_RECORDS - 2..=MOST_RECORDS + 2) {
            for list in lists(count as u128, width) {
                compare_rooms(run, &generate::records(&list, width), family);
            }
        }
        // As far from each other as so many can lie, so that they leave the most blocks.
        let parts = 0..MOST_RECORDS as u128;
        let apart: Vec<Block> = parts
            .map(|part| ((part << (width - 9)) + 5, width))
            .collect();
        compare_rooms(run, &generate::records(&apart, width), family);
    }
}

/// Lists of so many blocks, of which some gather to one and some to as many as they are.
fn lists(count: u128, width: u32) -> [Vec<Block>; 6] {
    let most = u128::MAX >> (128 - width);
    let middle = 1 << (width / 2);
    let list = |block: &dyn Fn(u128) -> Block| (0..count).map(block).collect();
    [
        // one again and again
        list(&|_| (1 << (width - 1), 1)),
        // side by side from the third, and on both sides of where the upper half of the bits changes
        list(&|n| (n + 3, width)),
        list(&|n| (middle - count / 2 + n, width)),
        // falling from the last, without a gap and with one
        list(&|n| (most - n, width)),
        list(&|n| (most - 2 * n, width)),
        // one inside the other
        list(&|n| (0, 1 + n as u32 % width)),
    ]
}

/// Every number of bytes up to a few records, and around the most that a call takes, of families that
/// there are and are not.
fn every_byte_count(run: &mut Run) {
    let families = (0..=8).chain([16, 32, 255, 256, 256 + 4, 256 + 6, 1 << 31, u32::MAX]);
    for family in families {
        let most = [MOST_RECORDS * 5, MOST_RECORDS * 17].into_iter();
        for count in (0..=40).chain(most.flat_map(|most| most - 6..=most + 18)) {
            compare_tight(run, &vec![0; count], family);
        }
    }
}

/// Among good records one with every length, and with no bit of its address set or one: the lowest,
/// the highest beyond the length, the lowest inside it, or the highest.
fn bad_records(run: &mut Run) {
    for (family, width) in FAMILIES {
        for length in 0..=255 {
            let beyond = width.saturating_sub(length);
            let bits = [
                0,
                beyond.saturating_sub(1),
                beyond.min(width - 1),
                width - 1,
            ];
            for address in bits.map(|bit| 1 << bit).into_iter().chain([0]) {
                for place in 0..3 {
                    let mut list = [(0, width), (2, width), (4, width - 1)];
                    list[place] = (address, length);
                    compare_tight(run, &generate::records(&list, width), family);
                }
            }
        }
    }
}

/// Lists that several refusals hold of: a family that there is not, a byte too many, a record too
/// many, and bad records, of which the first decides.
fn several_refusals(run: &mut Run) {
    for (family, width) in FAMILIES {
        let (good, long, beyond) = ((1 << (width - 1), 1), (0, width + 1), (1, width - 1));
        let long_and_odd = (1, 255);
        for bad in [
            &[][..],
            &[long],
            &[beyond],
            &[long_and_odd],
            &[long, beyond],
            &[beyond, long],
            &[beyond, long_and_odd],
        ] {
            for count in [bad.len(), MOST_RECORDS, MOST_RECORDS + 1] {
                let rest = vec![good; count - bad.len()];
                for list in [[bad, &rest].concat(), [&rest, bad].concat()] {
                    let mut records = generate::records(&list, width);
                    for _ in 0..2 {
                        for family in [family, 0, 5, 256 + family] {
                            compare_tight(run, &records, family);
                        }
                        records.push(0);
                    }
                }
            }
        }
    }
}
