//! Random inputs: numbers and addresses near the boundaries, valid texts of each form, and texts
//! damaged on purpose.

use crate::case::Case;
use crate::random::Random;
use crate::rules::MOST_RECORDS;
use crate::sheet_inputs;

/// The bytes that mean something in some form, and a few that only look so.
const ALPHABET: &[u8] = b"0123456789abcdefABCDEFxX.:/ 0001..::/%-+g\t";
const BLANKS: &[u8] = b" \t\n\x0b\x0c\r";

/// The first network number of each class, and the first beyond it.
pub const CLASS_EDGES: [u32; 6] = [0, 128, 32_768, 49_152, 12_582_912, 14_680_064];
/// The first host number too large for class C, B and A, and the lowest.
pub const HOST_EDGES: [u32; 4] = [0, 256, 65_536, 16_777_216];

type TextMaker = fn(&mut Random) -> String;

/// A call on records takes as long as some thirty others, so that it has one turn in a hundred.
const RECORDS_TURN: u64 = 100;

/// A call on a sheet takes longer still. Its turn is none of those on records.
const SHEET_TURN: u64 = 200;

/// A random call of each kind in turn, so that none is rare.
pub fn case(random: &mut Random, turn: u64) -> Case {
    if turn.is_multiple_of(RECORDS_TURN) {
        return on_records(random);
    }
    if turn % SHEET_TURN == SHEET_TURN / 4 {
        return sheet_inputs::case(random);
    }
    match turn % 11 {
        0 => Case::ReadAddress {
            text: text(random, strict),
            family: family(random),
        },
        1 => Case::WriteAddress {
            address: any_address(random),
        },
        2 => Case::ReadLoose {
            text: text(random, loose),
        },
        3 => Case::ReadNetwork {
            text: text(random, network),
        },
        4 => {
            let address = ipv4_or_any(random);
            let size = length(random, 32);
            Case::WriteNetwork { address, size }
        }
        5 => Case::Split {
            address: ipv4_or_any(random),
        },
        6 => join(random),
        7 => Case::ReadBlock {
            text: text(random, block),
        },
        8 => write_block(random),
        9 => range(random),
        _ => Case::RefusalText {
            number: length(random, 10),
        },
    }
}

fn family(random: &mut Random) -> u32 {
    match random.below(10) {
        0..=5 => 0,
        6 | 7 => *random.pick(&[4, 6]),
        8 => random.below_u32(12),
        _ => random.bits() as u32,
    }
}

/// A length or size: mostly up to the limit, sometimes a little above, sometimes anything.
fn length(random: &mut Random, limit: u32) -> u32 {
    match random.below(10) {
        0..=6 => random.below_u32(limit + 1),
        7 | 8 => random.below_u32(301),
        _ => random.bits() as u32,
    }
}

fn join(random: &mut Random) -> Case {
    let near = |random: &mut Random, edges: &[u32]| {
        let edge = *random.pick(edges);
        edge.wrapping_add(random.below_u32(5)).wrapping_sub(2)
    };
    let network = match random.below(8) {
        0 => random.bits() as u32,
        1 | 2 => near(random, &CLASS_EDGES),
        3 => random.below_u32(128),
        4 | 5 => 32_768 + random.below_u32(16_384),
        _ => 12_582_912 + random.below_u32(2_097_152),
    };
    let host = match random.below(6) {
        0 => random.bits() as u32,
        1 | 2 => near(random, &HOST_EDGES),
        3 => random.below_u32(256),
        4 => random.below_u32(65_536),
        _ => random.below_u32(16_777_216),
    };
    Case::Join { network, host }
}

fn write_block(random: &mut Random) -> Case {
    if random.percent(10) {
        let (address, length) = (any_address(random), length(random, 128));
        return Case::WriteBlock { address, length };
    }
    let width = *random.pick(&[32, 128]);
    let length = length(random, width);
    let number = number(random, width);
    // Mostly a block's own address, so that good answers are common.
    let number = if length <= width && random.percent(80) {
        cleared(number, width - length)
    } else {
        number
    };
    let address = octets(number, width);
    Case::WriteBlock { address, length }
}

fn range(random: &mut Random) -> Case {
    if random.percent(10) {
        let (first, last) = (any_address(random), any_address(random));
        return Case::RangeBlocks { first, last };
    }
    let width = *random.pick(&[32, 128]);
    let one = number(random, width);
    let mask = u128::MAX >> (128 - width);
    let other = match random.below(6) {
        0 => one,
        1 => one.wrapping_add(random.below(3) as u128) & mask,
        2 => one.wrapping_add(random.bits_128() >> random.below(128)) & mask,
        _ => number(random, width),
    };
    let (first, last) = if random.percent(85) {
        (one.min(other), one.max(other))
    } else {
        (one, other)
    };
    let (first, last) = (octets(first, width), octets(last, width));
    Case::RangeBlocks { first, last }
}

fn on_records(random: &mut Random) -> Case {
    let width = *random.pick(&[32, 128]);
    let mut records = records(&list(random, width), width);
    match random.below(20) {
        0 => spoil_record(random, width, &mut records),
        1 => {
            spoil_record(random, width, &mut records);
            spoil_record(random, width, &mut records);
        }
        2 => records.truncate(records.len().saturating_sub(1 + random.below(17))),
        3 => {
            let behind = 1 + random.below(17);
            records.extend(any_bytes(random, behind));
        }
        _ => {}
    }
    let family = match random.below(20) {
        0 => family(random),
        1 => *random.pick(&[4, 6]),
        _ if width == 32 => 4,
        _ => 6,
    };
    if random.percent(50) {
        Case::Gather { records, family }
    } else {
        Case::Uncovered { records, family }
    }
}

/// The first address and the length of each block as records.
pub fn records(blocks: &[(u128, u32)], width: u32) -> Vec<u8> {
    let record = |&(first, length): &(u128, u32)| [octets(first, width), vec![length as u8]];
    blocks.iter().flat_map(record).flatten().collect()
}

/// Gives some record another length, or sets a bit of its address.
fn spoil_record(random: &mut Random, width: u32, records: &mut [u8]) {
    let octets = width as usize / 8;
    let count = records.len() / (octets + 1);
    if count == 0 {
        return;
    }
    let start = random.below(count) * (octets + 1);
    match random.below(3) {
        0 => records[start + octets] = random.byte(),
        1 => records[start + octets] = (width + 1 + random.below_u32(3)) as u8,
        _ => records[start + random.below(octets)] |= 1 << random.below(8),
    }
}

/// Blocks of a list: mostly few, and close together or the pieces of one block, so that they overlap,
/// touch and make larger ones; mostly in no order, or else rising but for two at most.
fn list(random: &mut Random, width: u32) -> Vec<(u128, u32)> {
    let count = match random.below(100) {
        0..=2 => 0,
        3..=77 => 1 + random.below(6),
        78..=97 => 1 + random.below(40),
        98 => random.below(MOST_RECORDS),
        _ => MOST_RECORDS - 2 + random.below(5),
    };
    let mut blocks: Vec<(u128, u32)> = match random.below(4) {
        // What many that lie apart leave is long, and the sweeps have it.
        0 if count <= 6 => (0..count).map(|_| any_block(random, width)).collect(),
        0 | 1 => close_blocks(random, width, count),
        _ => pieces(random, width, count),
    };
    if let Some(&(first, length)) = blocks.first() {
        let place = random.below(blocks.len());
        // Now and then one twice, or one around another.
        match random.below(10) {
            0 => blocks[place] = (first, length),
            1 => blocks[place] = (cleared(first, width - length / 2), length / 2),
            _ => {}
        }
    }
    match random.below(8) {
        0 => blocks.sort(),
        1 if !blocks.is_empty() => {
            blocks.sort();
            let (one, other) = (random.below(blocks.len()), random.below(blocks.len()));
            blocks.swap(one, other);
        }
        _ => {
            for place in 0..blocks.len() {
                blocks.swap(place, random.below(place + 1));
            }
        }
    }
    blocks
}

fn any_block(random: &mut Random, width: u32) -> (u128, u32) {
    let length = random.below_u32(width + 1);
    (cleared(number(random, width), width - length), length)
}

/// Blocks among a few addresses.
fn close_blocks(random: &mut Random, width: u32, count: usize) -> Vec<(u128, u32)> {
    let most = u128::MAX >> (128 - width);
    let (place, bits) = (number(random, width), random.below_u32(12));
    let block = |_| {
        let free = random.below_u32(bits + 1);
        let address = place.wrapping_add(random.below(1 << bits) as u128) & most;
        (cleared(address, free), width - free)
    };
    (0..count).map(block).collect()
}

/// A block halved again and again, and often one piece of it left out.
fn pieces(random: &mut Random, width: u32, count: usize) -> Vec<(u128, u32)> {
    let length = width - random.below_u32(width + 1);
    let mut blocks = vec![(cleared(number(random, width), width - length), length)];
    for _ in 1..count {
        let place = random.below(blocks.len());
        let (first, length) = blocks[place];
        if length < width {
            let middle = first + (1 << (width - length - 1));
            blocks[place] = (first, length + 1);
            blocks.push((middle, length + 1));
        }
    }
    if count == 0 || random.percent(60) {
        blocks.swap_remove(random.below(blocks.len()));
    }
    blocks
}

/// An address of either family, or now and then a number of bytes that is no address.
fn any_address(random: &mut Random) -> Vec<u8> {
    if random.percent(6) {
        let count = random.below(21);
        return any_bytes(random, count);
    }
    let width = *random.pick(&[32, 128, 128]);
    octets(number(random, width), width)
}

fn ipv4_or_any(random: &mut Random) -> Vec<u8> {
    if random.percent(90) {
        octets(number(random, 32), 32)
    } else {
        any_address(random)
    }
}

pub fn octets(number: u128, width: u32) -> Vec<u8> {
    number.to_be_bytes()[16 - width as usize / 8..].to_vec()
}

/// The number with that many low bits cleared.
fn cleared(number: u128, bits: u32) -> u128 {
    number
        .checked_shr(bits)
        .unwrap_or(0)
        .checked_shl(bits)
        .unwrap_or(0)
}

/// An address as a number, often one near a boundary.
pub fn number(random: &mut Random, width: u32) -> u128 {
    let most = u128::MAX >> (128 - width);
    let power = 1 << random.below_u32(width);
    let few = random.below(4) as u128;
    let number = match random.below(9) {
        0 => few,
        1 => most - few,
        2 => power,
        3 => power - 1,
        4 => cleared(random.bits_128(), random.below_u32(width)),
        5 => random.bits_128() | (power - 1),
        6 if width == 128 => sparse_groups(random),
        7 if width == 128 => tail_in_ipv6(random),
        _ => random.bits_128(),
    };
    number & most
}

/// Eight groups of which many are zero.
fn sparse_groups(random: &mut Random) -> u128 {
    let zeros = random.byte() | random.byte();
    (0..8).fold(0, |number, group| {
        let digits = random.bits() as u16 >> random.below(16);
        let value = if zeros >> group & 1 == 1 { 0 } else { digits };
        number << 16 | u128::from(value)
    })
}

/// An IPv4-mapped or IPv4-compatible address, or nearly one.
fn tail_in_ipv6(random: &mut Random) -> u128 {
    let head = *random.pick(&[0, 0xffff, 0xffff, 0xfffe, 0x1_ffff, 1]);
    head << 32 | number(random, 32)
}

/// A text for a reader: mostly of its form, or nearly so.
fn text(random: &mut Random, valid: TextMaker) -> Vec<u8> {
    match random.below(100) {
        0..=44 => valid(random).into_bytes(),
        45..=77 => {
            let mut text = valid(random).into_bytes();
            damage(random, &mut text);
            text
        }
        78..=82 => {
            let other = random.pick(&[strict as TextMaker, loose, network, block]);
            other(random).into_bytes()
        }
        83..=88 => {
            let length = random.below(81) >> random.below(4);
            form_bytes(random, length)
        }
        89..=91 => {
            let length = random.below(81);
            any_bytes(random, length)
        }
        92..=95 => {
            let mut text = valid(random).into_bytes();
            text.push(*random.pick(BLANKS));
            let behind = random.below(4);
            text.extend(form_bytes(random, behind));
            text
        }
        _ => {
            let text = valid(random);
            widen(random, &text).into_bytes()
        }
    }
}

/// Random bytes that mean something in some form.
pub fn form_bytes(random: &mut Random, count: usize) -> Vec<u8> {
    (0..count).map(|_| *random.pick(ALPHABET)).collect()
}

pub fn any_bytes(random: &mut Random, count: usize) -> Vec<u8> {
    let mut bytes = vec![0; count];
    random.fill(&mut bytes);
    bytes
}

/// Changes the text in one place, or now and then in a few.
pub fn damage(random: &mut Random, text: &mut Vec<u8>) {
    let edits = if random.percent(80) { 1 } else { 3 };
    for _ in 0..edits {
        let place = random.below(text.len() + 1);
        let byte = if random.percent(80) {
            *random.pick(ALPHABET)
        } else {
            random.byte()
        };
        if place == text.len() {
            text.push(byte);
            continue;
        }
        let other = random.below(text.len());
        match random.below(5) {
            0 => text[place] = byte,
            1 => text.insert(place, byte),
            2 => drop(text.remove(place)),
            3 => text.swap(place, other),
            _ => text.insert(place, text[place]),
        }
    }
}

/// Puts zeros before some number in the text, or before several, up to about the longest text
/// allowed.
fn widen(random: &mut Random, text: &str) -> String {
    let mut wide = text.to_string();
    let target = 58 + random.below(14);
    while wide.len() < target {
        let starts: Vec<usize> = number_starts(&wide);
        let zeros = 1 + random.below(target - wide.len());
        wide.insert_str(*random.pick(&starts), &"0".repeat(zeros));
    }
    wide
}

/// Where the digits of each number begin: at the start, behind a separator, or behind `0x`.
fn number_starts(text: &str) -> Vec<usize> {
    let mut starts = vec![0];
    starts.extend(
        text.match_indices(['.', ':', '/'])
            .map(|(place, _)| place + 1),
    );
    let digits = |start| {
        let prefixed = text[start..].starts_with("0x") || text[start..].starts_with("0X");
        start + if prefixed { 2 } else { 0 }
    };
    starts.into_iter().map(digits).collect()
}

pub fn strict(random: &mut Random) -> String {
    if random.percent(40) {
        dotted(number(random, 32) as u32)
    } else {
        colons(random, None)
    }
}

pub fn dotted(number: u32) -> String {
    let [a, b, c, d] = number.to_be_bytes();
    format!("{a}.{b}.{c}.{d}")
}

/// IPv6 text of the given address, or of any: some run of zero groups shortened, the digits spelled
/// this way or that, and sometimes a dotted tail.
pub fn colons(random: &mut Random, address: Option<u128>) -> String {
    let number = address.unwrap_or_else(|| number(random, 128));
    let dotted_tail = random.percent(20);
    let groups = if dotted_tail { 6 } else { 8 };
    let values: Vec<u16> = (0..groups)
        .map(|group| (number >> (112 - 16 * group)) as u16)
        .collect();
    let mut spelled: Vec<String> = values.iter().map(|&value| group(random, value)).collect();
    if dotted_tail {
        spelled.push(dotted(number as u32));
    }
    let start = random.below(groups);
    let zeros = values[start..]
        .iter()
        .take_while(|&&value| value == 0)
        .count();
    if zeros == 0 || random.percent(10) {
        return spelled.join(":");
    }
    let run = 1 + random.below(zeros);
    let (head, tail) = (&spelled[..start], &spelled[start + run..]);
    format!("{}::{}", head.join(":"), tail.join(":"))
}

fn group(random: &mut Random, value: u16) -> String {
    match random.below(4) {
        0 => format!("{value:04x}"),
        1 => format!("{value:X}"),
        2 => format!("{value:02X}"),
        _ => format!("{value:x}"),
    }
}

pub fn loose(random: &mut Random) -> String {
    let parts = 1 + random.below(4);
    let mut spelled: Vec<String> = (1..parts).map(|_| loose_part(random, 255)).collect();
    spelled.push(loose_part(random, u32::MAX >> (8 * (parts - 1))));
    spelled.join(".")
}

fn loose_part(random: &mut Random, most: u32) -> String {
    let most = u64::from(most);
    let value = match random.below(20) {
        0 => most + 1,
        1 | 2 => most,
        3 => random.bits() % 256,
        _ => random.bits() % (most + 1),
    };
    let zeros = "0".repeat(random.below(4));
    match random.below(4) {
        0 => format!("0x{zeros}{value:x}"),
        1 => format!("0X{zeros}{value:X}"),
        2 => format!("0{zeros}{value:o}"),
        _ => value.to_string(),
    }
}

pub fn network(random: &mut Random) -> String {
    let number = number(random, 32) as u32;
    let mut text = if random.percent(35) {
        let digits = if random.percent(30) {
            format!("{number:08X}")
        } else {
            format!("{number:08x}")
        };
        format!(
            "{}{}",
            random.pick(&["0x", "0X"]),
            &digits[..1 + random.below(8)]
        )
    } else {
        let parts = number.to_be_bytes().map(|part| part.to_string());
        parts[..1 + random.below(4)].join(".")
    };
    if random.percent(60) {
        text += &size(random);
    }
    text
}

/// A slash and a size, sometimes with a leading zero or so large that a C integer wraps.
fn size(random: &mut Random) -> String {
    match random.below(20) {
        0 => format!("/0{}", random.below(40)),
        1 => format!("/{}", random.below(1200)),
        2 => format!(
            "/{}",
            (1u64 << 32) * (1 + random.bits() % 9) + random.bits() % 40 - 3
        ),
        _ => format!("/{}", random.below(36)),
    }
}

pub fn block(random: &mut Random) -> String {
    let width = *random.pick(&[32, 128]);
    let length = if random.percent(90) {
        random.below_u32(width + 1)
    } else {
        random.below_u32(1100)
    };
    let spare = if random.percent(20) {
        0
    } else {
        width.saturating_sub(length)
    };
    let number = cleared(number(random, width), spare);
    let address = match width {
        32 => dotted(number as u32),
        _ => colons(random, Some(number)),
    };
    format!("{address}/{length}")
}
