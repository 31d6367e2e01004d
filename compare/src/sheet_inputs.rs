//! Random sheets: equal addresses in many spellings, lines damaged in every way on purpose, and as
//! many lines and bytes as a sheet may have, or a few more or less.

use crate::case::Case;
use crate::generate::{colons, damage, dotted, form_bytes, number};
use crate::random::Random;
use crate::sheets::{MOST_BYTES, MOST_LINES};

/// The texts of a line, without its commas and its newline.
pub struct Line {
    address: String,
    volume: String,
    ph: String,
}

impl Line {
    pub fn new(address: &str, volume: u32, ph: u32) -> Self {
        Self {
            address: address.to_string(),
            volume: volume.to_string(),
            ph: ph.to_string(),
        }
    }

    pub fn text(&self) -> String {
        format!("{},{},{}\n", self.address, self.volume, self.ph)
    }
}

/// What is put in place of a good line, its newline included.
type Damage = fn(&Line) -> String;

/// Each makes a malformed line of any good one.
pub const DAMAGES: [Damage; 36] = [
    // a leading zero
    |l| format!("{},0{},{}\n", l.address, l.volume, l.ph),
    |l| format!("{},{},0{}\n", l.address, l.volume, l.ph),
    |l| format!("010.0.0.12,{},{}\n", l.volume, l.ph),
    // a number too small or too large, or so large that 16, 32 or 64 bits lose a part of it
    |l| format!("{},0,{}\n", l.address, l.ph),
    |l| format!("{},1000000,{}\n", l.address, l.ph),
    |l| format!("{},4294967297,{}\n", l.address, l.ph),
    |l| format!("{},18446744073709551617,{}\n", l.address, l.ph),
    |l| format!("{},{},1401\n", l.address, l.volume),
    |l| format!("{},{},65536\n", l.address, l.volume),
    |l| format!("{},{},4294967296\n", l.address, l.volume),
    |l| format!("{},{},18446744073709551616\n", l.address, l.volume),
    // no decimal number
    |l| format!("{},+{},{}\n", l.address, l.volume, l.ph),
    |l| format!("{},{},-{}\n", l.address, l.volume, l.ph),
    |l| format!("{},{},{}.0\n", l.address, l.volume, l.ph),
    |l| format!("{},0x{},{}\n", l.address, l.volume, l.ph),
    |l| format!("{},{},\n", l.address, l.volume),
    |l| format!("{},,{}\n", l.address, l.ph),
    // a comma too few, too many, or something else
    |l| format!("{},{}\n", l.address, l.volume),
    |l| format!("{}{},{}\n", l.address, l.volume, l.ph),
    |l| format!("{},{},{},\n", l.address, l.volume, l.ph),
    |l| format!(",{},{},{}\n", l.address, l.volume, l.ph),
    |l| format!("{},,{},{}\n", l.address, l.volume, l.ph),
    |l| format!("{};{};{}\n", l.address, l.volume, l.ph),
    // a byte that does not belong there
    |l| format!(" {},{},{}\n", l.address, l.volume, l.ph),
    |l| format!("{} ,{},{}\n", l.address, l.volume, l.ph),
    |l| format!("{}, {},{}\n", l.address, l.volume, l.ph),
    |l| format!("{},{},{}\t\n", l.address, l.volume, l.ph),
    |l| format!("{},{},{}\r\n", l.address, l.volume, l.ph),
    |l| format!("{},{},{}\0\n", l.address, l.volume, l.ph),
    |l| format!("\u{feff}{},{},{}\n", l.address, l.volume, l.ph),
    // no address, or one of 65 bytes
    |l| format!("{}/32,{},{}\n", l.address, l.volume, l.ph),
    |l| format!(",{},{}\n", l.volume, l.ph),
    |l| format!("{:0>65},{},{}\n", l.address, l.volume, l.ph),
    // no line, a line broken in two, and one without its newline
    |_| "\n".to_string(),
    |l| format!("{},\n{},{}\n", l.address, l.volume, l.ph),
    |l| format!("{},{},{}", l.address, l.volume, l.ph),
];

/// A call on a random sheet.
pub fn case(random: &mut Random) -> Case {
    let sheet = sheet(random);
    let sorted = match random.below(8) {
        0..=2 => 0,
        3..=6 => 1,
        _ => random.bits() as u32 >> random.below(32),
    };
    Case::Respell { sheet, sorted }
}

/// A sheet of good lines, mostly, or one that is damaged or filled up to about the most bytes.
pub fn sheet(random: &mut Random) -> Vec<u8> {
    let mut lines = good_lines(random);
    let damaged = match random.below(20) {
        0..=4 => 1,
        5 => 1 + random.below(3),
        _ => 0,
    };
    for _ in 0..damaged.min(lines.len()) {
        let place = random.below(lines.len());
        lines[place] = random.pick(&DAMAGES)(&good_line(random, &[]));
    }
    let mut sheet = lines.concat().into_bytes();
    match random.below(40) {
        0 => damage(random, &mut sheet),
        1 => sheet.truncate(sheet.len().saturating_sub(1 + random.below(20))),
        2 => fill_up(random, &mut sheet),
        3 => sheet.extend(b"\n".repeat(1 + random.below(3))),
        _ => {}
    }
    sheet
}

/// Good lines, in no order, or rising or falling but for two.
fn good_lines(random: &mut Random) -> Vec<String> {
    let count = match random.below(100) {
        0 | 1 => 0,
        2..=64 => 1 + random.below(8),
        65..=91 => 1 + random.below(60),
        92 | 93 => random.below(MOST_LINES),
        _ => MOST_LINES - 1 + random.below(4),
    };
    // Few addresses for many lines make many of them equal.
    let few: Vec<u128> = (0..1 + random.below(5))
        .map(|_| number(random, 128))
        .collect();
    let pool: &[u128] = if random.percent(60) { &few } else { &[] };
    let mut lines: Vec<Line> = (0..count).map(|_| good_line(random, pool)).collect();
    let key = |line: &Line| crate::rules::strict(&line.address);
    match random.below(6) {
        0 => lines.sort_by_key(key),
        1 => lines.sort_by_key(|line| std::cmp::Reverse(key(line))),
        _ => {}
    }
    if count > 0 && random.percent(50) {
        let (one, other) = (random.below(count), random.below(count));
        lines.swap(one, other);
    }
    lines.iter().map(Line::text).collect()
}

/// A line with one of the pool's addresses, as IPv6 or cut down to IPv4, or with any if it has none.
fn good_line(random: &mut Random, pool: &[u128]) -> Line {
    let mut address = |width| match pool {
        [] => number(random, width),
        _ => *random.pick(pool),
    };
    let (narrow, wide) = (address(32) as u32, address(128));
    let address = if random.percent(40) {
        dotted(narrow)
    } else {
        colons(random, Some(wide))
    };
    let volume = match random.below(4) {
        0 => *random.pick(&[1, 2, 9, 10, 99, 100, 999, 1_000, 99_999, 100_000, 999_999]),
        _ => 1 + random.below_u32(999_999) / 10u32.pow(random.below_u32(6)),
    };
    let ph = match random.below(4) {
        0 => *random.pick(&[0, 1, 9, 10, 99, 100, 999, 1_000, 1_399, 1_400]),
        _ => random.below_u32(1_401),
    };
    Line::new(&address, volume, ph)
}

/// Makes the sheet as long as the longest, or a few bytes more or less: by one line, by empty lines, or
/// by bytes of either.
fn fill_up(random: &mut Random, sheet: &mut Vec<u8>) {
    let target = MOST_BYTES - 3 + random.below(6);
    let missing = target.saturating_sub(sheet.len());
    match random.below(4) {
        0 => sheet.extend(b"0".repeat(missing)),
        1 => sheet.extend(b"\n".repeat(missing)),
        2 => sheet.extend(form_bytes(random, missing)),
        _ => {
            let line = good_line(random, &[]).text().into_bytes();
            sheet.extend(line.iter().cycle().take(missing));
        }
    }
    if random.percent(50) {
        sheet.rotate_right(missing);
    }
}
