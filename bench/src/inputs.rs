//! The inputs of the rows: made beforehand, the same in every run.

use std::ffi::c_char;
use std::net::{IpAddr, Ipv4Addr, Ipv6Addr};

/// How many inputs a row has. A processor learns the branches of 1,024 texts by heart within a round,
/// and then reads them up to twice as fast as texts it has never seen; these are too many for that,
/// and still stay in its second cache.
const COUNT: usize = 16_384;

/// How many records a list has, and how many lists a row has: too many records for a processor to
/// learn their branches, and few enough to stay in its second cache.
const RECORDS: usize = 512;
const LISTS: usize = 32;

/// How many lines a sheet has, and how many sheets a row has: as many lines as another row has inputs.
const LINES: usize = 1_024;
const SHEETS: usize = COUNT / LINES;

/// Text as both sides want it: a length, and a zero byte behind it for the C library.
pub struct Text(&'static str);

impl Text {
    fn new(text: String) -> Text {
        let length = text.len();
        Text(&(text + "\0").leak()[..length])
    }

    pub fn str(&self) -> &str {
        self.0
    }

    pub fn bytes(&self) -> &[u8] {
        self.0.as_bytes()
    }

    pub fn pointer(&self) -> *const c_char {
        self.0.as_ptr().cast()
    }
}

/// The ends of a range, and the room that its records are lent.
pub struct Range<const N: usize> {
    pub first: [u8; N],
    pub last: [u8; N],
    pub room: usize,
}

/// Records of one family, and the room that an answer is lent.
pub struct List {
    pub records: Vec<u8>,
    pub family: u32,
    pub room: usize,
}

/// A sheet, whether its lines are to be sorted, and the room that it is lent when it is written.
pub struct Sheet {
    pub text: Vec<u8>,
    pub sorted: bool,
    pub room: usize,
}

/// An address with no one bit beyond the length.
pub struct Block<const N: usize> {
    pub octets: [u8; N],
    pub length: u32,
}

/// Random numbers (SplitMix64) from a fixed seed.
pub struct Random(u64);

impl Random {
    fn next(&mut self) -> u64 {
        self.0 = self.0.wrapping_add(0x9e37_79b9_7f4a_7c15);
        let mut z = self.0;
        z = (z ^ (z >> 30)).wrapping_mul(0xbf58_476d_1ce4_e5b9);
        z = (z ^ (z >> 27)).wrapping_mul(0x94d0_49bb_1331_11eb);
        z ^ (z >> 31)
    }

    /// A number from `low` to `high`, both inclusive.
    fn within(&mut self, low: u64, high: u64) -> u64 {
        low + self.next() % (high - low + 1)
    }

    fn wide(&mut self) -> u128 {
        u128::from(self.next()) << 64 | u128::from(self.next())
    }
}

/// As many inputs as a row has, each made by `make`.
pub fn inputs<T>(mut make: impl FnMut(&mut Random) -> T) -> Vec<T> {
    let mut random = Random(1);
    (0..COUNT).map(|_| make(&mut random)).collect()
}

pub fn texts(mut make: impl FnMut(&mut Random) -> String) -> Vec<Text> {
    inputs(|random| Text::new(make(random)))
}

// ---- addresses

/// Four octets, each from `low` to `high`.
pub fn ipv4(random: &mut Random, low: u64, high: u64) -> Ipv4Addr {
    [0; 4].map(|_: u8| random.within(low, high) as u8).into()
}

pub fn ipv6(random: &mut Random) -> Ipv6Addr {
    random.wide().into()
}

/// Eight groups of four digits.
pub fn ipv6_full(random: &mut Random) -> Ipv6Addr {
    [0; 8]
        .map(|_: u16| random.within(0x1000, 0xffff) as u16)
        .into()
}

/// Groups of one to four digits, one or two runs of zeros among them. The first group is never zero,
/// since others write a dotted tail behind some runs that begin there.
pub fn ipv6_zeros(random: &mut Random) -> Ipv6Addr {
    let mut groups = [0; 8].map(|_: u16| (0xffff >> random.within(0, 15)) as u16);
    for _ in 0..random.within(1, 2) {
        let from = random.within(1, 6) as usize;
        let to = random.within(from as u64 + 2, 8) as usize;
        groups[from..to].fill(0);
    }
    groups.into()
}

// ---- strict text

/// Text with a dotted tail: behind `::`, behind six groups, or behind some of both.
pub fn dotted_tail(random: &mut Random) -> String {
    let tail = ipv4(random, 0, 255);
    let groups = ipv6_full(random).segments();
    match random.within(0, 3) {
        0 => format!("::ffff:{tail}"),
        1 => format!("64:ff9b::{tail}"),
        2 => format!("{:x}:{:x}::{:x}:{tail}", groups[0], groups[1], groups[2]),
        _ => {
            let six: String = groups[..6].iter().map(|g| format!("{g:x}:")).collect();
            format!("{six}{tail}")
        }
    }
}

/// Any strict text: of each kind above, upper case and leading zeros too.
pub fn ipv6_mix(random: &mut Random) -> String {
    match random.within(0, 5) {
        0 => ipv6(random).to_string(),
        1 => ipv6_full(random).to_string(),
        2 => ipv6_zeros(random).to_string(),
        3 => ipv6_zeros(random).to_string().to_uppercase(),
        4 => ipv6_zeros(random)
            .segments()
            .map(|g| format!("{g:04x}"))
            .join(":"),
        _ => dotted_tail(random),
    }
}

// ---- loose text

#[derive(Clone, Copy)]
pub enum Base {
    Decimal,
    Hex,
    Octal,
    Any,
}

fn loose_part(random: &mut Random, base: Base, most: u64) -> String {
    let part = random.within(0, most);
    match base {
        Base::Decimal => format!("{part}"),
        Base::Hex => format!("{part:#x}"),
        Base::Octal => format!("0{part:o}"),
        Base::Any => {
            let base = random.within(0, 2) as usize;
            loose_part(random, [Base::Decimal, Base::Hex, Base::Octal][base], most)
        }
    }
}

/// Loose text of so many parts, of which the last fills the octets that are left.
pub fn loose(random: &mut Random, base: Base, parts: u64) -> String {
    let mut text = String::new();
    for _ in 1..parts {
        text += &loose_part(random, base, 255);
        text += ".";
    }
    text + &loose_part(random, base, (1 << (8 * (5 - parts))) - 1)
}

pub fn loose_mix(random: &mut Random) -> String {
    let parts = random.within(1, 4);
    loose(random, Base::Any, parts)
}

// ---- network text

pub fn network_decimal(random: &mut Random) -> String {
    let parts = random.within(1, 4);
    loose(random, Base::Decimal, 4)
        .split_inclusive('.')
        .take(parts as usize)
        .collect::<String>()
        .trim_end_matches('.')
        .to_string()
}

pub fn network_sized(random: &mut Random) -> String {
    format!("{}/{}", network_decimal(random), random.within(0, 32))
}

pub fn network_hex(random: &mut Random) -> String {
    let digits = random.within(1, 8) as usize;
    let number = random.within(0, (1 << (4 * digits)) - 1);
    format!("0x{number:0digits$x}")
}

pub fn network_mix(random: &mut Random) -> String {
    match random.within(0, 2) {
        0 => network_decimal(random),
        1 => network_sized(random),
        _ => network_hex(random),
    }
}

// ---- blocks and ranges

pub fn block4(random: &mut Random) -> Block<4> {
    let length = random.within(8, 32) as u32;
    let beyond = u32::MAX.checked_shr(length).unwrap_or(0);
    Block {
        octets: (ipv4(random, 0, 255).to_bits() & !beyond).to_be_bytes(),
        length,
    }
}

pub fn block6(random: &mut Random) -> Block<16> {
    let length = random.within(16, 128) as u32;
    let beyond = u128::MAX.checked_shr(length).unwrap_or(0);
    Block {
        octets: (ipv6_full(random).to_bits() & !beyond).to_be_bytes(),
        length,
    }
}

/// The range that a block covers.
pub fn covered<const N: usize>(block: Block<N>, room: usize) -> Range<N> {
    let mut last = block.octets;
    for bit in block.length as usize..8 * N {
        last[bit / 8] |= 0x80 >> (bit % 8);
    }
    Range {
        first: block.octets,
        last,
        room,
    }
}

/// A range between two addresses. Those of one family are ordered as their octets are.
pub fn between<const N: usize>(a: [u8; N], b: [u8; N], room: usize) -> Range<N> {
    Range {
        first: a.min(b),
        last: a.max(b),
        room,
    }
}

/// The range with the most blocks: all addresses but the first and the last.
pub fn most_blocks<const N: usize>(room: usize) -> Range<N> {
    let (mut first, mut last) = ([0; N], [255; N]);
    first[N - 1] = 1;
    last[N - 1] = 254;
    Range { first, last, room }
}

// ---- lists

/// The block of this length around the address that the lowest bits of a number are.
fn around<const N: usize>(address: u128, length: u64) -> Block<N> {
    let free = 8 * N as u32 - length as u32;
    let first = address.checked_shr(free).unwrap_or(0);
    let first = first.checked_shl(free).unwrap_or(0).to_be_bytes();
    Block {
        octets: first[16 - N..].try_into().unwrap(),
        length: length as u32,
    }
}

/// A block of up to 256 addresses anywhere.
fn small<const N: usize>(random: &mut Random) -> Block<N> {
    let bits = 8 * N as u64;
    around(random.wide(), random.within(bits - 8, bits))
}

/// As many lists as a row has, of the blocks that `make` makes.
fn lists<const N: usize>(room: usize, make: impl Fn(&mut Random) -> Vec<Block<N>>) -> Vec<List> {
    let mut random = Random(1);
    let record = |block: Block<N>| block.octets.into_iter().chain([block.length as u8]);
    let list = |blocks: Vec<Block<N>>| List {
        records: blocks.into_iter().flat_map(record).collect(),
        family: if N == 4 { 4 } else { 6 },
        room,
    };
    (0..LISTS).map(|_| list(make(&mut random))).collect()
}

/// Blocks anywhere, in no order, hardly two of which share an address.
pub fn random_lists<const N: usize>(room: usize) -> Vec<List> {
    lists(room, |random| {
        (0..RECORDS).map(|_| small::<N>(random)).collect()
    })
}

/// Larger blocks, each with seven inside it, in no order.
pub fn nested_lists<const N: usize>(room: usize) -> Vec<List> {
    let bits = 8 * N as u64;
    lists(room, |random| {
        let mut blocks = Vec::new();
        while blocks.len() < RECORDS {
            let (address, length) = (random.wide(), random.within(bits - 24, bits - 8));
            blocks.push(around::<N>(address, length));
            for _ in 0..7 {
                let beyond = random.wide() & ((1 << (bits - length)) - 1);
                let inside = random.within(length + 1, bits);
                blocks.push(around(address ^ beyond, inside));
            }
        }
        for place in 0..blocks.len() {
            blocks.swap(place, random.within(0, place as u64) as usize);
        }
        blocks
    })
}

/// Lists that are gathered already: a block in each of as many equal parts of all addresses, rising.
pub fn gathered_lists<const N: usize>(room: usize) -> Vec<List> {
    let within = |part: usize, mut block: Block<N>| {
        // The number of the part in the first nine bits.
        block.octets[0] = (part >> 1) as u8;
        block.octets[1] = (part << 7) as u8 | block.octets[1] & 0x7f;
        block
    };
    lists(room, |random| {
        (0..RECORDS)
            .map(|part| within(part, small(random)))
            .collect()
    })
}

// ---- sheets

/// A line of a sheet with any volume and any pH.
fn with_reading(random: &mut Random, address: String) -> String {
    let (volume, ph) = (random.within(1, 999_999), random.within(0, 1_400));
    format!("{address},{volume},{ph}\n")
}

pub fn line4(random: &mut Random) -> String {
    let address = ipv4(random, 0, 255).to_string();
    with_reading(random, address)
}

/// A line with any address, or one with runs of zeros in normal text, in upper case, or in full. None
/// has a dotted tail, since others write some of these with one again.
pub fn line6(random: &mut Random) -> String {
    let address = match random.within(0, 3) {
        0 => ipv6(random).to_string(),
        1 => ipv6_zeros(random).to_string(),
        2 => ipv6_zeros(random).to_string().to_uppercase(),
        _ => ipv6_zeros(random)
            .segments()
            .map(|g| format!("{g:04x}"))
            .join(":"),
    };
    with_reading(random, address)
}

/// A line of either family.
pub fn line(random: &mut Random) -> String {
    match random.within(0, 1) {
        0 => line4(random),
        _ => line6(random),
    }
}

/// As many sheets as a row has, to be sorted, of the lines that `make` makes, in no order.
pub fn sheets(room: usize, make: impl Fn(&mut Random) -> String) -> Vec<Sheet> {
    let mut random = Random(1);
    let mut sheet = |_| Sheet {
        text: (0..LINES)
            .map(|_| make(&mut random))
            .collect::<String>()
            .into(),
        sorted: true,
        room,
    };
    (0..SHEETS).map(&mut sheet).collect()
}

/// The sheet with its lines in order already, in the spellings that they have.
pub fn in_order(sheet: Sheet) -> Sheet {
    let text = String::from_utf8(sheet.text).unwrap();
    let mut lines: Vec<&str> = text.split_inclusive('\n').collect();
    lines.sort_by_key(|line| line.split(',').next().unwrap().parse::<IpAddr>().unwrap());
    Sheet {
        text: lines.concat().into(),
        ..sheet
    }
}
