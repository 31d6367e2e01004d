//! Every call on many inputs: none panics, and what is written reads back.

use std::net::{IpAddr, Ipv4Addr, Ipv6Addr};

use nibharrow::*;

/// Numbers that look random and are the same in each run (splitmix64).
struct Numbers(u64);

impl Numbers {
    fn next(&mut self) -> u64 {
        self.0 = self.0.wrapping_add(0x9e37_79b9_7f4a_7c15);
        let mixed = (self.0 ^ (self.0 >> 30)).wrapping_mul(0xbf58_476d_1ce4_e5b9);
        let mixed = (mixed ^ (mixed >> 27)).wrapping_mul(0x94d0_49bb_1331_11eb);
        mixed ^ (mixed >> 31)
    }

    fn below(&mut self, bound: usize) -> usize {
        (self.next() % bound as u64) as usize
    }

    /// The text of an address or a block with some bytes changed, often none.
    fn text(&mut self) -> Vec<u8> {
        const BYTES: &[u8] = b"0123456789.:afFxX/% \0\xff";
        let mut text = self.address().to_string().into_bytes();
        if self.below(2) == 0 {
            text.extend(format!("/{}", self.below(140)).bytes());
        }
        for _ in 0..self.below(4) {
            let (at, byte) = (self.below(text.len()), BYTES[self.below(BYTES.len())]);
            if self.below(2) == 0 {
                text[at] = byte;
            } else {
                text.insert(at, byte);
            }
        }
        text
    }

    /// An address in which bytes of 0 are frequent, so that there are runs of zero groups.
    fn address(&mut self) -> IpAddr {
        let mut octets = self.next().to_be_bytes().repeat(2);
        let zeros = self.next() & self.next();
        for (i, octet) in octets.iter_mut().enumerate() {
            *octet = if zeros >> i & 1 == 1 { *octet } else { 0 };
        }
        let octets = <[u8; 16]>::try_from(octets).unwrap();
        if self.below(2) == 0 {
            Ipv6Addr::from(octets).into()
        } else {
            Ipv4Addr::from_bits(self.next() as u32).into()
        }
    }
}

const ROUNDS: usize = 20_000;

#[test]
fn any_text_is_answered() {
    let mut numbers = Numbers(1);
    for _ in 0..ROUNDS {
        let text = numbers.text();
        if let Ok(address) = read_address(&text) {
            assert_eq!(read_address(write_address(address)), Ok(address));
        }
        if let Ok(block) = read_block(&text) {
            assert_eq!(read_block(block.to_string()), Ok(block));
        }
        if let Ok(network) = read_network(&text) {
            assert!(write_network(network.address(), network.size()).is_ok());
        }
        let strict = read_ipv4(&text)
            .map(IpAddr::from)
            .or(read_ipv6(&text).map(IpAddr::from));
        assert_eq!(strict, read_address(&text));
        let _ = read_loose(&text);
    }
}

#[test]
fn any_address_is_answered() {
    let mut numbers = Numbers(2);
    for _ in 0..ROUNDS {
        let address = numbers.address();
        // The standard library reads the same strict text, and writes it but for IPv4-mapped
        // addresses.
        assert_eq!(write_address(address).parse(), Ok(address));
        assert_eq!(read_address(address.to_string()), Ok(address));

        let length = numbers.next() as u8;
        if let Ok(block) = Block::new(address, length) {
            assert!(block.contains(address));
            assert_eq!(read_block(block.to_string()), Ok(block));
        }
        if let IpAddr::V4(address) = address {
            match split(address) {
                Ok((network, host)) => assert_eq!(join(network, host), Ok(address)),
                Err(refusal) => assert_eq!(refusal, Refusal::NoClass),
            }
        }
        let _ = join(numbers.next() as u32, numbers.next() as u32);
    }
}

/// An address as a number.
fn number(address: IpAddr) -> u128 {
    match address {
        IpAddr::V4(address) => address.to_bits().into(),
        IpAddr::V6(address) => address.to_bits(),
    }
}

/// The last address of a block, as a number.
fn last_of(block: Block) -> u128 {
    let width = if block.address().is_ipv4() { 32 } else { 128 };
    let free = width - u32::from(block.length());
    number(block.address()) | u128::MAX.checked_shr(128 - free).unwrap_or(0)
}

/// Each block starts behind the last address of the one before it.
#[test]
fn any_range_is_covered() {
    let mut numbers = Numbers(3);
    for _ in 0..ROUNDS / 10 {
        let (first, last) = (numbers.address(), numbers.address());
        match range_blocks(first, last) {
            Ok(blocks) => {
                assert_eq!(number(blocks[0].address()), number(first));
                for pair in blocks.windows(2) {
                    assert_eq!(last_of(pair[0]) + 1, number(pair[1].address()));
                }
                assert_eq!(last_of(blocks[blocks.len() - 1]), number(last));
            }
            Err(Refusal::WrongFamily) => assert_ne!(first.is_ipv4(), last.is_ipv4()),
            Err(refusal) => assert!(refusal == Refusal::FirstAboveLast && first > last),
        }
    }
}

/// A block of a family that often overlaps or touches the others: of few bits, at either end of the
/// addresses or anywhere.
fn near_block(numbers: &mut Numbers, bits: u32, place: u128) -> Block {
    let most = u128::MAX >> (128 - bits);
    let free = numbers.below(5) as u32;
    let address = place.wrapping_add(numbers.below(64) as u128) & most;
    let address = address >> free << free;
    let address = match bits {
        32 => Ipv4Addr::from_bits(address as u32).into(),
        _ => Ipv6Addr::from_bits(address).into(),
    };
    Block::new(address, (bits - free) as u8).unwrap()
}

/// What a list gathers to and what it does not cover are all addresses, each once.
#[test]
fn any_list_is_gathered() {
    let mut numbers = Numbers(4);
    for _ in 0..ROUNDS / 20 {
        let bits = [32, 128][numbers.below(2)];
        let most = u128::MAX >> (128 - bits);
        let place = [0, most - 40, most / 3][numbers.below(3)];
        let list: Vec<Block> = (0..1 + numbers.below(20))
            .map(|_| near_block(&mut numbers, bits, place))
            .collect();
        let gathered = gather(&list).unwrap();
        let free = uncovered(list[0].family(), &list).unwrap();

        assert!(gathered.len() <= list.len());
        let covers = |blocks: &[Block], address| blocks.iter().any(|b| b.contains(address));
        for block in &gathered {
            assert!(covers(&list, block.address()));
        }
        for block in &free {
            assert!(!covers(&list, block.address()));
        }
        // A block lies in one of the fewest.
        for block in &list {
            let inside = |b: &&Block| b.contains(block.address()) && b.length() <= block.length();
            assert_eq!(gathered.iter().filter(inside).count(), 1);
        }

        let mut both = [&gathered[..], &free].concat();
        both.sort_by_key(Block::address);
        assert_eq!(number(both[0].address()), 0);
        for pair in both.windows(2) {
            assert_eq!(last_of(pair[0]) + 1, number(pair[1].address()));
        }
        assert_eq!(last_of(both[both.len() - 1]), most);

        assert_eq!(gather(&gathered).as_ref(), Ok(&gathered));
        let twice = uncovered(list[0].family(), &free);
        assert_eq!(twice.as_ref(), Ok(&gathered));
    }
}

/// A line of a sheet: one of few addresses, spelt in one of three ways, or any.
fn line(numbers: &mut Numbers) -> String {
    let few = Ipv6Addr::from_bits(numbers.below(3) as u128);
    let address = match numbers.below(6) {
        0 => few.to_string(),
        1 => few.segments().map(|group| format!("{group:04X}")).join(":"),
        2 => format!("0:0:0::0.0.0.{}", few.to_bits()),
        3 => Ipv4Addr::from_bits(numbers.below(3) as u32).to_string(),
        _ => numbers.address().to_string(),
    };
    let (volume, ph) = (1 + numbers.below(999_999), numbers.below(1_401));
    format!("{address},{volume},{ph}\n")
}

/// The address of a line, and what is behind it.
fn taken_apart(line: &str) -> (IpAddr, &str) {
    let (address, reading) = line.split_once(',').unwrap();
    (address.parse().unwrap(), reading)
}

/// Each line keeps its reading, and the sorted lines are those lines sorted.
#[test]
fn any_sheet_is_respelled() {
    let mut numbers = Numbers(5);
    for _ in 0..ROUNDS / 20 {
        let sheet: String = (0..numbers.below(40)).map(|_| line(&mut numbers)).collect();
        let respelled = String::from_utf8(respell(&sheet, false).unwrap()).unwrap();
        let sorted = String::from_utf8(respell(&sheet, true).unwrap()).unwrap();

        let mut lines: Vec<_> = sheet.lines().map(taken_apart).collect();
        assert!(respelled.lines().map(taken_apart).eq(lines.clone()));
        for line in respelled.lines() {
            let (address, reading) = taken_apart(line);
            assert_eq!(line, format!("{},{reading}", write_address(address)));
        }
        // Stable, and the standard library has IPv4 before IPv6 too.
        lines.sort_by_key(|(address, _)| *address);
        assert!(sorted.lines().map(taken_apart).eq(lines));
        assert_eq!(respell(&respelled, true).as_deref(), Ok(sorted.as_bytes()));
    }
}

/// Of a sheet in which some bytes are changed, what is accepted is respelled the same again.
#[test]
fn any_damaged_sheet_is_answered() {
    const BYTES: &[u8] = b"0123456789.:,af\n\r \0\xff";
    let mut numbers = Numbers(6);
    let mut accepted = 0;
    for _ in 0..ROUNDS / 2 {
        let mut sheet: String = (0..1 + numbers.below(3))
            .map(|_| line(&mut numbers))
            .collect();
        let place = numbers.below(sheet.len());
        sheet.truncate(sheet.len() - numbers.below(2) * numbers.below(3));
        let mut sheet = sheet.into_bytes();
        if let Some(byte) = sheet.get_mut(place) {
            *byte = BYTES[numbers.below(BYTES.len())];
        }
        match respell(&sheet, true) {
            Ok(sorted) => {
                accepted += 1;
                assert_eq!(respell(&sorted, true).as_ref(), Ok(&sorted));
            }
            Err(refusal) => assert_eq!(refusal, Refusal::Malformed),
        }
    }
    assert!((ROUNDS / 20..ROUNDS / 2).contains(&accepted), "{accepted}");
}
