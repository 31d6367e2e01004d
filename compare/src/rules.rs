//! The address rules a second time, written from their description alone in the plainest way:
//! strings are split, addresses are `std::net` values and numbers are `u128`. Nothing here is fast
//! and nothing is shared with the library.
//!
//! Each public function answers as the library does: `Err` is the number of the refusal and leaves
//! the buffer as it was, `Ok` changes only the bytes it counts at the buffer's start.

use std::net::{IpAddr, Ipv4Addr};

pub const TEXT_TOO_LONG: u32 = 1;
pub const MALFORMED: u32 = 2;
pub const NO_ROOM: u32 = 3;
pub const LENGTH_TOO_LARGE: u32 = 4;
pub const BITS_BEYOND_LENGTH: u32 = 5;
pub const NO_CLASS: u32 = 6;
pub const HOST_TOO_LARGE: u32 = 7;
pub const FIRST_ABOVE_LAST: u32 = 8;
pub const WRONG_FAMILY: u32 = 9;
pub const TOO_MANY: u32 = 10;

const LONGEST_TEXT: usize = 64;
const LONGEST_LINE: usize = 129;
pub const MOST_RECORDS: usize = 512;

pub fn read_address(text: &[u8], family: u32, out: &mut [u8]) -> Result<usize, u32> {
    if ![0, 4, 6].contains(&family) {
        return Err(WRONG_FAMILY);
    }
    let address = strict(limited(text)?)?;
    match (family, address) {
        (4, IpAddr::V6(_)) | (6, IpAddr::V4(_)) => Err(MALFORMED),
        _ => put(&octets(address), out),
    }
}

pub fn write_address(address: &[u8], out: &mut [u8]) -> Result<usize, u32> {
    put(normal_text(address_of(address)?).as_bytes(), out)
}

pub fn read_loose(text: &[u8], out: &mut [u8]) -> Result<usize, u32> {
    let address = loose(limited(text)?).ok_or(MALFORMED)?;
    put(&address.octets(), out)
}

pub fn read_network(text: &[u8], out: &mut [u8]) -> Result<(u32, usize), u32> {
    let text = limited(text)?;
    let (number, size) = match text.split_once('/') {
        Some((number, size)) => (number, Some(small_number(size).ok_or(MALFORMED)?)),
        None => (text, None),
    };
    let mut network = network_octets(number).ok_or(MALFORMED)?;
    let size = size.unwrap_or_else(|| inferred_size(&network));
    if size > 32 {
        return Err(LENGTH_TOO_LARGE);
    }
    let reached = size.div_ceil(8) as usize;
    network.resize(network.len().max(reached), 0);
    Ok((size, put(&network, out)?))
}

pub fn write_network(address: &[u8], size: u32, out: &mut [u8]) -> Result<usize, u32> {
    let address = address_of(address)?;
    if address.is_ipv6() {
        return Err(WRONG_FAMILY);
    }
    if size > 32 {
        return Err(LENGTH_TOO_LARGE);
    }
    let cleared = number(address) & !host_mask(32 - size);
    let octets = octets(address_from(cleared, 32));
    // One octet is written even where the size reaches into none: `0/0`.
    let reached = size.div_ceil(8).max(1) as usize;
    let parts: Vec<String> = octets[..reached].iter().map(u8::to_string).collect();
    put(format!("{}/{size}", parts.join(".")).as_bytes(), out)
}

pub fn split(address: &[u8]) -> Result<(u32, u32), u32> {
    let IpAddr::V4(address) = address_of(address)? else {
        return Err(WRONG_FAMILY);
    };
    let [a, b, c, d] = address.octets().map(u32::from);
    match a {
        0..=127 => Ok((a, (b * 256 + c) * 256 + d)),
        128..=191 => Ok((a * 256 + b, c * 256 + d)),
        192..=223 => Ok(((a * 256 + b) * 256 + c, d)),
        _ => Err(NO_CLASS),
    }
}

pub fn join(network: u32, host: u32, out: &mut [u8]) -> Result<usize, u32> {
    let hosts: u32 = match network {
        0..=127 => 16_777_216,
        32_768..=49_151 => 65_536,
        12_582_912..=14_680_063 => 256,
        _ => return Err(NO_CLASS),
    };
    if host >= hosts {
        return Err(HOST_TOO_LARGE);
    }
    put(&(network * hosts + host).to_be_bytes(), out)
}

pub fn read_block(text: &[u8], out: &mut [u8]) -> Result<(u32, usize), u32> {
    let (address, length) = limited(text)?.split_once('/').ok_or(MALFORMED)?;
    let address = strict(address)?;
    let length = small_number(length).ok_or(MALFORMED)?;
    check_block(address, length)?;
    Ok((length, put(&octets(address), out)?))
}

pub fn write_block(address: &[u8], length: u32, out: &mut [u8]) -> Result<usize, u32> {
    let address = address_of(address)?;
    check_block(address, length)?;
    put(block_text(address, length).as_bytes(), out)
}

pub fn range_blocks(first: &[u8], last: &[u8], out: &mut [u8]) -> Result<(usize, usize), u32> {
    let blocks = range(address_of(first)?, address_of(last)?)?;
    put_records(&blocks, out)
}

pub fn gather(records: &[u8], family: u32, out: &mut [u8]) -> Result<(usize, usize), u32> {
    put_records(&list(records, family, true)?, out)
}

pub fn uncovered(records: &[u8], family: u32, out: &mut [u8]) -> Result<(usize, usize), u32> {
    put_records(&list(records, family, false)?, out)
}

/// The range program: what it writes to standard output, given the whole of standard input.
pub fn ranges_program(input: &[u8]) -> Vec<u8> {
    let mut output = Vec::new();
    for line in lines(input) {
        match range_of_line(line) {
            Ok(blocks) => {
                for (address, length) in blocks {
                    output.extend(block_text(address, length).bytes());
                    output.push(b'\n');
                }
            }
            Err(refusal) => output.extend(format!("refused {refusal}\n").bytes()),
        }
    }
    output
}

/// The lines of an input that the range program refuses, counted from 1, each with its refusal.
pub fn refused_lines(input: &[u8]) -> Vec<(usize, u32)> {
    let refusals = lines(input)
        .into_iter()
        .map(|line| range_of_line(line).err());
    (1..)
        .zip(refusals)
        .filter_map(|(line, refusal)| Some((line, refusal?)))
        .collect()
}

fn lines(input: &[u8]) -> Vec<&[u8]> {
    let mut lines: Vec<&[u8]> = input.split(|&byte| byte == b'\n').collect();
    // What follows the last newline is a line only if there is something.
    if lines.last().is_some_and(|line| line.is_empty()) {
        lines.pop();
    }
    lines
}

fn range_of_line(line: &[u8]) -> Result<Vec<(IpAddr, u32)>, u32> {
    if line.len() > LONGEST_LINE {
        return Err(TEXT_TOO_LONG);
    }
    let pieces: Vec<&[u8]> = line.split(|&byte| byte == b' ').collect();
    let [first, last] = pieces[..] else {
        return Err(MALFORMED);
    };
    range(strict(limited(first)?)?, strict(limited(last)?)?)
}

/// The text if it is short enough. What is not UTF-8 is of no form, and a zero byte or a blank is a
/// byte like any other.
fn limited(text: &[u8]) -> Result<&str, u32> {
    if text.len() > LONGEST_TEXT {
        return Err(TEXT_TOO_LONG);
    }
    std::str::from_utf8(text).map_err(|_| MALFORMED)
}

pub fn put(bytes: &[u8], out: &mut [u8]) -> Result<usize, u32> {
    let free = out.get_mut(..bytes.len()).ok_or(NO_ROOM)?;
    free.copy_from_slice(bytes);
    Ok(bytes.len())
}

fn put_records(blocks: &[(IpAddr, u32)], out: &mut [u8]) -> Result<(usize, usize), u32> {
    let mut records = Vec::new();
    for &(address, length) in blocks {
        records.extend(octets(address));
        records.push(u8::try_from(length).expect("a prefix length is at most 128"));
    }
    Ok((blocks.len(), put(&records, out)?))
}

/// Strict text of either family. The parser of `std::net` agrees with the rules throughout: it
/// takes no leading zero in a decimal part, no zone, no `::` that stands for no group, and a dotted
/// tail only as the last two groups.
pub fn strict(text: &str) -> Result<IpAddr, u32> {
    text.parse().map_err(|_| MALFORMED)
}

/// Normal text. `std::net` shortens the leftmost longest run of two or more zero groups, as the
/// rules do, but it writes an IPv4-mapped address with a dotted tail, where the rules have hex
/// groups. The first five groups of such an address are always its longest run.
pub fn normal_text(address: IpAddr) -> String {
    match address {
        IpAddr::V6(mapped) if mapped.to_ipv4_mapped().is_some() => {
            let [.., high, low] = mapped.segments();
            format!("::ffff:{high:x}:{low:x}")
        }
        other => other.to_string(),
    }
}

fn block_text(address: IpAddr, length: u32) -> String {
    format!("{}/{length}", normal_text(address))
}

/// One to three decimal digits with no leading zero, except `0` itself. `str::parse` alone would
/// take a sign, leading zeros and any number of digits.
fn small_number(text: &str) -> Option<u32> {
    let digits = text.bytes().all(|byte| byte.is_ascii_digit());
    let leading_zero = text.len() > 1 && text.starts_with('0');
    if !digits || leading_zero || text.len() > 3 {
        return None;
    }
    text.parse().ok()
}

/// The loose form of an IPv4 address, with no limit on the length of the text.
pub fn loose(text: &str) -> Option<Ipv4Addr> {
    let parts: Vec<u64> = text.split('.').map(loose_part).collect::<Option<_>>()?;
    let (&last, leading) = parts.split_last()?;
    let last_bits = 32u32.checked_sub(8 * u32::try_from(leading.len()).ok()?)?;
    if last_bits == 0 || leading.iter().any(|&part| part > 255) || last >= 1 << last_bits {
        return None;
    }
    let high = leading.iter().fold(0, |value, part| value * 256 + part);
    let value = (high << last_bits) + last;
    Some(Ipv4Addr::from(u32::try_from(value).ok()?))
}

fn loose_part(text: &str) -> Option<u64> {
    let hexadecimal = text.strip_prefix("0x").or(text.strip_prefix("0X"));
    let (digits, radix) = match (hexadecimal, text.strip_prefix('0')) {
        (Some(digits), _) => (digits, 16),
        (None, Some(digits)) if !digits.is_empty() => (digits, 8),
        _ => (text, 10),
    };
    // A sign is no digit, though `from_str_radix` takes one.
    if digits.starts_with(['+', '-']) {
        return None;
    }
    u64::from_str_radix(digits, radix).ok()
}

/// The bytes given by the text of a network before its slash.
fn network_octets(text: &str) -> Option<Vec<u8>> {
    let hexadecimal = text.strip_prefix("0x").or(text.strip_prefix("0X"));
    if let Some(digits) = hexadecimal {
        let halves: Vec<u32> = digits
            .chars()
            .map(|digit| digit.to_digit(16))
            .collect::<Option<_>>()?;
        let octet = |pair: &[u32]| u8::try_from(16 * pair[0] + pair.get(1).unwrap_or(&0)).ok();
        return (1..=8)
            .contains(&halves.len())
            .then(|| halves.chunks(2).map(octet).collect())?;
    }
    let part = |text| u8::try_from(small_number(text)?).ok();
    let parts: Vec<u8> = text.split('.').map(part).collect::<Option<_>>()?;
    (parts.len() <= 4).then_some(parts)
}

fn inferred_size(network: &[u8]) -> u32 {
    let given = 8 * network.len() as u32;
    match network[0] {
        240.. => 32,
        // Class D is the one that is never widened to the bytes given.
        224.. => 4,
        192.. => given.max(24),
        128.. => given.max(16),
        _ => given.max(8),
    }
}

fn address_of(octets: &[u8]) -> Result<IpAddr, u32> {
    let ipv4 = <[u8; 4]>::try_from(octets).map(IpAddr::from);
    let ipv6 = <[u8; 16]>::try_from(octets).map(IpAddr::from);
    ipv4.or(ipv6).map_err(|_| MALFORMED)
}

fn octets(address: IpAddr) -> Vec<u8> {
    match address {
        IpAddr::V4(address) => address.octets().to_vec(),
        IpAddr::V6(address) => address.octets().to_vec(),
    }
}

fn width(address: IpAddr) -> u32 {
    if address.is_ipv4() {
        32
    } else {
        128
    }
}

fn number(address: IpAddr) -> u128 {
    match address {
        IpAddr::V4(address) => u32::from(address).into(),
        IpAddr::V6(address) => address.into(),
    }
}

fn address_from(number: u128, width: u32) -> IpAddr {
    match u32::try_from(number) {
        Ok(number) if width == 32 => IpAddr::V4(number.into()),
        _ => IpAddr::V6(number.into()),
    }
}

/// That many one bits at the low end.
fn host_mask(bits: u32) -> u128 {
    (0..bits).fold(0, |mask, bit| mask | 1 << bit)
}

fn check_block(address: IpAddr, length: u32) -> Result<(), u32> {
    if length > width(address) {
        return Err(LENGTH_TOO_LARGE);
    }
    if number(address) & host_mask(width(address) - length) != 0 {
        return Err(BITS_BEYOND_LENGTH);
    }
    Ok(())
}

/// The fewest blocks of a range: the whole address space is halved again and again, and a block is
/// taken as soon as it lies inside the range.
fn range(first: IpAddr, last: IpAddr) -> Result<Vec<(IpAddr, u32)>, u32> {
    if width(first) != width(last) {
        return Err(WRONG_FAMILY);
    }
    if first > last {
        return Err(FIRST_ABOVE_LAST);
    }
    let mut blocks = Vec::new();
    let (width, first, last) = (width(first), number(first), number(last));
    bisect(0, host_mask(width), 0, first, last, &mut blocks);
    let blocks = blocks.into_iter();
    Ok(blocks
        .map(|(start, length)| (address_from(start, width), length))
        .collect())
}

/// Collects the blocks within the range from the block of the given prefix length that reaches from
/// `start` to `end`.
fn bisect(
    start: u128,
    end: u128,
    length: u32,
    first: u128,
    last: u128,
    blocks: &mut Vec<(u128, u32)>,
) {
    if end < first || last < start {
        return;
    }
    if first <= start && end <= last {
        blocks.push((start, length));
        return;
    }
    let middle = start + (end - start) / 2;
    bisect(start, middle, length + 1, first, last, blocks);
    bisect(middle + 1, end, length + 1, first, last, blocks);
}

/// The fewest blocks of the addresses that a list covers, or of those that it does not.
fn list(records: &[u8], family: u32, covered: bool) -> Result<Vec<(IpAddr, u32)>, u32> {
    let width = match family {
        4 => 32,
        6 => 128,
        _ => return Err(WRONG_FAMILY),
    };
    let records = records.chunks_exact(width as usize / 8 + 1);
    if !records.remainder().is_empty() {
        return Err(MALFORMED);
    }
    if records.len() > MOST_RECORDS {
        return Err(TOO_MANY);
    }
    let pile: Vec<(u128, u32)> = records.map(block_of_record).collect::<Result<_, _>>()?;
    let mut blocks = Vec::new();
    halve((0, 0), width, &pile, covered, &mut blocks);
    let blocks = blocks.into_iter();
    Ok(blocks
        .map(|(start, length)| (address_from(start, width), length))
        .collect())
}

fn block_of_record(record: &[u8]) -> Result<(u128, u32), u32> {
    let (&length, address) = record.split_last().ok_or(MALFORMED)?;
    let address = address_of(address)?;
    check_block(address, length.into())?;
    Ok((number(address), length.into()))
}

/// Collects from one block, of the given start and length, the fewest blocks of what the pile covers
/// of it, or of what it does not. The pile has only blocks that share an address with this one, so
/// that each lies inside it or all around it.
fn halve(
    (start, length): (u128, u32),
    width: u32,
    pile: &[(u128, u32)],
    covered: bool,
    blocks: &mut Vec<(u128, u32)>,
) {
    let all = pile.iter().any(|&(_, around)| around <= length);
    if all || pile.is_empty() {
        if all == covered {
            blocks.push((start, length));
        }
        return;
    }
    let middle = start + (1 << (width - length - 1));
    let halves = [(start, length + 1), (middle, length + 1)];
    let (lower, upper): (Vec<_>, Vec<_>) = pile.iter().partition(|&&(first, _)| first < middle);
    let before = blocks.len();
    halve(halves[0], width, &lower, covered, blocks);
    halve(halves[1], width, &upper, covered, blocks);
    // Both halves whole are this block.
    if blocks[before..] == halves {
        blocks.truncate(before);
        blocks.push((start, length));
    }
}

#[cfg(test)]
mod tests {
    use super::*;
    use crate::case::Case;
    use crate::specimens::{rows, WHOLE_CASE};

    #[test]
    fn specimens_are_as_written() {
        for specimen in rows() {
            assert!(specimen.holds(Case::rules), "{}", specimen.case);
        }
    }

    #[test]
    fn range_program_answers_each_line_by_itself() {
        let (input, output) = WHOLE_CASE;
        assert_eq!(ranges_program(input.as_bytes()), output.as_bytes());
        assert_eq!(ranges_program(b""), b"");
        assert_eq!(ranges_program(b"\n"), b"refused 2\n");
        assert_eq!(
            ranges_program(b"1.1.1.1 ::1\n::2 ::1"),
            b"refused 9\nrefused 8\n"
        );
        assert_eq!(
            ranges_program(b"::1 ::1\r\n::1 ::1"),
            b"refused 2\n::1/128\n"
        );
        assert_eq!(ranges_program(&[b'1'; 129]), b"refused 2\n");
        assert_eq!(ranges_program(&[b'1'; 130]), b"refused 1\n");
        let long_first = format!("{} 1.1.1.1", "1".repeat(65));
        assert_eq!(ranges_program(long_first.as_bytes()), b"refused 1\n");
        assert_eq!(
            refused_lines(b"::2 ::1\n::1 ::1\n\nx"),
            [(1, 8), (3, 2), (4, 2)]
        );
        assert_eq!(refused_lines(b"::1 ::1\n"), []);
        let malformed_before_long = format!("x {}", "1".repeat(65));
        assert_eq!(
            ranges_program(malformed_before_long.as_bytes()),
            b"refused 2\n"
        );
    }

    #[test]
    fn earlier_refusals_win() {
        let long = [b'x'; 65];
        assert_eq!(read_address(&long, 5, &mut []), Err(WRONG_FAMILY));
        assert_eq!(read_address(&long, 4, &mut []), Err(TEXT_TOO_LONG));
        assert_eq!(read_address(b"::", 4, &mut []), Err(MALFORMED));
        assert_eq!(read_address(b"::", 6, &mut []), Err(NO_ROOM));
        assert_eq!(read_block(b"1.1.1.1/99", &mut []), Err(LENGTH_TOO_LARGE));
        assert_eq!(read_block(b"1.1.1.1/1000", &mut []), Err(MALFORMED));
        assert_eq!(write_network(&[0; 16], 99, &mut []), Err(WRONG_FAMILY));
        assert_eq!(range_blocks(&[0; 5], &[0; 16], &mut []), Err(MALFORMED));
        assert_eq!(range_blocks(&[1; 4], &[0; 16], &mut []), Err(WRONG_FAMILY));
        assert_eq!(
            range_blocks(&[1; 4], &[0; 4], &mut []),
            Err(FIRST_ABOVE_LAST)
        );
        assert_eq!(join(128, u32::MAX, &mut []), Err(NO_CLASS));
        assert_eq!(join(127, u32::MAX, &mut []), Err(HOST_TOO_LARGE));
    }

    #[test]
    fn only_the_counted_bytes_change() {
        let mut out = [7; 6];
        assert_eq!(read_network(b"10/9", &mut out), Ok((9, 2)));
        assert_eq!(out, [10, 0, 7, 7, 7, 7]);
        assert_eq!(read_network(b"10.1.2", &mut out[..2]), Err(NO_ROOM));
        assert_eq!(out, [10, 0, 7, 7, 7, 7]);
    }

    #[test]
    fn sizes_of_a_range_add_up() {
        let (first, last) = (0x0a00_0003u32, 0xdfff_0011u32);
        let mut out = [0; 310];
        let (blocks, bytes) =
            range_blocks(&first.to_be_bytes(), &last.to_be_bytes(), &mut out).unwrap();
        assert_eq!(bytes, 5 * blocks);
        let mut next = u64::from(first);
        for record in out[..bytes].chunks(5) {
            let address = u32::from_be_bytes(record[..4].try_into().unwrap());
            assert_eq!(u64::from(address), next);
            next += 1 << (32 - record[4]);
        }
        assert_eq!(next, u64::from(last) + 1);
    }

    /// All rising lists of blocks of a few bits in which none shares an address with another: this
    /// block, or those of its lower half and then those of its upper half.
    fn rising_lists(start: u128, length: u32, width: u32) -> Vec<Vec<(u128, u32)>> {
        if length == width {
            return vec![vec![], vec![(start, length)]];
        }
        let middle = start + (1 << (width - length - 1));
        let upper = rising_lists(middle, length + 1, width);
        let mut lists = vec![vec![(start, length)]];
        for lower in rising_lists(start, length + 1, width) {
            lists.extend(upper.iter().map(|upper| [&lower[..], upper].concat()));
        }
        lists
    }

    /// The addresses that blocks of three bits cover, each as one bit.
    fn cover(blocks: &[(u128, u32)]) -> u8 {
        blocks.iter().fold(0, |cover, &(start, length)| {
            (start..start + (1 << (3 - length))).fold(cover, |cover, address| cover | 1 << address)
        })
    }

    /// Of three bits there are 15 blocks. Every set of them, in two orders, gathers to the one
    /// shortest of all lists with its cover, and leaves the one shortest with the cover of the rest.
    #[test]
    fn every_list_of_three_bits() {
        let mut shortest: Vec<Vec<Vec<(u128, u32)>>> = vec![vec![]; 256];
        for list in rising_lists(0, 0, 3) {
            let known = &mut shortest[usize::from(cover(&list))];
            match known.first().map_or(0, Vec::len) {
                length if known.is_empty() || list.len() < length => *known = vec![list],
                length if list.len() == length => known.push(list),
                _ => {}
            }
        }
        assert!(shortest.iter().all(|lists| lists.len() == 1));

        let blocks: Vec<(u128, u32)> = (0..=3)
            .flat_map(|length| (0..1 << length).map(move |n| (n << (3 - length), length)))
            .collect();
        assert_eq!(blocks.len(), 15);
        for set in 0..1 << 15 {
            let mut pile: Vec<(u128, u32)> = (0..15)
                .filter(|place| set >> place & 1 == 1)
                .map(|place| blocks[place])
                .collect();
            let covered = cover(&pile);
            for _ in 0..2 {
                pile.reverse();
                for (covers, wanted) in [(true, covered), (false, !covered)] {
                    let mut found = Vec::new();
                    halve((0, 0), 3, &pile, covers, &mut found);
                    assert_eq!(found, shortest[usize::from(wanted)][0], "{pile:?}");
                }
            }
        }
    }

    #[test]
    fn first_bad_record_decides() {
        for call in [gather, uncovered] {
            let list = |records: &[[u8; 5]]| call(&records.concat(), 4, &mut []);
            let (good, long, beyond) = ([0; 5], [0, 0, 0, 1, 33], [0, 0, 0, 1, 31]);
            assert_eq!(list(&[good, long, beyond]), Err(LENGTH_TOO_LARGE));
            assert_eq!(list(&[good, beyond, long]), Err(BITS_BEYOND_LENGTH));
            assert_eq!(list(&[long; 512]), Err(LENGTH_TOO_LARGE));
            assert_eq!(list(&[long; 513]), Err(TOO_MANY));
            assert_eq!(call(&[255; 5 * 513 + 1], 4, &mut []), Err(MALFORMED));
            assert_eq!(call(&[255; 5 * 513 + 1], 0, &mut []), Err(WRONG_FAMILY));
            assert_eq!(call(&[1, 2, 3, 4, 32], 4, &mut []), Err(NO_ROOM));
        }
    }
}
