//! The rules of sheets a second time, written from their description alone in the plainest way: lines
//! are split at newlines and commas, numbers are right if they print as they were written, and lines
//! are sorted by piling them up under their addresses in a `BTreeMap`.

use std::collections::BTreeMap;
use std::net::IpAddr;
use std::ops::RangeInclusive;

use crate::rules::{normal_text, put, strict, MALFORMED, TEXT_TOO_LONG, TOO_MANY};

pub const MOST_BYTES: usize = 65_536;
pub const MOST_LINES: usize = 1_024;

/// What the library's call of this name answers.
pub fn respell(sheet: &[u8], sorted: u32, out: &mut [u8]) -> Result<usize, u32> {
    let mut respelt = respelt_lines(sheet).map_err(|(_, refusal)| refusal)?;
    if sorted != 0 {
        respelt = by_address(respelt);
    }
    let text: String = respelt.into_iter().map(|(_, line)| line).collect();
    put(text.as_bytes(), out)
}

/// The lines of a sheet, each with its newline but perhaps the last.
pub fn lines(sheet: &[u8]) -> Vec<&[u8]> {
    sheet.split_inclusive(|&byte| byte == b'\n').collect()
}

/// The line, counted from 1, at which it shows that a sheet is refused, and the refusal: the first
/// malformed line, the first of too many, or the one that has the first byte of too many.
pub fn refused_line(sheet: &[u8]) -> Option<(usize, u32)> {
    respelt_lines(sheet).err()
}

/// The lines in their old order, each as its address and the whole line respelt; or the line that
/// `refused_line` tells, and the refusal.
fn respelt_lines(sheet: &[u8]) -> Result<Vec<(IpAddr, String)>, (usize, u32)> {
    if sheet.len() > MOST_BYTES {
        // The line of a byte is one more than the newlines before it.
        let before = &sheet[..MOST_BYTES];
        let newlines = before.iter().filter(|&&byte| byte == b'\n').count();
        return Err((newlines + 1, TEXT_TOO_LONG));
    }
    let lines = lines(sheet);
    if lines.len() > MOST_LINES {
        return Err((MOST_LINES + 1, TOO_MANY));
    }
    (1..)
        .zip(lines)
        .map(|(place, line)| respelt_line(line).ok_or((place, MALFORMED)))
        .collect()
}

/// A line's address and the whole line respelt, unless it is malformed. An address of more than 64
/// bytes needs no rule of its own here: the longest strict text has 45.
fn respelt_line(line: &[u8]) -> Option<(IpAddr, String)> {
    let line = std::str::from_utf8(line).ok()?.strip_suffix('\n')?;
    let fields: Vec<&str> = line.split(',').collect();
    let [address, volume, ph] = fields[..] else {
        return None;
    };
    let address = strict(address).ok()?;
    let volume = number(volume, 1..=999_999)?;
    let ph = number(ph, 0..=1400)?;
    let respelt = format!("{},{volume},{ph}\n", normal_text(address));
    Some((address, respelt))
}

/// A number that is allowed and would be written just as it was. `str::parse` alone would take a
/// plus sign and leading zeros.
fn number(text: &str, allowed: RangeInclusive<u32>) -> Option<u32> {
    let number: u32 = text.parse().ok()?;
    (number.to_string() == text && allowed.contains(&number)).then_some(number)
}

/// Each line goes to the end of its address's pile, and the piles are taken in rising order. An
/// `IpAddr` of IPv4 is below any of IPv6.
fn by_address(lines: Vec<(IpAddr, String)>) -> Vec<(IpAddr, String)> {
    let mut piles: BTreeMap<IpAddr, Vec<(IpAddr, String)>> = BTreeMap::new();
    for line in lines {
        piles.entry(line.0).or_default().push(line);
    }
    piles.into_values().flatten().collect()
}

#[cfg(test)]
mod tests {
    use super::*;
    use crate::rules::NO_ROOM;

    fn respelt(sheet: &str, sorted: u32) -> Result<String, u32> {
        let mut out = vec![0; 53_248];
        let length = respell(sheet.as_bytes(), sorted, &mut out)?;
        out.truncate(length);
        Ok(String::from_utf8(out).unwrap())
    }

    /// The apprentice sorted the addresses and left the readings where they were.
    #[test]
    fn no_column_is_sorted_alone() {
        let sheet = "10.0.0.2,20,700\n10.0.0.1,10,650\n";
        let right = "10.0.0.1,10,650\n10.0.0.2,20,700\n";
        assert_eq!(respelt(sheet, 1).as_deref(), Ok(right));
        let apprentice = "10.0.0.1,20,700\n10.0.0.2,10,650\n";
        assert_eq!(respelt(apprentice, 1).as_deref(), Ok(apprentice));
        assert_ne!(right, apprentice);
    }

    #[test]
    fn equal_addresses_keep_their_order() {
        let sheet = "::2,1,9\n1.2.3.4,3,3\n0::2,1,8\n::1,5,5\n1.2.3.4,3,2\n::0.0.0.2,1,7\n";
        let sorted = "1.2.3.4,3,3\n1.2.3.4,3,2\n::1,5,5\n::2,1,9\n::2,1,8\n::2,1,7\n";
        assert_eq!(respelt(sheet, 2).as_deref(), Ok(sorted));
        assert_eq!(respelt("", 1).as_deref(), Ok(""));
    }

    #[test]
    fn numbers_are_spelt_as_they_are_written() {
        assert_eq!(number("0", 0..=9), Some(0));
        assert_eq!(number("1400", 0..=1400), Some(1400));
        for text in ["", "00", "07", "+7", "-0", " 7", "7 ", "1401", "4294967303"] {
            assert_eq!(number(text, 0..=1400), None, "{text}");
        }
    }

    #[test]
    fn earlier_refusals_win() {
        let (good, bad) = ("::,1,0\n", "x\n");
        let many = good.repeat(1_024);
        assert_eq!(respelt(&"\n".repeat(65_537), 0), Err(TEXT_TOO_LONG));
        assert_eq!(respelt(&"\n".repeat(65_536), 0), Err(TOO_MANY));
        assert_eq!(respelt(&(bad.to_owned() + &many), 0), Err(TOO_MANY));
        assert_eq!(respelt(&(many.clone() + "::,1,0"), 0), Err(TOO_MANY));
        assert_eq!(respelt(&bad.repeat(1_024), 0), Err(MALFORMED));
        assert_eq!(respelt("::,1,0", 0), Err(MALFORMED));
        assert_eq!(respell(many.as_bytes(), 0, &mut [0; 7_167]), Err(NO_ROOM));
        assert_eq!(respell(many.as_bytes(), 0, &mut [0; 7_168]), Ok(7_168));
    }

    #[test]
    fn refused_sheets_are_told_by_a_line() {
        let good = "::,1,0\n";
        let line = |sheet: String| refused_line(sheet.as_bytes());
        assert_eq!(line(good.repeat(1_024)), None);
        assert_eq!(line(String::new()), None);
        assert_eq!(line(good.repeat(3) + "\n\n"), Some((4, MALFORMED)));
        assert_eq!(line(good.repeat(3) + "::,1,0"), Some((4, MALFORMED)));
        assert_eq!(line(good.repeat(1_026)), Some((1_025, TOO_MANY)));
        assert_eq!(line("\n".repeat(65_537)), Some((65_537, TEXT_TOO_LONG)));
        assert_eq!(line("x".repeat(65_537)), Some((1, TEXT_TOO_LONG)));
        let before = "x".repeat(65_535) + "\n";
        assert_eq!(line(before.clone() + "x"), Some((2, TEXT_TOO_LONG)));
        assert_eq!(line(before + "\n\n\n"), Some((2, TEXT_TOO_LONG)));
    }

    #[test]
    fn lines_have_one_form() {
        for line in ["::,1,0\n", "::,999999,1400\n", "1.2.3.4,10,7\n"] {
            assert_eq!(respelt(line, 0).as_deref(), Ok(line));
        }
        let fields =
            "|,,|::|::,1|::,1,|::,,1|,1,1|::,1,0,|::,1,0,0|::;1;0|::,1,0\r|::,1,0\0|::,1,0 ";
        let volumes = "::,0,0|::,01,0|::,1000000,0|::,+1,0|::, 1,0|::,1.0,0|::,0x1,0";
        let phs = "::,1,00|::,1,07|::,1,1401|::,1,-0|::,1,7.00|::,1,\u{661}";
        let addresses = " ::,1,0|::%1,1,0|[::],1,0|1.2.3.04,1,0|1.2.3,1,0|:::,1,0";
        let long = [64, 65].map(|length| format!("{:0>length$},1,0", "::"));
        let known = [fields, volumes, phs, addresses, &long[0], &long[1]];
        for line in known.into_iter().flat_map(|lines| lines.split('|')) {
            for sheet in [format!("{line}\n"), format!("::,1,0\n{line}\n::,1,0\n")] {
                assert_eq!(respelt(&sheet, 0), Err(MALFORMED), "{sheet:?}");
                assert_eq!(respelt(&sheet, 1), Err(MALFORMED), "{sheet:?}");
            }
        }
        assert_eq!(respell(b"\xff,1,0\n", 0, &mut []), Err(MALFORMED));
        assert_eq!(respelt(&"x".repeat(65_536), 0), Err(MALFORMED));
    }

    #[test]
    fn lines_are_sorted_by_value_and_family_on_request() {
        let sheet = "::ffff:1.2.3.4,4,0\n0:0::1,3,0\n10.0.0.0,2,0\n9.0.0.0,1,0\n";
        let unsorted = "::ffff:102:304,4,0\n::1,3,0\n10.0.0.0,2,0\n9.0.0.0,1,0\n";
        let sorted = "9.0.0.0,1,0\n10.0.0.0,2,0\n::1,3,0\n::ffff:102:304,4,0\n";
        assert_eq!(respelt(sheet, 0).as_deref(), Ok(unsorted));
        for number in [1, 256, 1 << 31, u32::MAX] {
            assert_eq!(respelt(sheet, number).as_deref(), Ok(sorted));
        }
    }

    #[test]
    fn the_longest_answer_fits_the_room_told() {
        let longest = "1111:2222:3333:4444:5555:6666:119.119.136.136,999999,1400\n".repeat(1_024);
        let answer = "1111:2222:3333:4444:5555:6666:7777:8888,999999,1400\n".repeat(1_024);
        assert_eq!(answer.len(), 53_248);
        for sorted in [0, 1] {
            assert_eq!(respelt(&longest, sorted).as_ref(), Ok(&answer));
        }
    }

    #[test]
    fn only_the_counted_bytes_change() {
        for sorted in [0, 1] {
            let mut out = [7; 12];
            assert_eq!(respell(b"", sorted, &mut out), Ok(0));
            assert_eq!(respell(b"::,1,0\nx\n", sorted, &mut out), Err(MALFORMED));
            assert_eq!(respell(b"::,1,0\n", sorted, &mut out[..6]), Err(NO_ROOM));
            assert_eq!(out, [7; 12]);
            assert_eq!(respell(b"0::0,1,0\n", sorted, &mut out), Ok(7));
            assert_eq!(&out, b"::,1,0\n\x07\x07\x07\x07\x07");
        }
        assert_eq!(respell(b"", 0, &mut []), Ok(0));
    }

    #[test]
    fn lines_keep_their_newlines() {
        assert!(lines(b"").is_empty());
        assert_eq!(lines(b"\n"), [b"\n"]);
        assert_eq!(lines(b"a\n\nb"), [&b"a\n"[..], b"\n", b"b"]);
    }
}
