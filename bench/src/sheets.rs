//! The sheet respelled in plain Rust, in two ways, with the checks and refusals of the library: by the
//! parsers and the formatter of the standard library, and with fields and numbers taken apart and
//! written by hand, which is quicker. Addresses are the standard library's in both.

use std::io::{Cursor, Write};
use std::net::{IpAddr, Ipv4Addr};
use std::str;

use nibharrow::raw::Written;

use crate::peers::{store, written, Outcome};

const MOST_BYTES: usize = 65_536;
const MOST_LINES: usize = 1_024;
const LONGEST_LINE: usize = 52;
const LONGEST_ADDRESS: usize = 64;
const MOST_VOLUME: u32 = 999_999;
const MOST_PH: u32 = 1_400;

#[derive(Clone, Copy)]
struct Reading {
    address: IpAddr,
    volume: u32,
    ph: u32,
}

const NO_READING: Reading = Reading {
    address: IpAddr::V4(Ipv4Addr::UNSPECIFIED),
    volume: 0,
    ph: 0,
};

/// Not inlined, since a call of the library cannot be.
#[inline(never)]
pub fn respell<const BY_HAND: bool>(sheet: &[u8], sorted: bool, out: &mut [u8]) -> Written {
    written(try_respell::<BY_HAND>(sheet, sorted, out))
}

fn try_respell<const BY_HAND: bool>(sheet: &[u8], sorted: bool, out: &mut [u8]) -> Outcome<usize> {
    let mut readings = [NO_READING; MOST_LINES];
    let readings = read::<BY_HAND>(sheet, &mut readings)?;
    if sorted {
        // Stable. The standard library has IPv4 before IPv6 too.
        readings.sort_by_key(|reading| reading.address);
    }
    // A refusal leaves `out` as it was, so where the lines may not fit they are written elsewhere first.
    if readings.len() * LONGEST_LINE <= out.len() {
        return Ok(write::<BY_HAND>(readings, out));
    }
    let mut text = [0; MOST_LINES * LONGEST_LINE];
    let length = write::<BY_HAND>(readings, &mut text);
    store(&text[..length], out)
}

/// Reads the lines of a sheet into the first of the readings.
fn read<'a, const BY_HAND: bool>(
    sheet: &[u8],
    readings: &'a mut [Reading; MOST_LINES],
) -> Outcome<&'a mut [Reading]> {
    if MOST_BYTES < sheet.len() {
        return Err(1);
    }
    let newlines = sheet.iter().filter(|byte| **byte == b'\n').count();
    let unfinished = sheet.last().is_some_and(|byte| *byte != b'\n');
    let lines = newlines + usize::from(unfinished);
    let readings = readings.get_mut(..lines).ok_or(10u32)?;
    let filled = if BY_HAND {
        read_by_hand(sheet, readings)
    } else {
        read_by_std(sheet, readings)
    };
    filled.map(|()| readings).ok_or(2)
}

/// Writes the readings, for which there is room, and answers how many bytes they fill.
fn write<const BY_HAND: bool>(readings: &[Reading], out: &mut [u8]) -> usize {
    let mut out = Cursor::new(out);
    for reading in readings {
        if BY_HAND {
            write_by_hand(reading, &mut out);
        } else {
            let Reading {
                address,
                volume,
                ph,
            } = reading;
            writeln!(out, "{address},{volume},{ph}").expect("room for any line");
        }
    }
    out.position() as usize
}

// ---- by the standard library

fn read_by_std(sheet: &[u8], readings: &mut [Reading]) -> Option<()> {
    let sheet = str::from_utf8(sheet).ok()?;
    for (reading, line) in readings.iter_mut().zip(sheet.split_inclusive('\n')) {
        let mut fields = line.strip_suffix('\n')?.split(',');
        let (address, volume, ph) = (fields.next()?, fields.next()?, fields.next()?);
        if fields.next().is_some() || LONGEST_ADDRESS < address.len() {
            return None;
        }
        *reading = Reading {
            address: address.parse().ok()?,
            volume: number(volume, MOST_VOLUME).filter(|volume| *volume != 0)?,
            ph: number(ph, MOST_PH)?,
        };
    }
    Some(())
}

/// A decimal number with no leading zero but in `0`. `parse` alone would take `+8` and `08`.
fn number(text: &str, most: u32) -> Option<u32> {
    if !text.bytes().all(|byte| byte.is_ascii_digit()) || (text.len() > 1 && text.starts_with('0'))
    {
        return None;
    }
    text.parse().ok().filter(|number| *number <= most)
}

// ---- by hand

fn read_by_hand(sheet: &[u8], readings: &mut [Reading]) -> Option<()> {
    let mut rest = sheet;
    for reading in readings {
        let comma = rest
            .iter()
            .take(LONGEST_ADDRESS + 1)
            .position(|byte| *byte == b',')?;
        let address = str::from_utf8(&rest[..comma]).ok()?;
        let address = if address.contains(':') {
            IpAddr::V6(address.parse().ok()?)
        } else {
            IpAddr::V4(address.parse().ok()?)
        };
        let volume = take_number(&rest[comma + 1..], b',', MOST_VOLUME)?;
        let ph = take_number(volume.1, b'\n', MOST_PH)?;
        *reading = Reading {
            address,
            volume: Some(volume.0).filter(|volume| *volume != 0)?,
            ph: ph.0,
        };
        rest = ph.1;
    }
    Some(())
}

/// Takes a decimal number with no leading zero but in `0`, and the byte that has to be behind it.
fn take_number(text: &[u8], behind: u8, most: u32) -> Option<(u32, &[u8])> {
    let (mut number, mut at) = (0, 0);
    loop {
        let byte = *text.get(at)?;
        if byte == behind {
            break;
        }
        let digit = u32::from(byte.wrapping_sub(b'0'));
        // Up to 999,999 before this, so that nothing wraps.
        number = number * 10 + digit;
        if 9 < digit || most < number {
            return None;
        }
        at += 1;
    }
    let spelt = at == 1 || 1 < at && text[0] != b'0';
    spelt.then(|| (number, &text[at + 1..]))
}

fn write_by_hand(reading: &Reading, out: &mut Cursor<&mut [u8]>) {
    let text = match reading.address {
        IpAddr::V4(address) => write!(out, "{address}"),
        IpAddr::V6(address) => write!(out, "{address}"),
    };
    text.expect("room for any line");
    // A comma, up to six digits, a comma, up to four digits and a newline, from the last.
    let mut tail = [0; 13];
    let mut at = tail.len() - 1;
    tail[at] = b'\n';
    for mut number in [reading.ph, reading.volume] {
        loop {
            at -= 1;
            tail[at] = b'0' + (number % 10) as u8;
            number /= 10;
            if number == 0 {
                break;
            }
        }
        at -= 1;
        tail[at] = b',';
    }
    out.write_all(&tail[at..]).expect("room for any line");
}

#[cfg(test)]
mod tests {
    use super::*;
    use nibharrow::exact;

    /// Both ways answer as the library does, refusals and what is left of the buffer included.
    #[test]
    fn both_ways_answer_as_the_library_does() {
        let good = "::0:1,7,0\n10.0.0.12,999999,1400\n2001:DB8::1,1,10\n10.0.0.2,10,7\n0::1,8,1\n";
        let mut sheets: Vec<Vec<u8>> = vec![good.into(), vec![]];
        for place in 0..good.len() {
            sheets.push(good[..place].into());
            for byte in b"0 9,:.\n\r\0x+\xff" {
                let mut sheet = good.as_bytes().to_vec();
                sheet[place] = *byte;
                sheets.push(sheet.clone());
                sheet[place] = good.as_bytes()[place];
                sheet.insert(place, *byte);
                sheets.push(sheet);
            }
        }
        for numbers in [
            "0,0",
            "1000000,0",
            "1,1401",
            "01,0",
            "1,00",
            ",0",
            "1,",
            "4294967297,0",
        ] {
            sheets.push(format!("::1,{numbers}\n").into());
        }
        for lines in [MOST_LINES, MOST_LINES + 1] {
            sheets.push("::1,1,0\n".repeat(lines).into());
            sheets.push("::1,1,0\n".repeat(lines - 1).into_bytes());
            sheets.last_mut().unwrap().push(b'x');
        }
        sheets.extend([MOST_BYTES, MOST_BYTES + 1].map(|bytes| vec![b'\n'; bytes]));
        for sheet in sheets {
            for room in [0, 60, 77, 78, 400, 60_000] {
                agree(&sheet, room);
            }
        }
    }

    #[track_caller]
    fn agree(sheet: &[u8], room: usize) {
        for sorted in [false, true] {
            let mut outs = [vec![b'?'; room], vec![b'?'; room], vec![b'?'; room]];
            let answers = [
                exact::respell(sheet, sorted.into(), &mut outs[0]),
                respell::<false>(sheet, sorted, &mut outs[1]),
                respell::<true>(sheet, sorted, &mut outs[2]),
            ];
            let start = sheet[..sheet.len().min(200)].escape_ascii();
            assert_eq!(answers, [answers[0]; 3], "{start}, room {room}");
            assert!(outs[1..].iter().all(|out| *out == outs[0]), "{start}");
        }
    }
}
