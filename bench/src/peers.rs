//! What the library is measured against: Rust's standard library, the C library, and like functions
//! in plain Rust where neither has the call.
//!
//! Every peer answers in the library's own types, so that both sides of a row do the same work and
//! can be compared.

use std::ffi::{c_char, c_int, c_void, CStr};
use std::fmt::Display;
use std::io::Write;
use std::net::{IpAddr, Ipv4Addr, Ipv6Addr};
use std::str::FromStr;

use nibharrow::raw::{BlockRead, BlocksWritten, NetworkHost, Written};

use crate::inputs::Text;

const AF_INET: c_int = 2;
const AF_INET6: c_int = 10;

extern "C" {
    fn inet_pton(family: c_int, text: *const c_char, out: *mut c_void) -> c_int;
    fn inet_ntop(
        family: c_int,
        octets: *const c_void,
        out: *mut c_char,
        room: u32,
    ) -> *const c_char;
    fn inet_aton(text: *const c_char, out: *mut c_void) -> c_int;
}

#[link(name = "resolv")]
extern "C" {
    fn inet_net_pton(family: c_int, text: *const c_char, out: *mut c_void, room: usize) -> c_int;
    fn inet_net_ntop(
        family: c_int,
        octets: *const c_void,
        size: c_int,
        out: *mut c_char,
        room: usize,
    ) -> *mut c_char;
}

/// An answer, or the number of a refusal.
pub type Outcome<T> = Result<T, u32>;

pub fn written(outcome: Outcome<usize>) -> Written {
    match outcome {
        Ok(bytes) => Written { refusal: 0, bytes },
        Err(refusal) => Written { refusal, bytes: 0 },
    }
}

pub fn store(bytes: &[u8], out: &mut [u8]) -> Outcome<usize> {
    let out = out.get_mut(..bytes.len()).ok_or(3u32)?;
    out.copy_from_slice(bytes);
    Ok(bytes.len())
}

// ---- Rust's standard library

pub fn parse<A: FromStr, const N: usize>(
    text: &Text,
    octets: impl Fn(&A) -> [u8; N],
    out: &mut [u8],
) -> Written {
    written(match text.str().parse() {
        Ok(address) => store(&octets(&address), out),
        Err(_) => Err(2),
    })
}

pub fn parse_either(text: &Text, out: &mut [u8]) -> Written {
    written(match text.str().parse() {
        Ok(address) => store_address(address, out),
        Err(_) => Err(2),
    })
}

pub fn display(value: impl Display, out: &mut [u8]) -> Written {
    let room = out.len();
    let mut rest = out;
    written(match write!(&mut rest, "{}", value) {
        Ok(()) => Ok(room - rest.len()),
        Err(_) => Err(3),
    })
}

fn store_address(address: IpAddr, out: &mut [u8]) -> Outcome<usize> {
    match address {
        IpAddr::V4(a) => store(&a.octets(), out),
        IpAddr::V6(a) => store(&a.octets(), out),
    }
}

// ---- the C library

fn family<const N: usize>() -> c_int {
    if N == 4 {
        AF_INET
    } else {
        AF_INET6
    }
}

/// The length of the text that a call has put into `out`, which the C library does not tell.
fn text_length(text: *const c_char) -> Outcome<usize> {
    if text.is_null() {
        return Err(3);
    }
    // SAFETY: a writer of the C library answers NULL or its buffer, in which a zero byte ends the text.
    Ok(unsafe { CStr::from_ptr(text) }.count_bytes())
}

pub fn pton<const N: usize>(text: &Text, out: &mut [u8]) -> Written {
    let out = &mut out[..N];
    // SAFETY: a zero byte ends the text, and `out` has the N bytes of the family's addresses.
    let read = unsafe { inet_pton(family::<N>(), text.pointer(), out.as_mut_ptr().cast()) };
    written(if read == 1 { Ok(N) } else { Err(2) })
}

pub fn ntop<const N: usize>(octets: &[u8; N], out: &mut [u8]) -> Written {
    // SAFETY: `octets` has the N bytes of the family's addresses, and no more than `room` bytes of
    // `out` are written.
    written(text_length(unsafe {
        inet_ntop(
            family::<N>(),
            octets.as_ptr().cast(),
            out.as_mut_ptr().cast(),
            out.len() as u32,
        )
    }))
}

pub fn aton(text: &Text, out: &mut [u8]) -> Written {
    let out = &mut out[..4];
    // SAFETY: a zero byte ends the text, and `out` has the four bytes of an address.
    let read = unsafe { inet_aton(text.pointer(), out.as_mut_ptr().cast()) };
    written(if read == 1 { Ok(4) } else { Err(2) })
}

/// The size in bits. How many bytes were given the C library does not tell.
pub fn net_pton(text: &Text, out: &mut [u8]) -> Option<u32> {
    // SAFETY: a zero byte ends the text, and no more than `room` bytes of `out` are written.
    let size =
        unsafe { inet_net_pton(AF_INET, text.pointer(), out.as_mut_ptr().cast(), out.len()) };
    u32::try_from(size).ok()
}

pub fn net_ntop(octets: &[u8; 4], size: u32, out: &mut [u8]) -> Written {
    // SAFETY: `octets` has as many bytes as any size of IPv4 reaches into, and no more than `room`
    // bytes of `out` are written.
    written(text_length(unsafe {
        inet_net_ntop(
            AF_INET,
            octets.as_ptr().cast(),
            size as c_int,
            out.as_mut_ptr().cast(),
            out.len(),
        )
    }))
}

// ---- like functions. They are not inlined, since a call of the library cannot be.

fn ipv4(octets: &[u8]) -> Outcome<u32> {
    octets.try_into().map(u32::from_be_bytes).map_err(|_| 2)
}

fn ipv6(octets: &[u8]) -> Outcome<u128> {
    octets.try_into().map(u128::from_be_bytes).map_err(|_| 2)
}

/// One to three digits, with no leading zero but in `0`. `parse` alone would take `+8` and `08`.
fn prefix_length(text: &str) -> Outcome<u32> {
    let digits = text.len() <= 3 && text.bytes().all(|b| b.is_ascii_digit());
    if !digits || (text.len() > 1 && text.starts_with('0')) {
        return Err(2);
    }
    text.parse().map_err(|_| 2)
}

fn check_block(address: IpAddr, length: u32) -> Outcome<()> {
    let (width, beyond) = match address {
        IpAddr::V4(a) => (32, a.to_bits().checked_shl(length).unwrap_or(0) != 0),
        IpAddr::V6(a) => (128, a.to_bits().checked_shl(length).unwrap_or(0) != 0),
    };
    if width < length {
        return Err(4);
    }
    if beyond {
        return Err(5);
    }
    Ok(())
}

fn try_read_block(text: &str, out: &mut [u8]) -> Outcome<(u32, usize)> {
    if 64 < text.len() {
        return Err(1);
    }
    let (address, length) = text.split_once('/').ok_or(2u32)?;
    let address = address.parse().map_err(|_| 2u32)?;
    let length = prefix_length(length)?;
    check_block(address, length)?;
    Ok((length, store_address(address, out)?))
}

#[inline(never)]
pub fn read_block(text: &str, out: &mut [u8]) -> BlockRead {
    match try_read_block(text, out) {
        Ok((length, bytes)) => BlockRead {
            refusal: 0,
            length,
            bytes,
        },
        Err(refusal) => BlockRead {
            refusal,
            length: 0,
            bytes: 0,
        },
    }
}

fn try_write_block(octets: &[u8], length: u32, out: &mut [u8]) -> Outcome<usize> {
    let address = match octets.len() {
        4 => Ipv4Addr::from(ipv4(octets)?).into(),
        _ => Ipv6Addr::from(ipv6(octets)?).into(),
    };
    check_block(address, length)?;
    // A refusal leaves `out` as it was, so the text is made elsewhere first.
    let mut text = [0; 43];
    let made = display(format_args!("{address}/{length}"), &mut text);
    store(&text[..made.bytes], out)
}

#[inline(never)]
pub fn write_block(octets: &[u8], length: u32, out: &mut [u8]) -> Written {
    written(try_write_block(octets, length, out))
}

fn try_split(octets: &[u8]) -> Outcome<(u32, u32)> {
    if octets.len() == 16 {
        return Err(9);
    }
    let v = ipv4(octets)?;
    let host_bits = match v.leading_ones() {
        0 => 24,
        1 => 16,
        2 => 8,
        _ => return Err(6),
    };
    Ok((v >> host_bits, v & ((1 << host_bits) - 1)))
}

#[inline(never)]
pub fn split(octets: &[u8]) -> NetworkHost {
    match try_split(octets) {
        Ok((network, host)) => NetworkHost {
            refusal: 0,
            network,
            host,
        },
        Err(refusal) => NetworkHost {
            refusal,
            network: 0,
            host: 0,
        },
    }
}

fn try_join(network: u32, host: u32, out: &mut [u8]) -> Outcome<usize> {
    let host_bits = match network {
        0..=127 => 24,
        32_768..=49_151 => 16,
        12_582_912..=14_680_063 => 8,
        _ => return Err(6),
    };
    if host >> host_bits != 0 {
        return Err(7);
    }
    store(&(network << host_bits | host).to_be_bytes(), out)
}

#[inline(never)]
pub fn join(network: u32, host: u32, out: &mut [u8]) -> Written {
    written(try_join(network, host, out))
}

/// The most records that a list may have.
const MOST_RECORDS: usize = 512;

/// The walk over a range, and the calls on lists, which walk over several, once for each width of
/// number. The next block is found from the trailing zeros of its start, as the library does it, or by
/// masks: quicker, and harder to follow.
macro_rules! range_walk {
    ($family:ident, $number:ident) => {
        mod $family {
            use super::{Outcome, MOST_RECORDS};

            const BITS: u32 = $number::BITS;
            const RECORD: usize = BITS as usize / 8 + 1;
            /// No range has more than 2 * BITS - 2 blocks.
            const ROOM: usize = (2 * BITS as usize - 2) * RECORD;

            /// The low bits that the next block leaves free, and its last address.
            fn step<const MASKS: bool>(start: $number, last: $number) -> (u32, $number) {
                let left = last - start;
                if !MASKS {
                    let room = left.checked_add(1).map_or(BITS, $number::ilog2);
                    let free = start.trailing_zeros().min(room);
                    let ones = $number::MAX.checked_shr(BITS - free).unwrap_or(0);
                    return (free, start | ones);
                }
                let zeros = (start & start.wrapping_neg()).wrapping_sub(1);
                if zeros <= left {
                    return (start.trailing_zeros(), start | zeros);
                }
                let free = (left + 1).ilog2();
                (free, start | ((1 << free) - 1))
            }

            fn count<const MASKS: bool>(first: $number, last: $number) -> usize {
                let (mut start, mut n) = (first, 1);
                loop {
                    let (_, end) = step::<MASKS>(start, last);
                    if end == last {
                        return n;
                    }
                    start = end + 1;
                    n += 1;
                }
            }

            /// Puts the records of a range at the start of `out`, and answers how many they are.
            fn put<const MASKS: bool>(first: $number, last: $number, out: &mut [u8]) -> usize {
                let (mut start, mut n) = (first, 0);
                for record in out.chunks_exact_mut(RECORD) {
                    let (free, end) = step::<MASKS>(start, last);
                    record[..RECORD - 1].copy_from_slice(&start.to_be_bytes());
                    record[RECORD - 1] = (BITS - free) as u8;
                    n += 1;
                    if end == last {
                        break;
                    }
                    start = end + 1;
                }
                n
            }

            pub fn put_blocks<const MASKS: bool>(
                first: $number,
                last: $number,
                out: &mut [u8],
            ) -> Outcome<(usize, usize)> {
                if last < first {
                    return Err(8);
                }
                if out.len() < ROOM && out.len() < count::<MASKS>(first, last) * RECORD {
                    return Err(3);
                }
                let n = put::<MASKS>(first, last, out);
                Ok((n, n * RECORD))
            }

            type Range = ($number, $number);

            /// The blocks of a list as ranges, rising by their first addresses.
            fn sorted<'a>(
                records: &[u8],
                list: &'a mut [Range; MOST_RECORDS],
            ) -> Outcome<&'a [Range]> {
                if records.len() % RECORD != 0 {
                    return Err(2);
                }
                let list = list.get_mut(..records.len() / RECORD).ok_or(10u32)?;
                for (range, record) in list.iter_mut().zip(records.chunks_exact(RECORD)) {
                    let first = $number::from_be_bytes(record[..RECORD - 1].try_into().unwrap());
                    let length = u32::from(record[RECORD - 1]);
                    if BITS < length {
                        return Err(4);
                    }
                    let beyond = $number::MAX.checked_shr(length).unwrap_or(0);
                    if first & beyond != 0 {
                        return Err(5);
                    }
                    *range = (first, first | beyond);
                }
                list.sort_unstable_by_key(|range| range.0);
                Ok(list)
            }

            /// Takes each range that sorted ones cover together, or each that is between those.
            fn ranges<const GATHER: bool>(list: &[Range], mut take: impl FnMut($number, $number)) {
                if GATHER {
                    return joined(list, take);
                }
                let mut next = Some(0);
                joined(list, |first, last| {
                    if let Some(next) = next.filter(|next| *next < first) {
                        take(next, first - 1);
                    }
                    next = last.checked_add(1);
                });
                if let Some(next) = next {
                    take(next, $number::MAX);
                }
            }

            fn joined(list: &[Range], mut take: impl FnMut($number, $number)) {
                let Some((&(mut first, mut last), rest)) = list.split_first() else {
                    return;
                };
                for &(start, end) in rest {
                    if end <= last {
                        continue;
                    }
                    if last + 1 < start {
                        take(first, last);
                        first = start;
                    }
                    last = end;
                }
                take(first, last);
            }

            /// Puts the blocks of what a list covers, or of what it does not. They are counted first,
            /// but where it is known without that there is room: a list is never longer gathered. The
            /// bound of what is not covered is left to the quicker walk.
            pub fn put_list<const MASKS: bool, const GATHER: bool>(
                records: &[u8],
                out: &mut [u8],
            ) -> Outcome<(usize, usize)> {
                let mut list = [(0, 0); MOST_RECORDS];
                let list = sorted(records, &mut list)?;
                let most = match (GATHER, MASKS) {
                    (true, _) => Some(list.len()),
                    (false, true) => Some(1 + list.len() * (BITS as usize - 1)),
                    (false, false) => None,
                };
                let mut n = 0;
                if most.is_none_or(|most| out.len() < most * RECORD) {
                    ranges::<GATHER>(list, |first, last| n += count::<MASKS>(first, last));
                    if out.len() < n * RECORD {
                        return Err(3);
                    }
                    n = 0;
                }
                ranges::<GATHER>(list, |first, last| {
                    n += put::<MASKS>(first, last, &mut out[n * RECORD..]);
                });
                Ok((n, n * RECORD))
            }
        }
    };
}

range_walk!(narrow, u32);
range_walk!(wide, u128);

fn try_range_blocks<const MASKS: bool>(
    first: &[u8],
    last: &[u8],
    out: &mut [u8],
) -> Outcome<(usize, usize)> {
    match (first.len(), last.len()) {
        (4, 4) => narrow::put_blocks::<MASKS>(ipv4(first)?, ipv4(last)?, out),
        (16, 16) => wide::put_blocks::<MASKS>(ipv6(first)?, ipv6(last)?, out),
        (4, 16) | (16, 4) => Err(9),
        _ => Err(2),
    }
}

fn blocks_written(outcome: Outcome<(usize, usize)>) -> BlocksWritten {
    match outcome {
        Ok((blocks, bytes)) => BlocksWritten {
            refusal: 0,
            blocks,
            bytes,
        },
        Err(refusal) => BlocksWritten {
            refusal,
            blocks: 0,
            bytes: 0,
        },
    }
}

#[inline(never)]
pub fn range_blocks<const MASKS: bool>(first: &[u8], last: &[u8], out: &mut [u8]) -> BlocksWritten {
    blocks_written(try_range_blocks::<MASKS>(first, last, out))
}

#[inline(never)]
pub fn on_records<const MASKS: bool, const GATHER: bool>(
    records: &[u8],
    family: u32,
    out: &mut [u8],
) -> BlocksWritten {
    blocks_written(match family {
        4 => narrow::put_list::<MASKS, GATHER>(records, out),
        6 => wide::put_list::<MASKS, GATHER>(records, out),
        _ => Err(9),
    })
}
