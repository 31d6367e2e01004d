//! Buffers lent to a call, and what is in them afterwards.

use std::net::IpAddr;
use std::str;

use crate::raw::Written;
use crate::refusal::Refusal;

/// Lends `call` a buffer of `ROOM` zeros and gives it back with the answer.
pub(crate) fn lend<const ROOM: usize, A>(
    call: impl FnOnce(&mut [u8]) -> Result<A, Refusal>,
) -> Result<([u8; ROOM], A), Refusal> {
    let mut out = [0; ROOM];
    let answer = call(&mut out)?;
    Ok((out, answer))
}

/// Lends `out` to `write` and gives the text that it has written.
pub(crate) fn text_in(
    out: &mut [u8],
    write: impl FnOnce(&mut [u8]) -> Result<Written, Refusal>,
) -> Result<&str, Refusal> {
    let written = write(out)?;
    // `bytes` is promised to count bytes at the start of `out`, and every text that the library
    // writes is ASCII.
    let text = str::from_utf8(&out[..written.bytes]);
    Ok(text.unwrap_or_else(|_| unreachable!("the library writes ASCII")))
}

/// Lends the 4 or 16 bytes of an address.
pub(crate) fn with_octets<T>(address: IpAddr, lend: impl FnOnce(&[u8]) -> T) -> T {
    match address {
        IpAddr::V4(address) => lend(&address.octets()),
        IpAddr::V6(address) => lend(&address.octets()),
    }
}

/// The address that the library has put into `octets`.
pub(crate) fn address_of(octets: &[u8]) -> IpAddr {
    if let Ok(octets) = <[u8; 4]>::try_from(octets) {
        octets.into()
    } else if let Ok(octets) = <[u8; 16]>::try_from(octets) {
        octets.into()
    } else {
        // The header promises 4 or 16 bytes.
        unreachable!("an address of {} bytes", octets.len())
    }
}

/// The good answer of a call that `promise` of the library keeps from being refused.
pub(crate) fn granted<T>(answer: Result<T, Refusal>, promise: &str) -> T {
    // `Debug`, since `Display` of a refusal calls the library again.
    answer.unwrap_or_else(|refusal| unreachable!("{promise}, yet the answer is {refusal:?}"))
}
