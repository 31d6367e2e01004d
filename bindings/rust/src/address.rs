use std::net::{IpAddr, Ipv4Addr, Ipv6Addr};

use crate::lend::{address_of, granted, lend, text_in, with_octets};
use crate::raw::Written;
use crate::refusal::checked;
use crate::{exact, room, Refusal};

/// Which addresses [`read_address_of`] takes, and of which family a list of blocks is.
#[derive(Clone, Copy, Debug, Default, PartialEq, Eq, Hash)]
pub enum Family {
    /// IPv4 and IPv6. No text is both, since only IPv6 text has a colon. No list is of either.
    #[default]
    Either = 0,
    /// IPv4 alone.
    V4 = 4,
    /// IPv6 alone.
    V6 = 6,
}

/// Reads strict text of an address of either family.
///
/// IPv4 is four decimal parts of 0 to 255 with no leading zero. IPv6 is RFC 4291 section 2.2, with
/// a dotted IPv4 tail if wished. Zones (`%eth0`), ports and brackets are refused.
///
/// Refusals: [`TextTooLong`](Refusal::TextTooLong), [`Malformed`](Refusal::Malformed).
///
/// ```
/// use nibharrow::{read_address, write_address, Refusal};
///
/// assert_eq!(read_address("010.0.0.12"), Err(Refusal::Malformed));
/// assert_eq!(write_address(read_address("1:2:3:4:5:6:7::")?), "1:2:3:4:5:6:7:0");
/// // Here `::` would stand for no group at all.
/// assert_eq!(read_address("1:2:3:4:5:6:7:8::"), Err(Refusal::Malformed));
/// # Ok::<(), Refusal>(())
/// ```
pub fn read_address(text: impl AsRef<[u8]>) -> Result<IpAddr, Refusal> {
    read_address_of(Family::Either, text)
}

/// Reads strict text as [`read_address`] does, of a family that is chosen as the program runs.
///
/// Refusals: [`TextTooLong`](Refusal::TextTooLong), and [`Malformed`](Refusal::Malformed) for text
/// of the other family too.
pub fn read_address_of(family: Family, text: impl AsRef<[u8]>) -> Result<IpAddr, Refusal> {
    let (octets, written) = read_octets::<{ room::ADDRESS }>(family, text.as_ref())?;
    Ok(address_of(&octets[..written.bytes]))
}

/// Reads strict text of an IPv4 address.
///
/// Refusals: [`TextTooLong`](Refusal::TextTooLong), [`Malformed`](Refusal::Malformed).
pub fn read_ipv4(text: impl AsRef<[u8]>) -> Result<Ipv4Addr, Refusal> {
    let (octets, _) = read_octets::<4>(Family::V4, text.as_ref())?;
    Ok(octets.into())
}

/// Reads strict text of an IPv6 address.
///
/// Refusals: [`TextTooLong`](Refusal::TextTooLong), [`Malformed`](Refusal::Malformed).
pub fn read_ipv6(text: impl AsRef<[u8]>) -> Result<Ipv6Addr, Refusal> {
    let (octets, _) = read_octets::<16>(Family::V6, text.as_ref())?;
    Ok(octets.into())
}

/// Reads strict text into a buffer that has room for any address of the family.
fn read_octets<const ROOM: usize>(
    family: Family,
    text: &[u8],
) -> Result<([u8; ROOM], Written), Refusal> {
    lend(|out| checked(exact::read_address(text, family as u32, out)))
}

/// Writes the normal text of an address: dotted decimal, or RFC 5952 section 4.
///
/// The dotted tail is never written, so the text of an IPv4-mapped address is not the one that
/// `IpAddr` displays.
///
/// ```
/// use nibharrow::{read_address, write_address, Refusal};
///
/// let mapped = read_address("0:0:0:0:0:FFFF:204.152.189.116")?;
/// assert_eq!(write_address(mapped), "::ffff:cc98:bd74");
/// # Ok::<(), Refusal>(())
/// ```
pub fn write_address(address: IpAddr) -> String {
    let mut out = [0; room::TEXT];
    granted(
        write_address_into(address, &mut out),
        "39 bytes suffice for the text of any address",
    )
    .to_owned()
}

/// Writes the normal text of an address to the start of `out`.
///
/// Refusals: [`NoRoom`](Refusal::NoRoom), never for a buffer of [`room::TEXT`] bytes.
///
/// ```
/// use nibharrow::{room, write_address_into, Refusal};
///
/// let mut out = [0; room::TEXT];
/// assert_eq!(write_address_into([10, 0, 0, 12].into(), &mut out), Ok("10.0.0.12"));
/// assert_eq!(write_address_into([10, 0, 0, 12].into(), &mut out[..8]), Err(Refusal::NoRoom));
/// ```
pub fn write_address_into(address: IpAddr, out: &mut [u8]) -> Result<&str, Refusal> {
    text_in(out, |out| {
        with_octets(address, |octets| checked(exact::write_address(octets, out)))
    })
}
