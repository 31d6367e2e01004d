use std::net::Ipv4Addr;

use crate::lend::lend;
use crate::refusal::checked;
use crate::{exact, Refusal};

/// Reads the loose IPv4 form, as `inet_aton` does: one to four parts in hexadecimal (`0x7f`), octal
/// (`0177`) or decimal, of which the last fills the bytes that are left.
///
/// Refusals: [`TextTooLong`](Refusal::TextTooLong), [`Malformed`](Refusal::Malformed).
///
/// ```
/// use nibharrow::{read_loose, Refusal};
///
/// assert_eq!(read_loose("010.0.0.12")?.octets(), [8, 0, 0, 12]);
/// assert_eq!(read_loose("0x7f.1")?.octets(), [127, 0, 0, 1]);
/// assert_eq!(read_loose("1.2.65535")?.octets(), [1, 2, 255, 255]);
/// assert_eq!(read_loose("1.2.65536"), Err(Refusal::Malformed));
/// # Ok::<(), Refusal>(())
/// ```
pub fn read_loose(text: impl AsRef<[u8]>) -> Result<Ipv4Addr, Refusal> {
    let (octets, _) = lend::<4, _>(|out| checked(exact::read_loose(text.as_ref(), out)))?;
    Ok(octets.into())
}
