use std::net::Ipv4Addr;

use crate::lend::{lend, text_in};
use crate::refusal::checked;
use crate::{exact, room, Refusal};

/// A network of IPv4 as [`read_network`] reads it: a size in bits, and one to four bytes.
#[derive(Clone, Copy, Debug, PartialEq, Eq, Hash)]
pub struct Network {
    size: u8,
    octets: [u8; room::NETWORK],
    // How many of `octets` were read. The others are 0, so that the derived comparison is of what
    // was read.
    bytes: usize,
}

impl Network {
    /// The size in bits, 0 to 32.
    pub fn size(&self) -> u8 {
        self.size
    }

    /// The bytes of the network, one to four. Bits beyond the size stay as the text has them.
    pub fn octets(&self) -> &[u8] {
        &self.octets[..self.bytes]
    }

    /// The bytes of the network, filled with zeros to four.
    pub fn address(&self) -> Ipv4Addr {
        self.octets.into()
    }
}

/// Reads the network form of IPv4, as `inet_net_pton` does: `0x` and one to eight hex digits, or
/// one to four strict decimal parts; then, if wished, a slash and a size in bits. With no size, it
/// is inferred from the first byte.
///
/// Refusals: [`TextTooLong`](Refusal::TextTooLong), [`Malformed`](Refusal::Malformed),
/// [`LengthTooLarge`](Refusal::LengthTooLarge).
///
/// ```
/// use nibharrow::{read_network, write_network, Refusal};
///
/// let network = read_network("193.168")?;
/// assert_eq!((network.size(), network.octets()), (24, &[193, 168, 0][..]));
///
/// let network = read_network("193.168.1.128/24")?;
/// assert_eq!((network.size(), network.octets()), (24, &[193, 168, 1, 128][..]));
/// assert_eq!(write_network(network.address(), network.size())?, "193.168.1/24");
/// # Ok::<(), Refusal>(())
/// ```
pub fn read_network(text: impl AsRef<[u8]>) -> Result<Network, Refusal> {
    let (octets, read) = lend(|out| checked(exact::read_network(text.as_ref(), out)))?;
    Ok(Network {
        // A size above 32 is refused, so no bit is lost.
        size: read.size as u8,
        octets,
        bytes: read.bytes,
    })
}

/// Writes the network form of an address and a size: the bytes that the size reaches into, in
/// decimal with the bits beyond the size cleared, a slash and the size.
///
/// Refusals: [`LengthTooLarge`](Refusal::LengthTooLarge) for a size above 32.
///
/// ```
/// use nibharrow::{write_network, Refusal};
///
/// assert_eq!(write_network([224, 1, 0, 0].into(), 4)?, "224/4");
/// assert_eq!(write_network([224, 1, 0, 0].into(), 33), Err(Refusal::LengthTooLarge));
/// # Ok::<(), Refusal>(())
/// ```
pub fn write_network(address: Ipv4Addr, size: u8) -> Result<String, Refusal> {
    let mut out = [0; room::NETWORK_TEXT];
    write_network_into(address, size, &mut out).map(str::to_owned)
}

/// Writes the network form of an address and a size to the start of `out`, as [`write_network`]
/// does.
///
/// Refusals: [`LengthTooLarge`](Refusal::LengthTooLarge), and [`NoRoom`](Refusal::NoRoom), never
/// for a buffer of [`room::NETWORK_TEXT`] bytes.
pub fn write_network_into(address: Ipv4Addr, size: u8, out: &mut [u8]) -> Result<&str, Refusal> {
    text_in(out, |out| {
        checked(exact::write_network(&address.octets(), size.into(), out))
    })
}
