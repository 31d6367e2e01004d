use std::fmt;
use std::net::IpAddr;
use std::str::FromStr;

use crate::lend::{address_of, granted, lend, text_in, with_octets};
use crate::refusal::checked;
use crate::{exact, room, Family, Refusal};

/// A block: an address and a prefix length, where the address has no one bit beyond the length.
///
/// Its text is strict text of an address, a slash and the length:
///
/// ```
/// use nibharrow::{Block, Refusal};
///
/// let block: Block = "2001:DB8::/32".parse()?;
/// assert_eq!(block.to_string(), "2001:db8::/32");
/// assert_eq!("10.0.0.1/31".parse::<Block>(), Err(Refusal::BitsBeyondLength));
/// assert_eq!("10.0.0.0/33".parse::<Block>(), Err(Refusal::LengthTooLarge));
/// # Ok::<(), Refusal>(())
/// ```
#[derive(Clone, Copy, Debug, PartialEq, Eq, Hash)]
pub struct Block {
    address: IpAddr,
    length: u8,
}

impl Block {
    /// The block of an address and a prefix length.
    ///
    /// Refusals: [`LengthTooLarge`](Refusal::LengthTooLarge),
    /// [`BitsBeyondLength`](Refusal::BitsBeyondLength).
    ///
    /// ```
    /// use nibharrow::{Block, Refusal};
    ///
    /// assert!(Block::new([10, 0, 0, 0].into(), 31).is_ok());
    /// assert_eq!(Block::new([10, 0, 0, 1].into(), 31), Err(Refusal::BitsBeyondLength));
    /// ```
    pub fn new(address: IpAddr, length: u8) -> Result<Self, Refusal> {
        let block = Self { address, length };
        // The library judges, so that the rules of blocks are not written a second time here: it
        // writes the text of a block only if both hold.
        write_block_into(block, &mut [0; room::BLOCK_TEXT])?;
        Ok(block)
    }

    /// A block as the library has answered it. It answers none that breaks a rule of blocks.
    pub(crate) fn answered(octets: &[u8], length: u8) -> Self {
        Self {
            address: address_of(octets),
            length,
        }
    }

    /// The first address of the block.
    pub fn address(&self) -> IpAddr {
        self.address
    }

    /// The prefix length in bits, at most 32 for IPv4 and 128 for IPv6.
    pub fn length(&self) -> u8 {
        self.length
    }

    /// The family of the block, which is not [`Family::Either`].
    pub fn family(&self) -> Family {
        match self.address {
            IpAddr::V4(_) => Family::V4,
            IpAddr::V6(_) => Family::V6,
        }
    }

    /// Whether the block covers an address: one of its family whose first bits, as many as the
    /// length, are its own.
    ///
    /// The library has no such call; this is Rust of the crate, and not proved.
    ///
    /// ```
    /// use nibharrow::{Block, Refusal};
    ///
    /// let block: Block = "10.0.0.4/31".parse()?;
    /// assert!(block.contains([10, 0, 0, 5].into()));
    /// assert!(!block.contains([10, 0, 0, 6].into()));
    /// # Ok::<(), Refusal>(())
    /// ```
    pub fn contains(&self, address: IpAddr) -> bool {
        // Bits counted, not shifted out: a shift by all bits, for length 0, has no meaning.
        let shared = match (self.address, address) {
            (IpAddr::V4(own), IpAddr::V4(other)) => {
                (u32::from(own) ^ u32::from(other)).leading_zeros()
            }
            (IpAddr::V6(own), IpAddr::V6(other)) => {
                (u128::from(own) ^ u128::from(other)).leading_zeros()
            }
            _ => return false,
        };
        shared >= u32::from(self.length)
    }
}

/// Writes the text of the block: the normal text of its address, a slash and its length.
impl fmt::Display for Block {
    fn fmt(&self, f: &mut fmt::Formatter<'_>) -> fmt::Result {
        let mut out = [0; room::BLOCK_TEXT];
        let text = write_block_into(*self, &mut out);
        f.pad(granted(text, "43 bytes suffice for the text of any block"))
    }
}

/// Reads the text of a block, by [`read_block`].
impl FromStr for Block {
    type Err = Refusal;

    fn from_str(text: &str) -> Result<Self, Refusal> {
        read_block(text)
    }
}

/// Reads the text of a block: strict text of an address of either family, a slash and a prefix
/// length.
///
/// Refusals: [`TextTooLong`](Refusal::TextTooLong), [`Malformed`](Refusal::Malformed),
/// [`LengthTooLarge`](Refusal::LengthTooLarge), [`BitsBeyondLength`](Refusal::BitsBeyondLength).
pub fn read_block(text: impl AsRef<[u8]>) -> Result<Block, Refusal> {
    let (octets, read) =
        lend::<{ room::ADDRESS }, _>(|out| checked(exact::read_block(text.as_ref(), out)))?;
    // A length above 128 is refused, so no bit is lost.
    Ok(Block::answered(&octets[..read.bytes], read.length as u8))
}

/// Writes the text of a block to the start of `out`. With `to_string` the block is written to a
/// `String`.
///
/// Refusals: [`NoRoom`](Refusal::NoRoom), never for a buffer of [`room::BLOCK_TEXT`] bytes.
pub fn write_block_into(block: Block, out: &mut [u8]) -> Result<&str, Refusal> {
    text_in(out, |out| {
        with_octets(block.address, |octets| {
            checked(exact::write_block(octets, block.length.into(), out))
        })
    })
}
