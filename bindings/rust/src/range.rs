use std::net::IpAddr;

use crate::lend::with_octets;
use crate::refusal::checked;
use crate::{exact, room, Block, Records, Refusal};

/// Turns the range from `first` to `last`, both inclusive, into the fewest blocks that cover it and
/// nothing else.
///
/// There are at most 62 blocks for IPv4 and 254 for IPv6, and they rise by address.
///
/// Refusals: [`WrongFamily`](Refusal::WrongFamily) where one end is IPv4 and the other IPv6,
/// [`FirstAboveLast`](Refusal::FirstAboveLast).
///
/// ```
/// use nibharrow::{range_blocks, Refusal};
///
/// let all = range_blocks([0, 0, 0, 0].into(), [255, 255, 255, 255].into())?;
/// assert_eq!(all, ["0.0.0.0/0".parse()?]);
/// # Ok::<(), Refusal>(())
/// ```
pub fn range_blocks(first: IpAddr, last: IpAddr) -> Result<Vec<Block>, Refusal> {
    let records = |out: &mut [u8]| Ok(range_records(first, last, out)?.blocks().collect());
    match first {
        IpAddr::V4(_) => records(&mut [0; room::RANGE_4]),
        IpAddr::V6(_) => records(&mut [0; room::RANGE_6]),
    }
}

/// Turns a range into blocks as [`range_blocks`] does, and writes them as records to the start of
/// `out`.
///
/// Refusals: [`WrongFamily`](Refusal::WrongFamily), [`FirstAboveLast`](Refusal::FirstAboveLast),
/// and [`NoRoom`](Refusal::NoRoom), never for a buffer of [`room::RANGE_4`] or [`room::RANGE_6`]
/// bytes.
///
/// ```
/// use nibharrow::{range_records, room, Refusal};
///
/// let mut out = [0; room::RANGE_4];
/// let records = range_records([10, 0, 0, 1].into(), [10, 0, 0, 3].into(), &mut out)?;
/// assert_eq!(records.as_bytes(), [10, 0, 0, 1, 32, 10, 0, 0, 2, 31]);
/// assert_eq!(records.blocks().len(), 2);
/// # Ok::<(), Refusal>(())
/// ```
pub fn range_records(first: IpAddr, last: IpAddr, out: &mut [u8]) -> Result<Records<'_>, Refusal> {
    let written = with_octets(first, |first| {
        with_octets(last, |last| checked(exact::range_blocks(first, last, out)))
    })?;
    let address = with_octets(first, <[u8]>::len);
    Ok(Records::answered(&out[..written.bytes], address))
}
