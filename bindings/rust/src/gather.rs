use crate::lend::with_octets;
use crate::raw::BlocksWritten;
use crate::refusal::checked;
use crate::{exact, room, Block, Family, Records, Refusal, MOST_RECORDS};

/// Gathers blocks of one family into the fewest that cover the same addresses and no others.
///
/// There may be up to 512 blocks, which may overlap and stand in any order. What is answered rises by
/// address and never has more blocks. Of no blocks, which have no family either, it is none.
///
/// Refusals: [`WrongFamily`](Refusal::WrongFamily) where one block is IPv4 and another IPv6,
/// [`TooMany`](Refusal::TooMany).
///
/// ```
/// use nibharrow::{gather, Block, Refusal};
///
/// let pile: [Block; 4] = [
///     "10.0.0.6/31".parse()?,
///     "10.0.0.4/31".parse()?,
///     "10.0.0.0/30".parse()?,
///     "10.0.0.1/32".parse()?,
/// ];
/// assert_eq!(gather(&pile)?, ["10.0.0.0/29".parse()?]);
/// assert_eq!(gather(&[]), Ok(vec![]));
/// assert_eq!(gather(&["::/0".parse()?, pile[0]]), Err(Refusal::WrongFamily));
/// # Ok::<(), Refusal>(())
/// ```
pub fn gather(blocks: &[Block]) -> Result<Vec<Block>, Refusal> {
    let Some(first) = blocks.first() else {
        return Ok(Vec::new());
    };
    let records = records_of(first.family(), blocks)?;
    // A list is never longer gathered.
    let mut out = vec![0; records.len()];
    let gathered = gather_records(first.family(), &records, &mut out)?;
    Ok(gathered.blocks().collect())
}

/// Gathers a list as [`gather`] does, and writes the records to the start of `out`.
///
/// `records` is any bytes: the library judges whether they are records of blocks of the family, 4 or
/// 16 bytes of the address and one byte with the prefix length, end to end.
///
/// Refusals: [`WrongFamily`](Refusal::WrongFamily) for [`Family::Either`],
/// [`Malformed`](Refusal::Malformed) where the bytes are no whole number of records,
/// [`TooMany`](Refusal::TooMany), then what the first bad record has,
/// [`LengthTooLarge`](Refusal::LengthTooLarge) before
/// [`BitsBeyondLength`](Refusal::BitsBeyondLength), and [`NoRoom`](Refusal::NoRoom), never for a buffer
/// as long as the list or of [`room::GATHER_4`] or [`room::GATHER_6`] bytes.
///
/// ```
/// use nibharrow::{gather_records, Family, Refusal};
///
/// let pile = [10, 0, 0, 2, 31, 10, 0, 0, 0, 31];
/// let mut out = [0; 10];
/// let gathered = gather_records(Family::V4, &pile, &mut out)?;
/// assert_eq!(gathered.as_bytes(), [10, 0, 0, 0, 30]);
/// assert_eq!(gather_records(Family::V4, &pile[..9], &mut out), Err(Refusal::Malformed));
/// # Ok::<(), Refusal>(())
/// ```
pub fn gather_records<'a>(
    family: Family,
    records: &[u8],
    out: &'a mut [u8],
) -> Result<Records<'a>, Refusal> {
    list(exact::gather, family, records, out)
}

/// The fewest blocks that cover every address of the family which no block of a list covers, and no
/// others.
///
/// The list may have up to 512 blocks of the family, which may overlap and stand in any order. What is
/// answered rises by address. Of no blocks it is the one block of length 0, for which the family has to
/// be named, and of blocks that cover all it is none. Where it has at most 512 blocks, asking again of
/// it gives what [`gather`] gives of the list.
///
/// Refusals: [`WrongFamily`](Refusal::WrongFamily) where a block is not of the family, and for
/// [`Family::Either`]; [`TooMany`](Refusal::TooMany).
///
/// ```
/// use nibharrow::{gather, uncovered, Block, Family, Refusal};
///
/// let pile: [Block; 2] = ["192.0.0.0/2".parse()?, "64.0.0.0/2".parse()?];
/// let free = uncovered(Family::V4, &pile)?;
/// assert_eq!(free, ["0.0.0.0/2".parse()?, "128.0.0.0/2".parse()?]);
/// assert_eq!(uncovered(Family::V4, &free), gather(&pile));
/// assert_eq!(uncovered(Family::V6, &[])?, ["::/0".parse()?]);
/// assert_eq!(uncovered(Family::V6, &pile), Err(Refusal::WrongFamily));
/// # Ok::<(), Refusal>(())
/// ```
pub fn uncovered(family: Family, blocks: &[Block]) -> Result<Vec<Block>, Refusal> {
    let records = records_of(family, blocks)?;
    // More blocks are refused, and need no room.
    let count = blocks.len().min(MOST_RECORDS);
    let mut out = vec![0; room::uncovered(address_bytes(family), count)];
    let uncovered = uncovered_records(family, &records, &mut out)?;
    Ok(uncovered.blocks().collect())
}

/// Finds what a list does not cover as [`uncovered`] does, and writes the records to the start of
/// `out`.
///
/// `records` is any bytes, as in [`gather_records`].
///
/// Refusals: those of [`gather_records`]; [`NoRoom`](Refusal::NoRoom) never for a buffer of
/// [`room::UNCOVERED_4`] or [`room::UNCOVERED_6`] bytes.
///
/// ```
/// use nibharrow::{uncovered_records, Family, Refusal};
///
/// let mut out = [0; 10];
/// let free = uncovered_records(Family::V4, &[64, 0, 0, 0, 2], &mut out)?;
/// assert_eq!(free.as_bytes(), [0, 0, 0, 0, 2, 128, 0, 0, 0, 1]);
/// assert_eq!(uncovered_records(Family::V4, &[64, 0, 0, 0, 33], &mut out), Err(Refusal::LengthTooLarge));
/// # Ok::<(), Refusal>(())
/// ```
pub fn uncovered_records<'a>(
    family: Family,
    records: &[u8],
    out: &'a mut [u8],
) -> Result<Records<'a>, Refusal> {
    list(exact::uncovered, family, records, out)
}

/// What a call on records has written to `out`.
fn list<'a>(
    call: fn(&[u8], u32, &mut [u8]) -> BlocksWritten,
    family: Family,
    records: &[u8],
    out: &'a mut [u8],
) -> Result<Records<'a>, Refusal> {
    let written = checked(call(records, family as u32, out))?;
    Ok(Records::answered(
        &out[..written.bytes],
        address_bytes(family),
    ))
}

/// How many bytes an address of the family has. For `Either` any number does: such a list is refused.
fn address_bytes(family: Family) -> usize {
    match family {
        Family::V4 => 4,
        Family::V6 | Family::Either => 16,
    }
}

/// The blocks as records, if all of them are of the family.
fn records_of(family: Family, blocks: &[Block]) -> Result<Vec<u8>, Refusal> {
    let mut records = Vec::new();
    for block in blocks {
        if block.family() != family {
            return Err(Refusal::WrongFamily);
        }
        with_octets(block.address(), |octets| records.extend(octets));
        records.push(block.length());
    }
    Ok(records)
}
