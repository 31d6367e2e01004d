use crate::{uncovered_records, Block, Family, Refusal};

/// The most blocks that a list may have which is handed to a call. What a call answers may have more.
pub const MOST_RECORDS: usize = 512;

/// Blocks of one family as the library writes them: records of 4 or 16 bytes of the address and one
/// byte with the prefix length, in rising order, end to end.
#[derive(Clone, Copy, Debug, PartialEq, Eq)]
pub struct Records<'a> {
    bytes: &'a [u8],
    // How many bytes the address of each record has.
    address: usize,
}

impl<'a> Records<'a> {
    /// Records as the library has answered them. It answers none that breaks a rule of blocks.
    pub(crate) fn answered(bytes: &'a [u8], address: usize) -> Self {
        Self { bytes, address }
    }

    /// The bytes of all records.
    pub fn as_bytes(self) -> &'a [u8] {
        self.bytes
    }

    /// The family of all records, which is not [`Family::Either`].
    pub fn family(self) -> Family {
        match self.address {
            4 => Family::V4,
            _ => Family::V6,
        }
    }

    /// The block of each record.
    pub fn blocks(self) -> impl ExactSizeIterator<Item = Block> + DoubleEndedIterator + 'a {
        self.bytes
            .chunks_exact(self.address + 1)
            .map(move |record| Block::answered(&record[..self.address], record[self.address]))
    }

    /// Writes what the records do not cover to the start of `out`, as [`uncovered_records`] does.
    /// There is no such method that gathers, since all records are gathered already.
    ///
    /// Refusals: [`TooMany`](Refusal::TooMany), [`NoRoom`](Refusal::NoRoom).
    ///
    /// ```
    /// use nibharrow::{range_records, Refusal};
    ///
    /// let (mut range, mut outside) = ([0; 5], [0; 5]);
    /// let upper_half = range_records([128, 0, 0, 0].into(), [255, 255, 255, 255].into(), &mut range)?;
    /// assert_eq!(upper_half.uncovered(&mut outside)?.as_bytes(), [0, 0, 0, 0, 1]);
    /// # Ok::<(), Refusal>(())
    /// ```
    pub fn uncovered(self, out: &mut [u8]) -> Result<Records<'_>, Refusal> {
        uncovered_records(self.family(), self.bytes, out)
    }
}
