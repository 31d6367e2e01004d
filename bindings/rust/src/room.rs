//! Room that always suffices, in bytes: the constants of the header without their prefix.

use crate::{MOST_LINES, MOST_RECORDS};

/// The bytes of an address.
pub const ADDRESS: usize = 16;
/// The text of an address.
pub const TEXT: usize = 39;
/// The bytes of a network.
pub const NETWORK: usize = 4;
/// The text of a network.
pub const NETWORK_TEXT: usize = 18;
/// The text of a block.
pub const BLOCK_TEXT: usize = 43;
/// The records of a range of IPv4 addresses: 62 of 5 bytes.
pub const RANGE_4: usize = 310;
/// The records of a range of IPv6 addresses: 254 of 17 bytes.
pub const RANGE_6: usize = 4318;
/// The records of a gathered list of IPv4: 512 of 5 bytes. As many bytes as the list has suffice
/// too, since it is never longer gathered.
pub const GATHER_4: usize = 2560;
/// The records of a gathered list of IPv6: 512 of 17 bytes. As many bytes as the list has suffice
/// too, since it is never longer gathered.
pub const GATHER_6: usize = 8704;
/// What a list of IPv4 does not cover: at most 15,873 records of 5 bytes.
pub const UNCOVERED_4: usize = uncovered(4, MOST_RECORDS);
/// What a list of IPv6 does not cover: at most 65,025 records of 17 bytes.
pub const UNCOVERED_6: usize = uncovered(16, MOST_RECORDS);
/// A sheet that is written: 1,024 lines of at most 52 bytes.
pub const SHEET: usize = sheet(MOST_LINES);
/// The text of a refusal.
pub const REFUSAL_TEXT: usize = 54;

/// What so many blocks do not cover, of addresses of so many bytes: all, which is one block, and each
/// of the list takes one apart, into as many as an address has bits at most.
pub(crate) const fn uncovered(address: usize, blocks: usize) -> usize {
    (1 + blocks * (8 * address - 1)) * (address + 1)
}

/// So many lines of a sheet: an address of 39 bytes, a volume of 6, a pH of 4, two commas and the
/// newline at most.
pub(crate) const fn sheet(lines: usize) -> usize {
    lines * (TEXT + 6 + 4 + 3)
}
