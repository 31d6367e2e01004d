//! The sizes of `room` always suffice, and the longest answers need all of them. Of what a list does
//! not cover no list is known that leaves as much as there is room for.

use std::net::{IpAddr, Ipv4Addr, Ipv6Addr};

use nibharrow::*;

/// Checks that a text fills a buffer of `room` bytes, and has no room in one byte less.
fn fills(room: usize, text: &str, write: impl Fn(&mut [u8]) -> Result<&str, Refusal>) {
    assert_eq!(text.len(), room);
    assert_eq!(write(&mut vec![0; room]), Ok(text));
    assert_eq!(write(&mut vec![0; room - 1]), Err(Refusal::NoRoom));
}

const LAST_4: Ipv4Addr = Ipv4Addr::BROADCAST;
const LAST_6: Ipv6Addr = Ipv6Addr::from_bits(u128::MAX);

#[test]
fn longest_texts() {
    let text = "ffff:ffff:ffff:ffff:ffff:ffff:ffff:ffff";
    fills(room::TEXT, text, |out| {
        write_address_into(LAST_6.into(), out)
    });

    let network = "255.255.255.255/32";
    fills(room::NETWORK_TEXT, network, |out| {
        write_network_into(LAST_4, 32, out)
    });

    let block = Block::new(LAST_6.into(), 128).unwrap();
    fills(room::BLOCK_TEXT, &format!("{text}/128"), |out| {
        write_block_into(block, out)
    });
}

#[test]
fn longest_words() {
    let lengths = (1..=10).map(|number| Refusal::from_number(number).unwrap().to_string().len());
    assert_eq!(lengths.max(), Some(room::REFUSAL_TEXT));
}

#[test]
fn longest_bytes() {
    assert_eq!(read_ipv6("::1").unwrap().octets().len(), room::ADDRESS);
    assert_eq!(
        read_network("255.255.255.255").unwrap().octets().len(),
        room::NETWORK
    );
}

/// Checks that a range fills a buffer of `room` bytes with `blocks` records, and has no room in one
/// byte less.
fn range_fills(room: usize, blocks: usize, first: IpAddr, last: IpAddr) {
    let mut out = vec![0; room];
    let records = range_records(first, last, &mut out).unwrap();
    assert_eq!(records.as_bytes().len(), room);
    assert_eq!(records.blocks().len(), blocks);
    assert_eq!(range_blocks(first, last).unwrap().len(), blocks);
    assert_eq!(
        range_records(first, last, &mut vec![0; room - 1]),
        Err(Refusal::NoRoom)
    );
}

#[test]
fn longest_ranges() {
    let first_4 = Ipv4Addr::from_bits(1).into();
    let last_4 = Ipv4Addr::from_bits(u32::MAX - 1).into();
    range_fills(room::RANGE_4, 62, first_4, last_4);

    let first_6 = Ipv6Addr::from_bits(1).into();
    let last_6 = Ipv6Addr::from_bits(u128::MAX - 1).into();
    range_fills(room::RANGE_6, 254, first_6, last_6);
}

/// Records of as many single addresses as a list may have, the last of each equal part of the
/// addresses.
fn spread(octets: usize) -> Vec<u8> {
    let mut list = Vec::new();
    for part in 0..MOST_RECORDS as u128 {
        // The number of the part in the first nine bits, and ones behind them.
        let address = (part << 119 | u128::MAX >> 9) >> (128 - 8 * octets);
        list.extend(&address.to_be_bytes()[16 - octets..]);
        list.push(8 * octets as u8);
    }
    list
}

#[test]
fn longest_gathered_lists() {
    for (family, octets, room) in [
        (Family::V4, 4, room::GATHER_4),
        (Family::V6, 16, room::GATHER_6),
    ] {
        let list = spread(octets);
        assert_eq!(list.len(), room);
        let mut out = vec![0; room];
        let gathered = gather_records(family, &list, &mut out).unwrap();
        assert_eq!(gathered.as_bytes(), list);
        assert_eq!(
            gather_records(family, &list, &mut vec![0; room - 1]),
            Err(Refusal::NoRoom)
        );
    }
}

/// One address leaves a block of each length but 0. Each of 512 that lie apart leaves one of each
/// length from 10.
#[test]
fn longest_uncovered_lists() {
    for (family, octets, room) in [
        (Family::V4, 4, room::UNCOVERED_4),
        (Family::V6, 16, room::UNCOVERED_6),
    ] {
        let (list, bits, record) = (spread(octets), 8 * octets, octets + 1);
        let mut out = vec![0; room];
        let uncovered = uncovered_records(family, &list[..record], &mut out).unwrap();
        assert_eq!(uncovered.blocks().len(), bits);
        let uncovered = uncovered_records(family, &list, &mut out).unwrap();
        assert_eq!(uncovered.blocks().len(), MOST_RECORDS * (bits - 9));
        // As blocks, in room for as many as so many leave.
        let blocks = gather_records(family, &list, &mut out).unwrap().blocks();
        let blocks: Vec<Block> = blocks.collect();
        for count in [1, 2, 3, MOST_RECORDS - 1, MOST_RECORDS] {
            assert!(nibharrow::uncovered(family, &blocks[..count]).is_ok());
        }
    }
}

#[test]
fn longest_sheets() {
    let line = format!("{LAST_6},999999,1400\n");
    let sheet = line.repeat(MOST_LINES).into_bytes();
    assert_eq!(sheet.len(), room::SHEET);
    for sorted in [false, true] {
        assert_eq!(respell(&sheet, sorted).as_ref(), Ok(&sheet));
        let mut out = vec![0; room::SHEET];
        assert_eq!(respell_into(&sheet, sorted, &mut out), Ok(&sheet[..]));
        assert_eq!(
            respell_into(&sheet, sorted, &mut out[1..]),
            Err(Refusal::NoRoom)
        );
    }
}

/// A line may be longer respelled, and `respell` has room for it all the same.
#[test]
fn sheets_that_grow() {
    let sheet = "1::2:3:4:5:6:7,1,0\n".repeat(MOST_LINES);
    let grown = "1:0:2:3:4:5:6:7,1,0\n".repeat(MOST_LINES);
    assert_eq!(respell(sheet, true), Ok(grown.into_bytes()));
}
