//! Every call on both sides: what it accepts, and each refusal it can give.

use std::net::{IpAddr, Ipv4Addr, Ipv6Addr};

use nibharrow::Refusal::*;
use nibharrow::*;

fn v4(text: &str) -> Ipv4Addr {
    read_ipv4(text).unwrap()
}

fn ip(text: &str) -> IpAddr {
    read_address(text).unwrap()
}

fn block(text: &str) -> Block {
    text.parse().unwrap()
}

/// Text of 64 bytes is read, if only to find it malformed; text of 65 is not.
fn checks_text<T: std::fmt::Debug + PartialEq>(read: impl Fn(&[u8]) -> Result<T, Refusal>) {
    assert_eq!(read(&[b'f'; 64]), Err(Malformed));
    assert_eq!(read(&[b'f'; 65]), Err(TextTooLong));
    for text in [
        &b""[..],
        b" ",
        b"\0",
        b"\xff",
        b"1.2.3.4\0",
        b" 1.2.3.4",
        b"1.2.3.4 ",
        b"1.2.3.4\n",
    ] {
        assert_eq!(read(text), Err(Malformed), "{text:?}");
    }
}

/// A text goes to the start of a buffer that has room, and later bytes stay. No byte changes in one
/// that has none.
fn checks_room(text: &str, write: impl Fn(&mut [u8]) -> Result<&str, Refusal>) {
    let mut out = [b'?'; 64];
    assert_eq!(write(&mut out[..text.len()]), Ok(text));
    let mut out = [b'?'; 64];
    assert_eq!(write(&mut out), Ok(text));
    assert!(out[text.len()..].iter().all(|byte| *byte == b'?'));
    let mut out = [b'?'; 64];
    assert_eq!(write(&mut out[..text.len() - 1]), Err(NoRoom));
    assert_eq!(write(&mut []), Err(NoRoom));
    assert_eq!(out, [b'?'; 64]);
}

#[test]
fn refusals() {
    for number in 1..=10 {
        let refusal = Refusal::from_number(number).unwrap();
        assert_eq!(refusal.number(), number);
    }
    for number in [0, 11, 256 + 2, u32::MAX] {
        assert_eq!(Refusal::from_number(number), None);
    }
    let error: Box<dyn std::error::Error> = Box::new(FirstAboveLast);
    assert_eq!(error.to_string(), "the first address is above the last");
    assert_eq!(format!("{NoRoom:.10}|"), "the buffer|");
}

#[test]
fn reading_addresses() {
    assert_eq!(
        read_address("10.0.0.12"),
        Ok(Ipv4Addr::new(10, 0, 0, 12).into())
    );
    assert_eq!(read_address("::1"), Ok(Ipv6Addr::LOCALHOST.into()));
    assert_eq!(
        read_address(b"255.255.255.255"),
        Ok(Ipv4Addr::BROADCAST.into())
    );
    assert_eq!(
        read_address(String::from("::")),
        Ok(Ipv6Addr::UNSPECIFIED.into())
    );
    for text in [
        "010.0.0.12",
        "1.2.3",
        "1.2.3.4.5",
        "1.2.3.256",
        "1..2.3",
        "0x7f.0.0.1",
        "1.2.3.4:80",
        "1.2.3.4/32",
        "1:2:3:4:5:6:7:8::",
        "1:2:3:4:5:6:7",
        ":::",
        "1::2::3",
        "12345::",
        "g::",
        "fe80::1%eth0",
        "[::1]",
        "::1.2.3",
    ] {
        assert_eq!(read_address(text), Err(Malformed), "{text}");
    }
    checks_text(|text| read_address(text));
}

#[test]
fn reading_addresses_of_a_family() {
    let (four, six) = ("10.0.0.12", "2001:db8::1");
    assert_eq!(Family::default(), Family::Either);
    assert_eq!(read_address_of(Family::Either, four), Ok(ip(four)));
    assert_eq!(read_address_of(Family::Either, six), Ok(ip(six)));
    assert_eq!(read_address_of(Family::V4, four), Ok(ip(four)));
    assert_eq!(read_address_of(Family::V4, six), Err(Malformed));
    assert_eq!(read_address_of(Family::V6, four), Err(Malformed));
    assert_eq!(read_address_of(Family::V6, six), Ok(ip(six)));

    assert_eq!(read_ipv4(four), Ok(Ipv4Addr::new(10, 0, 0, 12)));
    assert_eq!(read_ipv4(six), Err(Malformed));
    assert_eq!(
        read_ipv6(six),
        Ok(Ipv6Addr::new(0x2001, 0xdb8, 0, 0, 0, 0, 0, 1))
    );
    assert_eq!(read_ipv6(four), Err(Malformed));
    checks_text(|text| read_address_of(Family::V6, text));
    checks_text(|text| read_ipv4(text));
    checks_text(|text| read_ipv6(text));
}

#[test]
fn writing_addresses() {
    for (text, normal) in [
        ("10.0.0.12", "10.0.0.12"),
        ("1:2:3:4:5:6:7::", "1:2:3:4:5:6:7:0"),
        ("0:0:0:0:0:FFFF:204.152.189.116", "::ffff:cc98:bd74"),
        ("2001:db8:0:0:1:0:0:1", "2001:db8::1:0:0:1"),
        ("::", "::"),
    ] {
        assert_eq!(write_address(ip(text)), normal);
        checks_room(normal, |out| write_address_into(ip(text), out));
    }
}

#[test]
fn reading_the_loose_form() {
    for (text, address) in [
        ("010.0.0.12", [8, 0, 0, 12]),
        ("226.000.000.037", [226, 0, 0, 31]),
        ("0x7f.1", [127, 0, 0, 1]),
        ("1.2.65535", [1, 2, 255, 255]),
        ("0", [0, 0, 0, 0]),
        ("4294967295", [255, 255, 255, 255]),
    ] {
        assert_eq!(read_loose(text), Ok(address.into()), "{text}");
    }
    for text in [
        "1.2.65536",
        "08.0.0.1",
        "0x",
        "4294967296",
        "1.2.3.4.5",
        "256.1",
    ] {
        assert_eq!(read_loose(text), Err(Malformed), "{text}");
    }
    checks_text(|text| read_loose(text));
}

#[test]
fn reading_networks() {
    for (text, size, octets, written) in [
        ("193.168", 24, &[193, 168, 0][..], "193.168.0/24"),
        ("193.168.1.128/24", 24, &[193, 168, 1, 128], "193.168.1/24"),
        ("224.1", 4, &[224, 1], "224/4"),
        ("0xabc", 16, &[0xab, 0xc0], "171.192/16"),
        ("10/0", 0, &[10], "0/0"),
    ] {
        let network = read_network(text).unwrap();
        assert_eq!((network.size(), network.octets()), (size, octets), "{text}");
        assert_eq!(
            write_network(network.address(), network.size()).as_deref(),
            Ok(written)
        );
    }
    assert_eq!(read_network("10"), read_network("10/8"));
    assert_ne!(read_network("10"), read_network("10.0/8"));
    assert_eq!(read_network("10/33"), Err(LengthTooLarge));
    assert_eq!(read_network("10/08"), Err(Malformed));
    checks_text(|text| read_network(text));
}

#[test]
fn writing_networks() {
    let address = v4("193.168.1.128");
    checks_room("193.168.1/24", |out| write_network_into(address, 24, out));
    for size in [33, 255] {
        assert_eq!(write_network(address, size), Err(LengthTooLarge));
        // Room is what a call asks about last.
        assert_eq!(
            write_network_into(address, size, &mut []),
            Err(LengthTooLarge)
        );
    }
}

#[test]
fn classes() {
    for (address, network, host) in [
        ("0.0.0.0", 0, 0),
        ("127.255.255.255", 127, 16_777_215),
        ("128.0.0.0", 32_768, 0),
        ("191.255.255.255", 49_151, 65_535),
        ("192.0.0.0", 12_582_912, 0),
        ("223.255.255.255", 14_680_063, 255),
    ] {
        assert_eq!(split(v4(address)), Ok((network, host)));
        assert_eq!(join(network, host), Ok(v4(address)));
    }
    assert_eq!(split(v4("224.0.0.0")), Err(NoClass));
    assert_eq!(split(v4("255.255.255.255")), Err(NoClass));
    for network in [128, 32_767, 49_152, 12_582_911, 14_680_064, u32::MAX] {
        assert_eq!(join(network, u32::MAX), Err(NoClass));
    }
    for (network, host) in [(10, 16_777_216), (32_768, 65_536), (12_582_912, 256)] {
        assert_eq!(join(network, host), Err(HostTooLarge));
    }
}

#[test]
fn making_blocks() {
    let made = Block::new(ip("10.0.0.0"), 31).unwrap();
    assert_eq!((made.address(), made.length()), (ip("10.0.0.0"), 31));
    for (address, length, refusal) in [
        ("10.0.0.1", 31, BitsBeyondLength),
        ("10.0.0.0", 33, LengthTooLarge),
        ("10.0.0.1", 255, LengthTooLarge),
        ("::1", 127, BitsBeyondLength),
        ("::", 129, LengthTooLarge),
    ] {
        assert_eq!(Block::new(ip(address), length), Err(refusal));
    }
    assert!(Block::new(ip("0.0.0.0"), 0).is_ok());
    assert!(Block::new(ip("::"), 0).is_ok());
    assert!(Block::new(ip("::1"), 128).is_ok());
}

#[test]
fn texts_of_blocks() {
    for (text, written) in [
        ("10.0.0.0/8", "10.0.0.0/8"),
        ("0.0.0.0/0", "0.0.0.0/0"),
        ("2001:DB8:0:0:0:0:0:0/32", "2001:db8::/32"),
        ("::ffff:204.152.189.116/128", "::ffff:cc98:bd74/128"),
    ] {
        assert_eq!(block(text).to_string(), written);
        checks_room(written, |out| write_block_into(block(text), out));
    }
    assert_eq!(format!("{:>12}", block("10.0.0.0/8")), "  10.0.0.0/8");
    for (text, refusal) in [
        ("10.0.0.1/31", BitsBeyondLength),
        ("10.0.0.0/33", LengthTooLarge),
        ("::/129", LengthTooLarge),
        ("10.0.0.0", Malformed),
        ("10.0.0.0/", Malformed),
        ("10.0.0.0/08", Malformed),
        ("10/8", Malformed),
    ] {
        assert_eq!(read_block(text), Err(refusal), "{text}");
        assert_eq!(text.parse::<Block>(), Err(refusal));
    }
    checks_text(|text| read_block(text));
}

#[test]
fn what_a_block_contains() {
    for (text, inside, outside) in [
        (
            "10.0.0.4/31",
            ["10.0.0.4", "10.0.0.5"],
            ["10.0.0.3", "10.0.0.6"],
        ),
        (
            "0.0.0.0/0",
            ["0.0.0.0", "255.255.255.255"],
            ["::", "::ffff:0.0.0.0"],
        ),
        (
            "::/0",
            ["::", "ffff:ffff:ffff:ffff:ffff:ffff:ffff:ffff"],
            ["0.0.0.0", "255.255.255.255"],
        ),
        (
            "2001:db8::/33",
            ["2001:db8::", "2001:db8:7fff::1"],
            ["2001:db7::", "2001:db8:8000::"],
        ),
        ("::2/128", ["::2", "::0.0.0.2"], ["::1", "::3"]),
    ] {
        assert!(
            inside
                .iter()
                .all(|address| block(text).contains(ip(address))),
            "{text}"
        );
        assert!(
            !outside
                .iter()
                .any(|address| block(text).contains(ip(address))),
            "{text}"
        );
    }
}

#[test]
fn ranges() {
    for (first, last, blocks) in [
        (
            "10.0.0.1",
            "10.0.0.6",
            &["10.0.0.1/32", "10.0.0.2/31", "10.0.0.4/31", "10.0.0.6/32"][..],
        ),
        ("0.0.0.0", "255.255.255.255", &["0.0.0.0/0"]),
        (
            "255.255.255.255",
            "255.255.255.255",
            &["255.255.255.255/32"],
        ),
        ("::", "ffff:ffff:ffff:ffff:ffff:ffff:ffff:ffff", &["::/0"]),
        (
            "2001:db8::1",
            "2001:db8::3",
            &["2001:db8::1/128", "2001:db8::2/127"],
        ),
    ] {
        let expected: Vec<Block> = blocks.iter().map(|text| block(text)).collect();
        assert_eq!(range_blocks(ip(first), ip(last)), Ok(expected));
    }
    for (first, last, refusal) in [
        ("10.0.0.6", "10.0.0.1", FirstAboveLast),
        ("::1", "::", FirstAboveLast),
        ("10.0.0.1", "::1", WrongFamily),
        ("::", "10.0.0.1", WrongFamily),
    ] {
        assert_eq!(range_blocks(ip(first), ip(last)), Err(refusal));
        assert_eq!(range_records(ip(first), ip(last), &mut []), Err(refusal));
    }
}

#[test]
fn records_of_ranges() {
    let (first, last) = (ip("10.0.0.1"), ip("10.0.0.6"));
    let expected = [
        10, 0, 0, 1, 32, 10, 0, 0, 2, 31, 10, 0, 0, 4, 31, 10, 0, 0, 6, 32,
    ];

    let mut out = [b'?'; 24];
    let records = range_records(first, last, &mut out).unwrap();
    assert_eq!(records.as_bytes(), expected);
    assert!(records.blocks().eq(range_blocks(first, last).unwrap()));
    assert_eq!(records.blocks().next_back(), Some(block("10.0.0.6/32")));
    assert_eq!(out[20..], [b'?'; 4]);

    let mut out = [b'?'; 19];
    assert_eq!(range_records(first, last, &mut out), Err(NoRoom));
    assert_eq!(out, [b'?'; 19]);
}

fn blocks(texts: &[&str]) -> Vec<Block> {
    texts.iter().map(|text| block(text)).collect()
}

/// The records of blocks.
fn records(blocks: &[Block]) -> Vec<u8> {
    let mut records = Vec::new();
    for block in blocks {
        match block.address() {
            IpAddr::V4(address) => records.extend(address.octets()),
            IpAddr::V6(address) => records.extend(address.octets()),
        }
        records.push(block.length());
    }
    records
}

/// Lists, what they gather to, and what they do not cover.
const LISTS: [(&[&str], &[&str], &[&str]); 8] = [
    (&["0.0.0.0/0"], &["0.0.0.0/0"], &[]),
    (&["::/0", "::1/128", "ffff::/16", "::/0"], &["::/0"], &[]),
    (&["128.0.0.0/1", "0.0.0.0/1"], &["0.0.0.0/0"], &[]),
    (
        &["64.0.0.0/2", "96.0.0.0/3", "64.0.0.0/2", "64.0.0.0/32"],
        &["64.0.0.0/2"],
        &["0.0.0.0/2", "128.0.0.0/1"],
    ),
    // They touch, and are not the halves of one block.
    (
        &["128.0.0.0/2", "64.0.0.0/2"],
        &["64.0.0.0/2", "128.0.0.0/2"],
        &["0.0.0.0/2", "192.0.0.0/2"],
    ),
    // Two halves make a half of another.
    (&["2000::/3", "4000::/2", "::/3"], &["::/1"], &["8000::/1"]),
    (
        &["c000::/2", "e000::/3", "a000::/3", "::/2"],
        &["::/2", "a000::/3", "c000::/2"],
        &["4000::/2", "8000::/3"],
    ),
    (
        &["240.0.0.0/4", "0.0.0.0/4", "16.0.0.0/5"],
        &["0.0.0.0/4", "16.0.0.0/5", "240.0.0.0/4"],
        &[
            "24.0.0.0/5",
            "32.0.0.0/3",
            "64.0.0.0/2",
            "128.0.0.0/2",
            "192.0.0.0/3",
            "224.0.0.0/4",
        ],
    ),
];

#[test]
fn lists() {
    for (list, gathered, free) in LISTS {
        let (list, gathered, free) = (blocks(list), blocks(gathered), blocks(free));
        let family = list[0].family();
        assert_eq!(gather(&list), Ok(gathered.clone()));
        assert_eq!(gather(&gathered), Ok(gathered.clone()));
        assert_eq!(uncovered(family, &list), Ok(free.clone()));
        assert_eq!(uncovered(family, &gathered), Ok(free.clone()));
        assert_eq!(uncovered(family, &free), Ok(gathered));
        assert_eq!(gather(&free), Ok(free));
    }
    assert_eq!(gather(&[]), Ok(vec![]));
    assert_eq!(uncovered(Family::V4, &[]), Ok(blocks(&["0.0.0.0/0"])));
    assert_eq!(uncovered(Family::V6, &[]), Ok(blocks(&["::/0"])));
}

#[test]
fn families_of_lists() {
    let (four, six) = (block("10.0.0.0/8"), block("::/8"));
    assert_eq!((four.family(), six.family()), (Family::V4, Family::V6));
    for list in [[four, six], [six, four]] {
        assert_eq!(gather(&list), Err(WrongFamily));
        for family in [Family::V4, Family::V6, Family::Either] {
            assert_eq!(uncovered(family, &list), Err(WrongFamily));
        }
    }
    assert_eq!(uncovered(Family::V4, &[six]), Err(WrongFamily));
    assert_eq!(uncovered(Family::V6, &[four]), Err(WrongFamily));
    for list in [&[][..], &[four], &[six]] {
        assert_eq!(uncovered(Family::Either, list), Err(WrongFamily));
    }
}

#[test]
fn longest_lists() {
    for text in ["10.0.0.0/8", "fe80::/10"] {
        let mut list = vec![block(text); MOST_RECORDS];
        let family = list[0].family();
        assert_eq!(gather(&list), Ok(blocks(&[text])));
        assert_eq!(
            uncovered(family, &list).map(|free| free.len()),
            Ok(list[0].length().into())
        );
        list.push(list[0]);
        assert_eq!(gather(&list), Err(TooMany));
        assert_eq!(uncovered(family, &list), Err(TooMany));
        // A wrong family is what a call asks about first.
        list.push(block(if family == Family::V4 {
            "::/0"
        } else {
            "0.0.0.0/0"
        }));
        assert_eq!(gather(&list), Err(WrongFamily));
        assert_eq!(uncovered(family, &list), Err(WrongFamily));
    }
}

type RecordsCall = for<'a> fn(Family, &[u8], &'a mut [u8]) -> Result<Records<'a>, Refusal>;

#[test]
fn records_of_lists() {
    for (list, gathered, free) in LISTS {
        let list = blocks(list);
        let family = list[0].family();
        for (call, expected) in [
            (gather_records as RecordsCall, blocks(gathered)),
            (uncovered_records, blocks(free)),
        ] {
            let (list, bytes) = (records(&list), records(&expected));
            let mut out = vec![b'?'; bytes.len() + 4];
            let answer = call(family, &list, &mut out).unwrap();
            assert_eq!(answer.as_bytes(), bytes);
            assert_eq!(answer.family(), family);
            assert!(answer.blocks().eq(expected));
            assert_eq!(out[bytes.len()..], [b'?'; 4]);

            let mut out = vec![b'?'; bytes.len()];
            assert!(call(family, &list, &mut out).is_ok());
            if let Some(less) = bytes.len().checked_sub(1) {
                let mut out = vec![b'?'; less];
                assert_eq!(call(family, &list, &mut out), Err(NoRoom));
                assert!(out.iter().all(|byte| *byte == b'?'));
            }
        }
    }
}

/// Of an answer that is handed back, what it does not cover is what the answer was made of.
#[test]
fn records_handed_back() {
    let (mut free, mut back) = ([0; room::RANGE_4], [0; room::RANGE_4]);
    let mut range = [0; room::RANGE_4];
    let range = range_records(ip("10.0.0.1"), ip("10.0.0.6"), &mut range).unwrap();
    let outside = range.uncovered(&mut free).unwrap();
    assert_eq!(outside.blocks().next(), Some(block("0.0.0.0/5")));
    assert_eq!(outside.uncovered(&mut back), Ok(range));
    assert_eq!(range.uncovered(&mut []), Err(NoRoom));
}

#[test]
fn refusals_of_records() {
    const GOOD: [u8; 5] = [10, 0, 0, 0, 8];
    const LONG: [u8; 5] = [10, 0, 0, 0, 33];
    const BEYOND: [u8; 5] = [10, 0, 0, 1, 31];
    // The last bit is set, but beyond a length above the width there is none.
    const LONG_AND_ODD: [u8; 5] = [10, 0, 0, 1, 255];
    for call in [gather_records as RecordsCall, uncovered_records] {
        for (records, refusal) in [
            ([GOOD, LONG, BEYOND].concat(), LengthTooLarge),
            ([GOOD, BEYOND, LONG].concat(), BitsBeyondLength),
            ([GOOD, LONG_AND_ODD].concat(), LengthTooLarge),
            ([LONG; MOST_RECORDS].concat(), LengthTooLarge),
            ([LONG; MOST_RECORDS + 1].concat(), TooMany),
            (
                [&[LONG; MOST_RECORDS + 1].concat()[..], &[1]].concat(),
                Malformed,
            ),
            (GOOD[..4].to_vec(), Malformed),
            (GOOD.to_vec(), NoRoom),
        ] {
            assert_eq!(call(Family::V4, &records, &mut []), Err(refusal));
            assert_eq!(call(Family::Either, &records, &mut []), Err(WrongFamily));
        }
        // Seventeen bytes are no whole number of records of IPv4, nor five of IPv6.
        assert_eq!(call(Family::V4, &[0; 17], &mut [0; 85]), Err(Malformed));
        assert_eq!(call(Family::V6, &[0; 5], &mut [0; 85]), Err(Malformed));
        assert!(call(Family::V4, &[0; 85], &mut [0; 85]).is_ok());
        assert!(call(Family::V6, &[0; 85], &mut [0; 85]).is_ok());
        assert_eq!(call(Family::Either, &[], &mut []), Err(WrongFamily));
    }
}

/// Sheets, what they are respelled, and what they are respelled and sorted.
const SHEETS: [[&str; 3]; 7] = [
    ["", "", ""],
    [
        "10.0.0.12,7,650\n",
        "10.0.0.12,7,650\n",
        "10.0.0.12,7,650\n",
    ],
    // The lines go with their addresses: no column is sorted alone.
    [
        "10.0.0.3,1,700\n10.0.0.1,3,500\n10.0.0.2,2,600\n",
        "10.0.0.3,1,700\n10.0.0.1,3,500\n10.0.0.2,2,600\n",
        "10.0.0.1,3,500\n10.0.0.2,2,600\n10.0.0.3,1,700\n",
    ],
    // By number and not by text.
    [
        "10.0.0.10,1,0\n9.0.0.0,1,0\n10.0.0.9,1,0\n",
        "10.0.0.10,1,0\n9.0.0.0,1,0\n10.0.0.9,1,0\n",
        "9.0.0.0,1,0\n10.0.0.9,1,0\n10.0.0.10,1,0\n",
    ],
    // IPv4 before IPv6, whatever the numbers are.
    [
        "::,1,0\n255.255.255.255,1,0\n::1,1,0\n0.0.0.1,1,0\n",
        "::,1,0\n255.255.255.255,1,0\n::1,1,0\n0.0.0.1,1,0\n",
        "0.0.0.1,1,0\n255.255.255.255,1,0\n::,1,0\n::1,1,0\n",
    ],
    // Equal addresses stay in their order, however they are spelt and whatever they carry.
    [
        "::2,5,5\n2001:DB8:0:0:1:0:0:1,9,3\n::0:2,5,4\n2001:db8::1:0:0:1,2,8\n::0.0.0.2,4,9\n",
        "::2,5,5\n2001:db8::1:0:0:1,9,3\n::2,5,4\n2001:db8::1:0:0:1,2,8\n::2,4,9\n",
        "::2,5,5\n::2,5,4\n::2,4,9\n2001:db8::1:0:0:1,9,3\n2001:db8::1:0:0:1,2,8\n",
    ],
    [
        "::FFFF:204.152.189.116,999999,1400\n1:2:3:4:5:6:7::,1,0\n",
        "::ffff:cc98:bd74,999999,1400\n1:2:3:4:5:6:7:0,1,0\n",
        "::ffff:cc98:bd74,999999,1400\n1:2:3:4:5:6:7:0,1,0\n",
    ],
];

#[test]
fn sheets() {
    for [sheet, respelled, sorted] in SHEETS {
        assert_eq!(respell(sheet, false), Ok(respelled.into()));
        assert_eq!(respell(sheet.as_bytes(), true), Ok(sorted.into()));
        assert_eq!(respell(respelled, true), Ok(sorted.into()));
        for done in [respelled, sorted] {
            assert_eq!(respell(done, false), Ok(done.into()));
        }
        assert_eq!(respell(sorted, true), Ok(sorted.into()));
    }
}

#[test]
fn sheets_in_lent_buffers() {
    for [sheet, respelled, sorted] in SHEETS {
        for (sorts, expected) in [(false, respelled), (true, sorted)] {
            let (expected, length) = (expected.as_bytes(), expected.len());
            let mut out = vec![b'?'; length + 4];
            assert_eq!(respell_into(sheet, sorts, &mut out), Ok(expected));
            assert_eq!(out[length..], [b'?'; 4]);

            let mut out = vec![b'?'; length];
            assert_eq!(respell_into(sheet, sorts, &mut out), Ok(expected));
            for less in 0..length {
                let mut out = vec![b'?'; less];
                assert_eq!(respell_into(sheet, sorts, &mut out), Err(NoRoom));
                assert!(out.iter().all(|byte| *byte == b'?'));
            }
        }
    }
}

/// The C interface has a number where this crate has a `bool`.
#[test]
fn every_number_but_0_sorts() {
    let [sheet, respelled, sorted] = SHEETS[2];
    for (number, expected) in [
        (0, respelled),
        (1, sorted),
        (2, sorted),
        (256, sorted),
        (1 << 31, sorted),
        (u32::MAX, sorted),
    ] {
        let mut out = vec![0; expected.len()];
        let answer = exact::respell(sheet.as_bytes(), number, &mut out);
        assert_eq!((answer.refusal, answer.bytes), (0, expected.len()));
        assert_eq!(out, expected.as_bytes(), "{number}");
    }
}

/// Lines that are not of the form, the last two without their newline.
const MALFORMED_LINES: [&str; 35] = [
    "\n",
    "\r\n",
    " \n",
    "\0\n",
    "::1\n",
    "::1,1\n",
    ",,\n",
    "::1,1,\n",
    "::1,,0\n",
    ",1,0\n",
    "::1,1,0,\n",
    "::1,1,0,0\n",
    "::1,0,0\n",
    "::1,1000000,0\n",
    "::1,4294967297,0\n",
    "::1,01,0\n",
    "::1,+1,0\n",
    "::1,-1,0\n",
    "::1,1,1401\n",
    "::1,1,65536\n",
    "::1,1,00\n",
    "::1,1,07\n",
    "::1,1,7.0\n",
    "::1,1,0\r\n",
    "::1, 1,0\n",
    " ::1,1,0\n",
    "::1,1,0 \n",
    "::1,1,0\0\n",
    "::1;1;0\n",
    "\u{feff}::1,1,0\n",
    "010.0.0.12,1,0\n",
    "::1/128,1,0\n",
    "1:2:3:4:5:6:7:8::,1,0\n",
    "::1,1,0",
    "x",
];

#[test]
fn lines_of_sheets() {
    for line in [
        "::1,1,0\n",
        "::1,999999,1400\n",
        "::1,10,7\n",
        "0.0.0.0,100000,1399\n",
    ] {
        assert_eq!(respell(line, false), Ok(line.into()));
    }
    let long_address = format!("{}::1,1,0\n", "0".repeat(62));
    for line in MALFORMED_LINES.into_iter().chain([&long_address[..]]) {
        for sheet in [line.to_string(), format!("::1,1,0\n{line}")] {
            assert_eq!(respell(&sheet, false), Err(Malformed), "{sheet:?}");
            assert_eq!(respell(&sheet, true), Err(Malformed), "{sheet:?}");
        }
        let sheet = format!("{line}::1,1,0\n");
        // Two lines without a newline between them are one malformed line.
        assert_eq!(respell(&sheet, true), Err(Malformed), "{sheet:?}");
    }
}

#[test]
fn longest_sheets() {
    let line = "10.0.0.12,7,650\n";
    for sorts in [false, true] {
        let most = line.repeat(MOST_LINES);
        assert_eq!(respell(&most, sorts), Ok(most.clone().into()));
        for more in [line, "x", "\n"] {
            assert_eq!(respell(format!("{most}{more}"), sorts), Err(TooMany));
        }
        // A line without its newline is the last that a sheet may have, and malformed.
        let less = line.repeat(MOST_LINES - 1);
        assert_eq!(respell(less.clone() + "x", sorts), Err(Malformed));
        assert_eq!(respell(less + "x\nx", sorts), Err(TooMany));

        // As many in falling order, each with a reading of its own.
        let line = |n: usize| format!("{:x}::,{},{}\n", MOST_LINES - n, 1 + n, n);
        let falling: Vec<String> = (0..MOST_LINES).map(line).collect();
        let mut expected = falling.clone();
        if sorts {
            expected.reverse();
        }
        let expected = expected.concat().into_bytes();
        assert_eq!(respell(falling.concat(), sorts), Ok(expected));

        // No sheet of so many bytes is good: each line of 1,024 would have 64, and has 58 at most.
        for (byte, refusal) in [(b'\n', TooMany), (b'x', Malformed)] {
            let sheet = [byte; LONGEST_SHEET + 1];
            assert_eq!(respell(&sheet[..LONGEST_SHEET], sorts), Err(refusal));
            assert_eq!(respell(sheet, sorts), Err(TextTooLong));
        }
    }
}

/// Where several refusals hold, the first is given, and room is what a call asks about last.
#[test]
fn refusals_of_sheets() {
    let good = "::1,1,0\n";
    let (many, malformed) = (good.repeat(MOST_LINES), "x\n");
    for (sheet, refusal) in [
        ("x\n".repeat(LONGEST_SHEET), TextTooLong),
        ("x".repeat(LONGEST_SHEET + 1), TextTooLong),
        (malformed.to_string() + &many, TooMany),
        (malformed.repeat(MOST_LINES), Malformed),
        (good.to_string() + malformed, Malformed),
        (good.to_string(), NoRoom),
        (many, NoRoom),
    ] {
        for sorts in [false, true] {
            let mut out = [b'?'; 7];
            assert_eq!(respell_into(&sheet, sorts, &mut []), Err(refusal));
            assert_eq!(respell_into(&sheet, sorts, &mut out), Err(refusal));
            assert_eq!(out, [b'?'; 7]);
            if refusal != NoRoom {
                let mut out = vec![b'?'; room::SHEET];
                assert_eq!(respell_into(&sheet, sorts, &mut out), Err(refusal));
                assert!(out.iter().all(|byte| *byte == b'?'));
            }
        }
    }
}
