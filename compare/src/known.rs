//! The known differences between the library and its peers, and what the peers answer there.

#[derive(Clone, Copy, PartialEq, Eq, PartialOrd, Ord)]
pub enum Known {
    AtonBlank,
    AtonLong,
    NetPtonPartZero,
    NetPtonSizeZero,
    NetPtonSizeWraps,
    NetNtopRoom,
    NtopMapped,
    NtopCompatible,
    MakeaddrNoClass,
    MakeaddrHost,
    NetofNoClass,
    StdMapped,
}

pub const KNOWN: [(Known, &str); 12] = [
    (
        Known::AtonBlank,
        "inet_aton stops at a blank and takes whatever follows it; here a blank is a wrong byte",
    ),
    (
        Known::AtonLong,
        "inet_aton takes texts of any length; here 64 bytes are the limit",
    ),
    (
        Known::NetPtonPartZero,
        "inet_net_pton takes any number of leading zeros in a decimal part; here none",
    ),
    (
        Known::NetPtonSizeZero,
        "inet_net_pton takes any number of leading zeros in the size; here none",
    ),
    (
        Known::NetPtonSizeWraps,
        "inet_net_pton lets the size wrap at 2^32, -1 meaning none; here it has 1 to 3 digits",
    ),
    (
        Known::NetNtopRoom,
        "inet_net_ntop asks for room for three-digit parts; here the text's own suffices",
    ),
    (
        Known::NtopMapped,
        "inet_ntop writes ::ffff:0:0/96 with a dotted tail; here always hex groups",
    ),
    (
        Known::NtopCompatible,
        "inet_ntop writes ::/96 with a dotted tail unless group 7 is 0; here always hex groups",
    ),
    (
        Known::MakeaddrNoClass,
        "inet_makeaddr joins numbers of no class too; here refusal 6",
    ),
    (
        Known::MakeaddrHost,
        "inet_makeaddr cuts off what is too large of the host number; here refusal 7",
    ),
    (
        Known::NetofNoClass,
        "inet_netof and inet_lnaof take an address that begins with 111 as class C; here refusal 6",
    ),
    (
        Known::StdMapped,
        "std::net writes ::ffff:0:0/96 with a dotted tail; here always hex groups",
    ),
];

/// The text that means by the rules what `inet_net_pton` makes of the given one, if that differs,
/// and why it differs.
pub fn as_net_pton_reads(text: &str) -> Option<(Known, String)> {
    let (number, size) = match text.split_once('/') {
        Some((number, size)) => (number, Some(size)),
        None => (text, None),
    };
    let hexadecimal = number.starts_with("0x") || number.starts_with("0X");
    let meant_number = if hexadecimal {
        number.to_string()
    } else {
        let parts: Vec<&str> = number.split('.').map(without_zeros).collect();
        parts.join(".")
    };
    let (wraps, meant_size) = match size {
        Some(size) => wrapped_size(size)?,
        None => (false, String::new()),
    };
    let known = if wraps {
        Known::NetPtonSizeWraps
    } else if size.is_some_and(|size| without_zeros(size) != size) {
        Known::NetPtonSizeZero
    } else if meant_number != number {
        Known::NetPtonPartZero
    } else {
        return None;
    };
    Some((known, meant_number + &meant_size))
}

/// The number without its leading zeros, but for one if nothing else is left.
fn without_zeros(part: &str) -> &str {
    let trimmed = part.trim_start_matches('0');
    if trimmed.starts_with(|digit: char| digit.is_ascii_digit()) {
        trimmed
    } else {
        &part[part.len() - trimmed.len() - usize::from(part.starts_with('0'))..]
    }
}

/// Whether a C integer cannot hold the size, and the slash and size that the number in it stands
/// for.
fn wrapped_size(size: &str) -> Option<(bool, String)> {
    if size.is_empty() {
        return None;
    }
    let digits: Option<Vec<u32>> = size.chars().map(|digit| digit.to_digit(10)).collect();
    let wrapped = digits?.iter().fold(0u32, |value, digit| {
        value.wrapping_mul(10).wrapping_add(*digit)
    }) as i32;
    let wraps = without_zeros(size) != wrapped.to_string();
    let meant = match wrapped {
        -1 => String::new(),
        _ => format!("/{wrapped}"),
    };
    Some((wraps, meant))
}

/// The text with a dotted tail that `inet_ntop` writes for this address, if it writes one.
/// `std::net` does so for mapped addresses only.
pub fn dotted_tail(address: &[u8]) -> Option<(Known, Vec<u8>)> {
    let (head, tail) = address.split_at_checked(12)?;
    let tail_text = format!("{}.{}.{}.{}", tail[0], tail[1], tail[2], tail[3]);
    let mapped = head[..10] == [0; 10] && head[10..] == [0xff; 2];
    let compatible = head == [0; 12] && tail[..2] != [0; 2];
    if mapped {
        Some((
            Known::NtopMapped,
            format!("::ffff:{tail_text}").into_bytes(),
        ))
    } else {
        compatible.then(|| (Known::NtopCompatible, format!("::{tail_text}").into_bytes()))
    }
}

/// The room that `inet_net_ntop` asks for before it writes this text, its zero byte included:
/// before each part four bytes and the zero byte, before the slash three and the zero byte. The dot
/// before a part that the size reaches only partly into is counted with that part, all other dots
/// with the part before them.
pub fn net_ntop_need(text: &[u8], size: u32) -> usize {
    let slash = text
        .iter()
        .position(|&byte| byte == b'/')
        .unwrap_or(text.len());
    let last_dot = text[..slash].iter().rposition(|&byte| byte == b'.');
    let partial = !size.is_multiple_of(8);
    let last_part = match last_dot {
        Some(dot) => dot + usize::from(!partial),
        None => 0,
    };
    // The last part begins furthest to the right, so no other asks for more. Size 0 has no part to
    // ask for.
    let part_need = if size == 0 { 0 } else { last_part + 5 };
    part_need.max(slash + 4)
}
