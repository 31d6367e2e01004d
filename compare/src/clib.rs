//! The C library's calls for the same jobs, with slices and options in place of pointers and status
//! numbers.

use std::ffi::{c_char, c_int, c_void, CStr, CString};

const AF_INET: c_int = 2;
const AF_INET6: c_int = 10;

/// `struct in_addr`: four bytes in network order, passed by value as one word.
#[repr(C)]
#[derive(Clone, Copy)]
struct InAddr {
    octets: u32,
}

impl InAddr {
    fn new(octets: [u8; 4]) -> Self {
        let octets = u32::from_ne_bytes(octets);
        Self { octets }
    }
}

extern "C" {
    fn inet_pton(family: c_int, text: *const c_char, out: *mut c_void) -> c_int;
    fn inet_ntop(
        family: c_int,
        address: *const c_void,
        out: *mut c_char,
        room: u32,
    ) -> *const c_char;
    fn inet_aton(text: *const c_char, out: *mut InAddr) -> c_int;
    fn inet_makeaddr(network: u32, host: u32) -> InAddr;
    fn inet_netof(address: InAddr) -> u32;
    fn inet_lnaof(address: InAddr) -> u32;
}

// glibc keeps these two apart from the others.
#[link(name = "resolv")]
extern "C" {
    fn inet_net_pton(family: c_int, text: *const c_char, out: *mut c_void, room: usize) -> c_int;
    fn inet_net_ntop(
        family: c_int,
        network: *const c_void,
        size: c_int,
        out: *mut c_char,
        room: usize,
    ) -> *mut c_char;
}

/// The address that strict IPv4 text (`N` is 4) or IPv6 text (16) stands for.
pub fn strict<const N: usize>(text: &CStr) -> Option<[u8; N]> {
    let mut out = [0; N];
    // SAFETY: the text ends in a zero byte, and the address of this family has N bytes.
    let status = unsafe { inet_pton(family(N), text.as_ptr(), out.as_mut_ptr().cast()) };
    (status == 1).then_some(out)
}

/// The text of an address of 4 or 16 bytes, if it and its zero byte fit in the room.
pub fn text(address: &[u8], room: usize) -> Option<Vec<u8>> {
    let mut out = vec![0u8; room.max(1)];
    let written = unsafe {
        // SAFETY: the address has as many bytes as its family, and the buffer has at least `room`.
        inet_ntop(
            family(address.len()),
            address.as_ptr().cast(),
            out.as_mut_ptr().cast(),
            room as u32,
        )
    };
    (!written.is_null()).then(|| up_to_zero(out))
}

fn family(octets: usize) -> c_int {
    match octets {
        4 => AF_INET,
        16 => AF_INET6,
        _ => panic!("an address has 4 or 16 bytes"),
    }
}

pub fn loose(text: &CStr) -> Option<[u8; 4]> {
    let mut out = InAddr::new([0; 4]);
    // SAFETY: the text ends in a zero byte.
    let status = unsafe { inet_aton(text.as_ptr(), &mut out) };
    (status != 0).then(|| out.octets.to_ne_bytes())
}

/// The size of a network whose bytes are put into `out`, or any negative number for a text that is
/// refused; `out` may have changed even then.
pub fn network(text: &CStr, out: &mut [u8]) -> c_int {
    // SAFETY: the text ends in a zero byte, and pointer and length are those of one slice.
    unsafe { inet_net_pton(AF_INET, text.as_ptr(), out.as_mut_ptr().cast(), out.len()) }
}

/// The text of a network, if the call finds the room enough for it.
pub fn network_text(address: [u8; 4], size: u32, room: usize) -> Option<Vec<u8>> {
    let mut out = vec![0u8; room.max(1)];
    let (network, text) = (address.as_ptr().cast(), out.as_mut_ptr().cast());
    // SAFETY: four bytes are all that an IPv4 size reaches into, and the buffer has at least
    // `room`.
    let written = unsafe { inet_net_ntop(AF_INET, network, size as c_int, text, room) };
    (!written.is_null()).then(|| up_to_zero(out))
}

pub fn network_and_host(address: [u8; 4]) -> (u32, u32) {
    let address = InAddr::new(address);
    // SAFETY: both take any value.
    unsafe { (inet_netof(address), inet_lnaof(address)) }
}

pub fn join(network: u32, host: u32) -> [u8; 4] {
    // SAFETY: any two numbers may be passed.
    unsafe { inet_makeaddr(network, host) }.octets.to_ne_bytes()
}

/// The text with a zero byte behind it, unless it has one inside.
pub fn terminated(text: &[u8]) -> Option<CString> {
    CString::new(text).ok()
}

fn up_to_zero(mut text: Vec<u8>) -> Vec<u8> {
    let end = text
        .iter()
        .position(|&byte| byte == 0)
        .expect("the C library ends its text");
    text.truncate(end);
    text
}
