use std::net::Ipv4Addr;

use crate::lend::lend;
use crate::refusal::checked;
use crate::{exact, Refusal};

/// Splits an address of class A, B or C into its network number, in which the class bits stay, and
/// its host number.
///
/// Refusals: [`NoClass`](Refusal::NoClass) for an address that begins with bits 111.
///
/// ```
/// use nibharrow::{join, split, Refusal};
///
/// let (network, host) = split([192, 0, 2, 7].into())?;
/// assert_eq!((network, host), (0xc00002, 7));
/// assert_eq!(join(network, host)?.octets(), [192, 0, 2, 7]);
/// assert_eq!(split([224, 0, 0, 1].into()), Err(Refusal::NoClass));
/// # Ok::<(), Refusal>(())
/// ```
pub fn split(address: Ipv4Addr) -> Result<(u32, u32), Refusal> {
    let answer = checked(exact::split(&address.octets()))?;
    Ok((answer.network, answer.host))
}

/// Joins a network number of class A, B or C and a host number.
///
/// Refusals: [`NoClass`](Refusal::NoClass), [`HostTooLarge`](Refusal::HostTooLarge).
pub fn join(network: u32, host: u32) -> Result<Ipv4Addr, Refusal> {
    let (octets, _) = lend::<4, _>(|out| checked(exact::join(network, host, out)))?;
    Ok(octets.into())
}
