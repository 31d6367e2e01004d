//! The library against what others make of the same inputs: the C library of the machine and
//! `std::net`.
//!
//! A difference is allowed only if it is a known one, which means that the peer answers exactly
//! what is written down for it. Texts with a zero byte inside are left out where C would end there.

use crate::case::{Case, Shown};
use crate::generate::any_bytes;
use crate::judge::Judge;
use crate::known::{as_net_pton_reads, dotted_tail, net_ntop_need, Known, KNOWN};
use crate::{clib, rules};
use std::collections::BTreeMap;
use std::ffi::CStr;
use std::net::{IpAddr, Ipv4Addr, Ipv6Addr};
use std::str::FromStr;

/// A yes with the bytes or the text that go with it, or a no.
type Outcome = Option<Vec<u8>>;

#[derive(Default)]
pub struct Peers {
    compared: BTreeMap<&'static str, u64>,
    known: BTreeMap<Known, u64>,
}

impl Peers {
    /// Compares the library with every peer that does the job of this call.
    pub fn compare(&mut self, judge: &mut Judge, case: &Case) {
        match case {
            Case::ReadAddress { text, .. } => self.strict(judge, text),
            Case::WriteAddress { address } if [4, 16].contains(&address.len()) => {
                self.normal_text(judge, address);
            }
            Case::ReadLoose { text } => self.loose(judge, text),
            Case::ReadNetwork { text } => self.network(judge, text),
            Case::WriteNetwork { address, size } => {
                if let Ok(address) = address[..].try_into() {
                    self.network_text(judge, address, *size);
                }
            }
            Case::Split { address } => {
                if let Ok(address) = address[..].try_into() {
                    self.split(judge, address);
                }
            }
            Case::Join { network, host } => self.join(judge, *network, *host),
            _ => {}
        }
    }

    /// Counts a comparison. A difference that is not `known` fails the run.
    fn meet(
        &mut self,
        judge: &mut Judge,
        peer: &'static str,
        case: &Case,
        [ours, theirs]: [Outcome; 2],
        known: impl FnOnce(&Outcome, &Outcome) -> Option<Known>,
    ) {
        *self.compared.entry(peer).or_default() += 1;
        if ours == theirs {
            return;
        }
        match known(&ours, &theirs) {
            Some(known) => *self.known.entry(known).or_default() += 1,
            None => {
                let show = |outcome: &Outcome| match outcome {
                    Some(bytes) => Shown(bytes).to_string(),
                    None => "no".to_string(),
                };
                let (ours, theirs) = (show(&ours), show(&theirs));
                judge.fail(&format!("{case}\n  library {ours}\n  {peer} {theirs}"));
            }
        }
    }

    fn strict(&mut self, judge: &mut Judge, text: &[u8]) {
        let std_4 = parsed::<Ipv4Addr>(text).map(|address| address.octets().to_vec());
        let std_6 = parsed::<Ipv6Addr>(text).map(|address| address.octets().to_vec());
        let std_any = parsed::<IpAddr>(text).map(|address| match address {
            IpAddr::V4(address) => address.octets().to_vec(),
            IpAddr::V6(address) => address.octets().to_vec(),
        });
        let mut peers = vec![
            ("std read 4", 4, std_4),
            ("std read 6", 6, std_6),
            ("std read any", 0, std_any),
        ];
        if let Some(text) = clib::terminated(text) {
            let c_4 = clib::strict::<4>(&text).map(Vec::from);
            let c_6 = clib::strict::<16>(&text).map(Vec::from);
            peers.push(("inet_pton 4", 4, c_4));
            peers.push(("inet_pton 6", 6, c_6));
        }
        for (peer, family, theirs) in peers {
            let text = text.to_vec();
            let case = Case::ReadAddress { text, family };
            self.meet(judge, peer, &case, [accepted(&case), theirs], |_, _| None);
        }
    }

    fn normal_text(&mut self, judge: &mut Judge, address: &[u8]) {
        let case = Case::WriteAddress {
            address: address.to_vec(),
        };
        let dotted = dotted_tail(address);
        let std_text = <[u8; 4]>::try_from(address)
            .map(|octets| Ipv4Addr::from(octets).to_string())
            .or(<[u8; 16]>::try_from(address).map(|octets| Ipv6Addr::from(octets).to_string()));
        let outcomes = [accepted(&case), std_text.ok().map(String::into_bytes)];
        self.meet(judge, "std write", &case, outcomes, |ours, theirs| {
            let (known, text) = dotted.as_ref()?;
            let expected = *known == Known::NtopMapped && theirs.as_ref() == Some(text);
            (expected && in_hex_groups(ours)).then_some(Known::StdMapped)
        });
        let peer = if address.len() == 4 {
            "inet_ntop 4"
        } else {
            "inet_ntop 6"
        };
        for room in [50, judge.random.below(50)] {
            // C counts the zero byte behind its text as well.
            let outcomes = [accepted_in(&case, room), clib::text(address, room + 1)];
            self.meet(judge, peer, &case, outcomes, |ours, theirs| {
                let (known, text) = dotted.clone()?;
                let expected = (text.len() <= room).then_some(text);
                (*theirs == expected && in_hex_groups(ours)).then_some(known)
            });
        }
    }

    fn loose(&mut self, judge: &mut Judge, text: &[u8]) {
        let Some(c_text) = clib::terminated(text) else {
            return;
        };
        let case = Case::ReadLoose {
            text: text.to_vec(),
        };
        let theirs = clib::loose(&c_text).map(Vec::from);
        self.meet(
            judge,
            "inet_aton",
            &case,
            [accepted(&case), theirs],
            |ours, theirs| {
                let blank = |byte: &u8| b" \t\n\x0b\x0c\r".contains(byte);
                let head = text.split(blank).next()?;
                let taken = rules::loose(std::str::from_utf8(head).ok()?)?;
                if ours.is_some() || *theirs != Some(taken.octets().to_vec()) {
                    return None;
                }
                if head.len() < text.len() {
                    Some(Known::AtonBlank)
                } else {
                    (text.len() > 64).then_some(Known::AtonLong)
                }
            },
        );
    }

    /// Four bytes of room are the most that is tried: with more, C would read more than an IPv4
    /// address has.
    fn network(&mut self, judge: &mut Judge, text: &[u8]) {
        let Some(c_text) = clib::terminated(text) else {
            return;
        };
        let case = Case::ReadNetwork {
            text: text.to_vec(),
        };
        for room in [4, judge.random.below(4)] {
            let pattern = any_bytes(&mut judge.random, room);
            let outcomes = [
                network_by_library(&case, &pattern),
                network_by_c(&c_text, &pattern),
            ];
            self.meet(judge, "inet_net_pton", &case, outcomes, |ours, theirs| {
                let (known, meant) = as_net_pton_reads(std::str::from_utf8(text).ok()?)?;
                let meant = Case::ReadNetwork { text: meant.into() };
                let expected = *theirs == network_by_library(&meant, &pattern);
                (ours.is_none() && expected).then_some(known)
            });
        }
    }

    fn network_text(&mut self, judge: &mut Judge, address: [u8; 4], size: u32) {
        let case = Case::WriteNetwork {
            address: address.into(),
            size,
        };
        for room in [50, judge.random.below(24)] {
            let outcomes = [
                accepted_in(&case, room),
                clib::network_text(address, size, room + 1),
            ];
            self.meet(judge, "inet_net_ntop", &case, outcomes, |ours, theirs| {
                let need = net_ntop_need(ours.as_ref()?, size);
                (theirs.is_none() && room + 1 < need).then_some(Known::NetNtopRoom)
            });
        }
    }

    fn split(&mut self, judge: &mut Judge, address: [u8; 4]) {
        let case = Case::Split {
            address: address.into(),
        };
        let pair =
            |network: u32, host: u32| Some([network.to_be_bytes(), host.to_be_bytes()].concat());
        let (answer, _) = case.library_ample();
        let ours = match answer.refusal {
            0 => pair(answer.values[0] as u32, answer.values[1] as u32),
            _ => None,
        };
        let (network, host) = clib::network_and_host(address);
        let theirs = pair(network, host);
        self.meet(
            judge,
            "inet_netof, inet_lnaof",
            &case,
            [ours, theirs],
            |ours, theirs| {
                let number = u32::from_be_bytes(address);
                let as_class_c = pair(number >> 8, number & 0xff);
                (ours.is_none() && address[0] >= 0xe0 && *theirs == as_class_c)
                    .then_some(Known::NetofNoClass)
            },
        );
    }

    fn join(&mut self, judge: &mut Judge, network: u32, host: u32) {
        let case = Case::Join { network, host };
        let theirs = Some(clib::join(network, host).to_vec());
        self.meet(
            judge,
            "inet_makeaddr",
            &case,
            [accepted(&case), theirs],
            |ours, theirs| {
                let joined = match network {
                    0..0x80 => network << 24 | host & 0xff_ffff,
                    0x80..0x1_0000 => network << 16 | host & 0xffff,
                    0x1_0000..0x100_0000 => network << 8 | host & 0xff,
                    _ => network | host,
                };
                if ours.is_some() || *theirs != Some(joined.to_be_bytes().to_vec()) {
                    return None;
                }
                let in_class = matches!(network, 0..0x80 | 0x8000..0xc000 | 0xc0_0000..0xe0_0000);
                Some(if in_class {
                    Known::MakeaddrHost
                } else {
                    Known::MakeaddrNoClass
                })
            },
        );
    }

    /// Prints what was compared and which known differences were met. One that is never met fails
    /// the run if `all_met` asks for it, so that the list cannot outlive the difference.
    pub fn report(&self, judge: &mut Judge, all_met: bool) {
        println!("library against peers:");
        for (peer, count) in &self.compared {
            println!("  {peer:<24} {count:>9} compared");
        }
        println!("known differences met:");
        for (known, reason) in KNOWN {
            let count = self.known.get(&known).copied().unwrap_or(0);
            println!("  {count:>9}  {reason}");
            judge.expect(count > 0 || !all_met, || format!("never met: {reason}"));
        }
    }
}

fn parsed<Address: FromStr>(text: &[u8]) -> Option<Address> {
    std::str::from_utf8(text).ok()?.parse().ok()
}

/// What the library answers with ample room.
fn accepted(case: &Case) -> Outcome {
    let (answer, bytes) = case.library_ample();
    (answer.refusal == 0).then_some(bytes)
}

/// What the library answers with this much room.
fn accepted_in(case: &Case, room: usize) -> Outcome {
    let mut out = vec![0; room];
    let answer = case.library(&mut out);
    out.truncate(answer.bytes);
    (answer.refusal == 0).then_some(out)
}

/// Whether our text, if there is one, has no dotted tail.
fn in_hex_groups(ours: &Outcome) -> bool {
    ours.iter().all(|text| !text.contains(&b'.'))
}

/// The size, and the whole buffer after the call.
fn network_by_library(case: &Case, pattern: &[u8]) -> Outcome {
    let mut out = pattern.to_vec();
    let answer = case.library(&mut out);
    (answer.refusal == 0).then(|| [&answer.values[0].to_be_bytes(), &out[..]].concat())
}

/// The same from C, which says no by a negative size.
fn network_by_c(text: &CStr, pattern: &[u8]) -> Outcome {
    let mut out = pattern.to_vec();
    let size = u64::try_from(clib::network(text, &mut out)).ok()?;
    Some([&size.to_be_bytes(), &out[..]].concat())
}
