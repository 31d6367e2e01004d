//! The speed of the library against the best peer at hand, both in the same run.

mod inputs;
mod measure;
mod peers;
mod plot;
mod sheets;
mod table;

use std::net::{Ipv4Addr, Ipv6Addr};

use inputs::{between, covered, inputs, most_blocks, texts, Base, Block, List, Range, Sheet, Text};
use measure::{measure, verify, Answer};
use nibharrow::{exact, room};
use table::Row;

const USAGE: &str = "usage: bench [--markdown] [--only WORD] [--rounds N] [--svg FILE]";

/// Targets: the largest ratio of the library's time to the peer's.
const READ_IPV4: Option<f64> = Some(1.0);
const READ_IPV6: Option<f64> = Some(0.8);
const WRITE: Option<f64> = Some(0.6);
const RANGE: Option<f64> = Some(1.3);
const C_READERS: Option<f64> = Some(1.0);
const LIST: Option<f64> = Some(1.5);
const LIST_IN_ORDER: Option<f64> = Some(1.0);
const SHEET: Option<f64> = Some(1.0);

struct Bench {
    markdown: bool,
    only: String,
    rounds: usize,
    svg: Option<String>,
    rows: Vec<Row>,
}

impl Bench {
    fn from_options(mut options: impl Iterator<Item = String>) -> Option<Bench> {
        let mut bench = Bench {
            markdown: false,
            only: String::new(),
            rounds: 31,
            svg: None,
            rows: Vec::new(),
        };
        while let Some(option) = options.next() {
            match option.as_str() {
                "--markdown" => bench.markdown = true,
                "--only" => bench.only = options.next()?,
                "--rounds" => bench.rounds = options.next()?.parse().ok().filter(|n| *n > 0)?,
                "--svg" => bench.svg = Some(options.next()?),
                _ => return None,
            }
        }
        Some(bench)
    }

    /// Measures one row, if it is wanted.
    fn row<I, A: Answer>(
        &mut self,
        (work, peer_name, target): (&str, &'static str, Option<f64>),
        inputs: &[I],
        library: impl Fn(&I, &mut [u8]) -> A,
        peer: impl Fn(&I, &mut [u8]) -> A,
    ) {
        if !work.contains(&self.only) {
            return;
        }
        verify(inputs, &library, &peer);
        self.rows.push(Row {
            work: work.to_string(),
            peer: peer_name,
            times: measure(self.rounds, inputs, &library, &peer),
            target,
        });
    }

    fn read_strict(&mut self) {
        let random4 = texts(|r| inputs::ipv4(r, 0, 255).to_string());
        for (kind, texts) in [
            ("random", &random4),
            ("short", &texts(|r| inputs::ipv4(r, 0, 9).to_string())),
            ("long", &texts(|r| inputs::ipv4(r, 100, 255).to_string())),
        ] {
            let work = format!("read IPv4, {kind}");
            let read = |t: &Text, out: &mut [u8]| exact::read_address(t.bytes(), 4, out);
            self.row((&work, "std parse", READ_IPV4), texts, read, |t, out| {
                peers::parse(t, Ipv4Addr::octets, out)
            });
            self.row((&work, "inet_pton", None), texts, read, peers::pton::<4>);
        }
        let mix6 = texts(inputs::ipv6_mix);
        for (kind, texts) in [
            ("full", &texts(|r| inputs::ipv6_full(r).to_string())),
            ("with ::", &texts(|r| inputs::ipv6_zeros(r).to_string())),
            ("dotted tail", &texts(inputs::dotted_tail)),
            ("mix", &mix6),
        ] {
            let work = format!("read IPv6, {kind}");
            let read = |t: &Text, out: &mut [u8]| exact::read_address(t.bytes(), 6, out);
            self.row((&work, "std parse", READ_IPV6), texts, read, |t, out| {
                peers::parse(t, Ipv6Addr::octets, out)
            });
            self.row((&work, "inet_pton", None), texts, read, peers::pton::<16>);
        }
        for (work, texts, target) in [
            ("read either, IPv4 random", &random4, READ_IPV4),
            ("read either, IPv6 mix", &mix6, READ_IPV6),
        ] {
            self.row(
                (work, "std parse", target),
                texts,
                |t, out| exact::read_address(t.bytes(), 0, out),
                peers::parse_either,
            );
        }
    }

    fn write_normal(&mut self) {
        for (kind, low, high) in [("random", 0, 255), ("short", 0, 9), ("full", 100, 255)] {
            let addresses = inputs(|r| inputs::ipv4(r, low, high).octets());
            self.write_rows::<4, Ipv4Addr>(&format!("write IPv4, {kind}"), &addresses);
        }
        for (kind, addresses) in [
            ("random", inputs(|r| inputs::ipv6(r).octets())),
            ("zero runs", inputs(|r| inputs::ipv6_zeros(r).octets())),
            ("full", inputs(|r| inputs::ipv6_full(r).octets())),
        ] {
            self.write_rows::<16, Ipv6Addr>(&format!("write IPv6, {kind}"), &addresses);
        }
    }

    fn write_rows<const N: usize, A>(&mut self, work: &str, addresses: &[[u8; N]])
    where
        A: From<[u8; N]> + std::fmt::Display,
    {
        let write = |a: &[u8; N], out: &mut [u8]| exact::write_address(a, out);
        self.row((work, "std write!", WRITE), addresses, write, |a, out| {
            peers::display(A::from(*a), out)
        });
        self.row(
            (work, "inet_ntop, strlen", None),
            addresses,
            write,
            peers::ntop::<N>,
        );
    }

    fn read_loose(&mut self) {
        for (kind, texts) in [
            ("decimal", texts(|r| inputs::loose(r, Base::Decimal, 4))),
            ("hex", texts(|r| inputs::loose(r, Base::Hex, 4))),
            ("octal", texts(|r| inputs::loose(r, Base::Octal, 4))),
            ("one part", texts(|r| inputs::loose(r, Base::Decimal, 1))),
            ("two parts", texts(|r| inputs::loose(r, Base::Decimal, 2))),
            ("three parts", texts(|r| inputs::loose(r, Base::Decimal, 3))),
            ("mix", texts(inputs::loose_mix)),
        ] {
            self.row(
                (&format!("read loose, {kind}"), "inet_aton", C_READERS),
                &texts,
                |t, out| exact::read_loose(t.bytes(), out),
                peers::aton,
            );
        }
    }

    fn networks(&mut self) {
        for (kind, texts) in [
            ("parts", texts(inputs::network_decimal)),
            ("parts and size", texts(inputs::network_sized)),
            ("hex", texts(inputs::network_hex)),
            ("mix", texts(inputs::network_mix)),
        ] {
            self.row(
                (&format!("read network, {kind}"), "inet_net_pton", C_READERS),
                &texts,
                |t, out| {
                    let read = exact::read_network(t.bytes(), out);
                    (read.refusal == 0).then_some(read.size)
                },
                peers::net_pton,
            );
        }
        self.row(
            ("write network", "inet_net_ntop, strlen", None),
            &inputs(inputs::block4),
            |b, out| exact::write_network(&b.octets, b.length, out),
            |b, out| peers::net_ntop(&b.octets, b.length, out),
        );
    }

    fn block_rows<const N: usize, A>(&mut self, family: &str, blocks: &[Block<N>])
    where
        A: From<[u8; N]> + std::fmt::Display,
    {
        let mut each = blocks.iter();
        let texts = texts(|_| {
            let block = each.next().unwrap();
            format!("{}/{}", A::from(block.octets), block.length)
        });
        self.row(
            (&format!("read block, {family}"), "like Rust", None),
            &texts,
            |t, out| exact::read_block(t.bytes(), out),
            |t, out| peers::read_block(t.str(), out),
        );
        self.row(
            (&format!("write block, {family}"), "like Rust", None),
            blocks,
            |b, out| exact::write_block(&b.octets, b.length, out),
            |b, out| peers::write_block(&b.octets, b.length, out),
        );
    }

    fn range_rows<const N: usize>(
        &mut self,
        family: &str,
        address: impl Fn(&mut inputs::Random) -> [u8; N],
        block: impl Fn(&mut inputs::Random) -> Block<N>,
    ) {
        let room = (16 * N - 2) * (N + 1);
        let between = |r: &mut _| between(address(r), address(r), room);
        let tight = |r: &mut _| {
            let range = between(r);
            let mut records = vec![0; room];
            let written = peers::range_blocks::<false>(&range.first, &range.last, &mut records);
            Range {
                room: written.bytes,
                ..range
            }
        };
        for (kind, ranges) in [
            ("random", inputs(between)),
            ("most blocks", inputs(|_| most_blocks(room))),
            ("one block", inputs(|r| covered(block(r), room))),
            ("random, no room to spare", inputs(tight)),
        ] {
            // A call takes so long that a pass over all of them would take several rounds' time.
            let ranges = &ranges[..1024];
            let work = format!("range {family}, {kind}");
            let blocks = |r: &Range<N>, out: &mut [u8]| {
                exact::range_blocks(&r.first, &r.last, &mut out[..r.room])
            };
            self.row((&work, "like Rust", RANGE), ranges, blocks, |r, out| {
                peers::range_blocks::<false>(&r.first, &r.last, &mut out[..r.room])
            });
            self.row((&work, "Rust by masks", None), ranges, blocks, |r, out| {
                peers::range_blocks::<true>(&r.first, &r.last, &mut out[..r.room])
            });
        }
    }

    /// What lists gather to, or what they do not cover; `room` suffices for any list.
    fn list_rows<const N: usize, const GATHER: bool>(&mut self, family: &str, room: usize) {
        let (call, library) = match GATHER {
            true => ("gather", exact::gather as fn(&[u8], u32, &mut [u8]) -> _),
            false => ("uncovered", exact::uncovered as _),
        };
        let tight = |list: List| {
            let mut out = vec![0; room];
            let written = peers::on_records::<false, GATHER>(&list.records, list.family, &mut out);
            List {
                room: written.bytes,
                ..list
            }
        };
        let nested_tight = inputs::nested_lists::<N>(room).into_iter().map(tight);
        for (kind, target, lists) in [
            ("random", LIST, inputs::random_lists::<N>(room)),
            ("nested", LIST, inputs::nested_lists::<N>(room)),
            (
                "nested, no room to spare",
                LIST,
                nested_tight.collect::<Vec<_>>(),
            ),
            ("in order", LIST_IN_ORDER, inputs::gathered_lists::<N>(room)),
        ] {
            let work = format!("{call} {family}, {kind}");
            let blocks =
                |l: &List, out: &mut [u8]| library(&l.records, l.family, &mut out[..l.room]);
            self.row((&work, "like Rust", target), &lists, blocks, |l, out| {
                peers::on_records::<false, GATHER>(&l.records, l.family, &mut out[..l.room])
            });
            self.row((&work, "Rust by masks", None), &lists, blocks, |l, out| {
                peers::on_records::<true, GATHER>(&l.records, l.family, &mut out[..l.room])
            });
        }
    }

    fn sheet_rows(&mut self) {
        let room = room::SHEET;
        let tight = |sheet: Sheet| {
            let mut out = vec![0; room];
            let written = sheets::respell::<false>(&sheet.text, sheet.sorted, &mut out);
            Sheet {
                room: written.bytes,
                ..sheet
            }
        };
        let unsorted = |sheet| Sheet {
            sorted: false,
            ..sheet
        };
        let mixed = || inputs::sheets(room, inputs::line).into_iter();
        for (kind, sheets) in [
            ("random IPv4", inputs::sheets(room, inputs::line4)),
            ("random IPv6", inputs::sheets(room, inputs::line6)),
            ("mixed", mixed().collect()),
            ("mixed, in order", mixed().map(inputs::in_order).collect()),
            ("mixed, unsorted", mixed().map(unsorted).collect()),
            ("mixed, no room to spare", mixed().map(tight).collect()),
        ] {
            let work = format!("sheet, {kind}");
            let respell = |s: &Sheet, out: &mut [u8]| {
                exact::respell(&s.text, s.sorted.into(), &mut out[..s.room])
            };
            self.row((&work, "like Rust", SHEET), &sheets, respell, |s, out| {
                sheets::respell::<false>(&s.text, s.sorted, &mut out[..s.room])
            });
            self.row((&work, "Rust by hand", None), &sheets, respell, |s, out| {
                sheets::respell::<true>(&s.text, s.sorted, &mut out[..s.room])
            });
        }
    }

    fn classes(&mut self) {
        let addresses = inputs(|r| inputs::ipv4(r, 0, 223).octets());
        self.row(
            ("split", "like Rust", None),
            &addresses,
            |a, _| exact::split(a),
            |a, _| peers::split(a),
        );
        let pairs: Vec<_> = addresses.iter().map(|a| peers::split(a)).collect();
        self.row(
            ("join", "like Rust", None),
            &pairs,
            |p, out| exact::join(p.network, p.host, out),
            |p, out| peers::join(p.network, p.host, out),
        );
    }
}

fn main() {
    let Some(mut bench) = Bench::from_options(std::env::args().skip(1)) else {
        eprintln!("{USAGE}");
        std::process::exit(2);
    };
    bench.read_strict();
    bench.write_normal();
    bench.read_loose();
    bench.networks();
    bench.block_rows::<4, Ipv4Addr>("IPv4", &inputs(inputs::block4));
    bench.block_rows::<16, Ipv6Addr>("IPv6", &inputs(inputs::block6));
    bench.range_rows("IPv4", |r| inputs::ipv4(r, 0, 255).octets(), inputs::block4);
    bench.range_rows("IPv6", |r| inputs::ipv6(r).octets(), inputs::block6);
    bench.list_rows::<4, true>("IPv4", room::GATHER_4);
    bench.list_rows::<16, true>("IPv6", room::GATHER_6);
    bench.list_rows::<4, false>("IPv4", room::UNCOVERED_4);
    bench.list_rows::<16, false>("IPv6", room::UNCOVERED_6);
    bench.sheet_rows();
    bench.classes();
    print!(
        "{}",
        table::render(&bench.rows, bench.rounds, bench.markdown)
    );
    if let Some(file) = bench.svg {
        if let Err(error) = std::fs::write(&file, plot::render(&bench.rows)) {
            eprintln!("{file}: {error}");
            std::process::exit(2);
        }
    }
}
