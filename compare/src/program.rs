//! The range program, run on generated standard input, by itself and by the script.

use crate::case::{Shown, REFUSAL_TEXT_ROOM};
use crate::generate::{any_bytes, damage, number, octets, strict};
use crate::judge::Judge;
use crate::random::Random;
use crate::rules;
use nibharrow::exact;
use std::collections::BTreeMap;
use std::ffi::OsStr;
use std::fmt;
use std::io::{self, Write};
use std::process::{Command, Stdio};
use std::thread;

const SMALL_RUNS: u32 = 300;
const LARGE_RUNS: u32 = 6;
const LARGE_LINES: usize = 5_000;

/// The name of standard input where something is told of it.
pub const STANDARD_INPUT: &str = "(standard input)";

/// What a line can come to: blocks (0), or one of these refusals.
const OUTCOMES: [u32; 5] = [0, 1, 2, 8, 9];

/// Inputs that are worth a run of their own.
const FIXED: [&str; 12] = [
    "",
    "\n",
    "\n\n",
    " ",
    " \n",
    "10.0.0.1 10.0.0.6",
    "10.0.0.1 10.0.0.6\n",
    "10.0.0.1 10.0.0.6\r\n10.0.0.1 10.0.0.6\r",
    ":: ffff:ffff:ffff:ffff:ffff:ffff:ffff:ffff\n::1 ffff:ffff:ffff:ffff:ffff:ffff:ffff:fffe",
    "0.0.0.1 255.255.255.254\n0.0.0.0 255.255.255.255\n\n1.1.1.1 ::\n2.2.2.2 1.1.1.1",
    "\0",
    "1.2.3.4 1.2.3.4\n\0\n1.2.3.4 1.2.3.4",
];

/// What is run: the program, or the script, which ends with the program's status and may have each
/// refused line told on standard error.
#[derive(Clone, Copy, PartialEq)]
pub enum Kind {
    Program,
    Script,
}

/// What a run wrote to standard output and to standard error, and its status unless it was killed.
#[derive(PartialEq)]
pub struct Ended {
    pub output: Vec<u8>,
    pub error: Vec<u8>,
    pub status: Option<i32>,
}

/// Runs the program or the script again and again, and compares all that it writes, and its status,
/// with those of the rules.
pub fn compare(judge: &mut Judge, kind: Kind, path: &str) -> io::Result<()> {
    let mut outcomes = BTreeMap::new();
    let mut lines = 0;
    let mut inputs: Vec<Vec<u8>> = FIXED
        .iter()
        .map(|input| input.as_bytes().to_vec())
        .collect();
    inputs.extend([vec![b'1'; 1 << 20], vec![b'\n'; 70_000], vec![b' '; 4096]]);
    for _ in 0..SMALL_RUNS {
        let lines = judge.random.below(30);
        inputs.push(input(&mut judge.random, lines));
    }
    inputs.extend((0..LARGE_RUNS).map(|_| input(&mut judge.random, LARGE_LINES)));
    let runs = inputs.len();
    for input in inputs {
        for line in input.split_inclusive(|&byte| byte == b'\n') {
            lines += 1;
            *outcomes.entry(outcome(line)).or_default() += 1;
        }
        let explain = kind == Kind::Script && judge.random.percent(50);
        let arguments: &[&str] = match (kind, explain) {
            (Kind::Program, _) => &[],
            (Kind::Script, false) => &["ranges"],
            (Kind::Script, true) => &["ranges", "-e"],
        };
        let expected = expected(kind, explain, &input);
        let ended = run(&mut judge.random, path, arguments, &input)?;
        if ended != expected {
            judge.fail(&first_difference(kind, &input, &ended, &expected));
        }
    }
    report(judge, kind, &outcomes, runs, lines);
    Ok(())
}

/// What the rules say of a run. The status of the script is 1 where a line is refused; the program
/// has no exit status of its own.
fn expected(kind: Kind, explain: bool, input: &[u8]) -> Ended {
    let refused = rules::refused_lines(input);
    let status = i32::from(kind == Kind::Script && !refused.is_empty());
    let told = refused.iter().filter(|_| explain);
    Ended {
        output: rules::ranges_program(input),
        error: told
            .flat_map(|&(line, refusal)| note(STANDARD_INPUT, line, refusal))
            .collect(),
        status: Some(status),
    }
}

/// What is told of a refused line: `FILE:LINE: refused N: WORDS`, with the words of the library.
pub fn note(file: &str, line: usize, refusal: u32) -> Vec<u8> {
    let mut words = [0; REFUSAL_TEXT_ROOM];
    let length = exact::refusal_text(refusal, &mut words).bytes;
    let mut note = format!("{file}:{line}: refused {refusal}: ").into_bytes();
    note.extend(&words[..length]);
    note.push(b'\n');
    note
}

impl fmt::Display for Kind {
    fn fmt(&self, f: &mut fmt::Formatter<'_>) -> fmt::Result {
        f.write_str(match self {
            Kind::Program => "range program",
            Kind::Script => "range program by the script",
        })
    }
}

fn report(judge: &mut Judge, kind: Kind, outcomes: &BTreeMap<u32, u64>, runs: usize, lines: u64) {
    let count = |outcome| outcomes.get(&outcome).copied().unwrap_or(0);
    let refused: Vec<String> = OUTCOMES[1..]
        .iter()
        .map(|&refusal| format!("{refusal}: {}", count(refusal)))
        .collect();
    println!(
        "{kind}: {runs} runs, {lines} lines, {} accepted, refused {}",
        count(0),
        refused.join(", ")
    );
    for outcome in OUTCOMES {
        judge.expect(count(outcome) > 0, || {
            format!("no line of the {kind} with outcome {outcome}")
        });
    }
}

/// 0 or the refusal that a single line comes to.
fn outcome(line: &[u8]) -> u32 {
    let output = rules::ranges_program(line);
    let refusal = output
        .strip_prefix(b"refused ")
        .and_then(|number| number.first());
    refusal.map_or(0, |digit| u32::from(digit - b'0'))
}

/// Runs the program or the script. Its input comes in pieces of random size.
pub fn run(
    random: &mut Random,
    path: &str,
    arguments: &[impl AsRef<OsStr>],
    input: &[u8],
) -> io::Result<Ended> {
    let mut child = Command::new(path)
        .args(arguments)
        .stdin(Stdio::piped())
        .stdout(Stdio::piped())
        .stderr(Stdio::piped())
        .spawn()?;
    let mut stdin = child.stdin.take().expect("piped");
    let piece = 1 + random.below(if input.len() < 2000 { 100 } else { 20_000 });
    let ended = thread::scope(|scope| {
        // A program that stops reading early is found out by its output.
        scope.spawn(move || {
            input
                .chunks(piece)
                .try_for_each(|piece| stdin.write_all(piece))
        });
        child.wait_with_output()
    })?;
    Ok(Ended {
        output: ended.stdout,
        error: ended.stderr,
        status: ended.status.code(),
    })
}

/// The first line of input whose answer is not the expected one, and what was told.
fn first_difference(kind: Kind, input: &[u8], ended: &Ended, expected: &Ended) -> String {
    let same = same_start(&ended.output, &expected.output);
    let told = same_start(&ended.error, &expected.error);
    let mut written = 0;
    let guilty = input.split_inclusive(|&byte| byte == b'\n').find(|line| {
        written += rules::ranges_program(line).len();
        written > same
    });
    let line = guilty.unwrap_or(b"(behind the last line)");
    let lines = [
        format!("{kind} on {} bytes, at output byte {same}", input.len()),
        format!("line {}", Shown(&line[..line.len().min(300)])),
        format!("program {}", around(&ended.output, same)),
        format!("rules   {}", around(&expected.output, same)),
        format!("program told {}", around(&ended.error, told)),
        format!("rules   tell {}", around(&expected.error, told)),
        format!(
            "status {:?}, by the rules {:?}",
            ended.status, expected.status
        ),
    ];
    lines.join("\n  ")
}

/// How many bytes are the same from the start.
pub fn same_start(one: &[u8], other: &[u8]) -> usize {
    one.iter()
        .zip(other)
        .take_while(|(one, other)| one == other)
        .count()
}

/// Some of the text around the byte.
pub fn around(text: &[u8], byte: usize) -> String {
    let rest = &text[byte.saturating_sub(40).min(text.len())..];
    Shown(&rest[..rest.len().min(120)]).to_string()
}

/// Lines of every sort; the last one may lack its newline.
fn input(random: &mut Random, lines: usize) -> Vec<u8> {
    let mut input = Vec::new();
    for _ in 0..lines {
        input.extend(line(random));
        let ending: &[u8] = if random.percent(3) { b"\r\n" } else { b"\n" };
        input.extend(ending);
    }
    if random.percent(40) {
        input.pop();
    }
    input
}

fn line(random: &mut Random) -> Vec<u8> {
    match random.below(20) {
        0 => Vec::new(),
        1 => format!("{}{}", strict(random), " ".repeat(random.below(140))).into_bytes(),
        2 => filled(random),
        3 => {
            let count = random.below(140);
            any_bytes(random, count)
        }
        4..=6 => {
            let mut line = range(random).into_bytes();
            damage(random, &mut line);
            line
        }
        7 => {
            let gap = *random.pick(&["  ", "\t", "", " \t", ", ", "-"]);
            let (lead, trail) = (*random.pick(&["", " "]), *random.pick(&["", " "]));
            format!("{lead}{}{gap}{}{trail}", strict(random), strict(random)).into_bytes()
        }
        8 | 9 => format!("{} {}", strict(random), strict(random)).into_bytes(),
        _ => range(random).into_bytes(),
    }
}

/// Two addresses of one family in normal text, mostly the lower one first.
fn range(random: &mut Random) -> String {
    let width = *random.pick(&[32, 128]);
    let (one, other) = (number(random, width), number(random, width));
    let ordered = random.percent(85);
    let (first, last) = if ordered {
        (one.min(other), one.max(other))
    } else {
        (one, other)
    };
    let [first, last] = [first, last].map(|number| {
        let mut text = [0; 39];
        let length = rules::write_address(&octets(number, width), &mut text)
            .expect("an address in ample room");
        String::from_utf8_lossy(&text[..length]).into_owned()
    });
    format!("{first} {last}")
}

/// A line whose length, or the length of one of its halves, is at the limit.
fn filled(random: &mut Random) -> Vec<u8> {
    let (one, other) = (60 + random.below(8), 60 + random.below(8));
    let fill = *random.pick(&["0", "1", ":", "x"]);
    let first = if random.percent(30) {
        strict(random)
    } else {
        fill.repeat(one)
    };
    let last = if random.percent(30) {
        strict(random)
    } else {
        fill.repeat(other)
    };
    format!("{first} {last}").into_bytes()
}
