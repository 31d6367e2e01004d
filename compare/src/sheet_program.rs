//! The sheet program, run on generated sheets, by itself and by the script.

use crate::case::{Case, Shown};
use crate::judge::Judge;
use crate::program::{around, note, run, same_start, Ended, Kind, STANDARD_INPUT};
use crate::random::Random;
use crate::sheet_inputs::sheet;
use crate::sheets;
use std::collections::BTreeMap;
use std::{env, fs, io, process};

const RUNS: u32 = 250;

/// What a sheet can come to: a respelled one (0), or one of these refusals.
const OUTCOMES: [u32; 4] = [0, 1, 2, 10];

/// Sheets that are worth a run of their own.
const FIXED: [&str; 10] = [
    "",
    "\n",
    "x",
    "\0\n",
    "::1,1,0\n",
    "::1,1,0",
    "::1,1,0\r\n",
    "::1,1,0\n\n::1,1,0\n",
    "::2,5,5\n10.0.0.2,7,7\n0::2,4,4\n10.0.0.1,9,9\n",
    "::2,1,0\n::1,0,0\n::x,1,0\n",
];

/// What stands on standard input where a file is named, and must not be read.
const BESIDE: &[u8] = b"::9,9,9\n";

/// How a sheet is put to the program.
struct Asked {
    sorted: bool,
    explain: bool,
    /// Whether the sheet is in a file that is named.
    named: bool,
    /// The descriptor that the program writes its status to, a digit: that of standard output or of
    /// standard error, so that it is behind all that is written there. By the script there is none.
    descriptor: Option<u8>,
}

impl Asked {
    fn new(random: &mut Random, kind: Kind) -> Self {
        Self {
            sorted: random.percent(60),
            explain: random.percent(50),
            named: random.percent(40),
            descriptor: (kind == Kind::Program).then(|| *random.pick(&[1, 2])),
        }
    }

    /// The plainest way, in which the program has no arguments.
    fn plain() -> Self {
        Self {
            sorted: false,
            explain: false,
            named: false,
            descriptor: None,
        }
    }

    /// The way that tells the most of a refused sheet.
    fn explained(kind: Kind) -> Self {
        Self {
            explain: true,
            descriptor: (kind == Kind::Program).then_some(1),
            ..Self::plain()
        }
    }

    fn arguments(&self, kind: Kind, file: &str) -> Vec<String> {
        let letters = [(self.sorted, "s"), (self.explain, "e")];
        let letters = letters.into_iter().filter(|(asked, _)| *asked);
        let mut arguments: Vec<String> = match (kind, self.descriptor) {
            (Kind::Script, _) => {
                let options = letters.map(|(_, letter)| format!("-{letter}"));
                ["sheet".to_string()].into_iter().chain(options).collect()
            }
            (Kind::Program, Some(descriptor)) => {
                let letters: String = letters.map(|(_, letter)| letter).collect();
                vec![descriptor.to_string(), format!("-{letters}")]
            }
            (Kind::Program, None) => vec![],
        };
        if self.named {
            arguments.push(file.to_string());
        }
        arguments
    }
}

/// Runs the program or the script again and again, and compares all that it writes, and its status,
/// with those of the rules.
pub fn compare(judge: &mut Judge, kind: Kind, path: &str) -> io::Result<()> {
    let file = env::temp_dir().join(format!("nibharrow-sheet-{}.csv", process::id()));
    let file = file.to_str().unwrap_or("nibharrow-sheet.csv");
    let compared = compare_all(judge, kind, path, file);
    // It is there only if some sheet was put to the program by its name.
    let _ = fs::remove_file(file);
    compared
}

fn compare_all(judge: &mut Judge, kind: Kind, path: &str, file: &str) -> io::Result<()> {
    let mut sheets: Vec<Vec<u8>> = FIXED.map(|sheet| sheet.as_bytes().to_vec()).into();
    sheets.extend([vec![b'1'; 1 << 20], vec![b'\n'; 70_000]]);
    sheets.extend([b"::,1,0\n".repeat(1_025), b"::,1,0\n".repeat(20_000)]);
    // The first byte of too many begins a line, or ends one.
    sheets.push([b"1".repeat(65_535), b"\n1".to_vec()].concat());
    sheets.push([b"1".repeat(65_536), b"\n1".to_vec()].concat());
    let fixed = sheets.len();
    sheets.extend((0..RUNS).map(|_| sheet(&mut judge.random)));
    let mut outcomes = BTreeMap::new();
    for (place, sheet) in sheets.iter().enumerate() {
        let mut asked = vec![Asked::new(&mut judge.random, kind)];
        if place < fixed {
            asked.extend([Asked::plain(), Asked::explained(kind)]);
        }
        for asked in asked {
            compare_one(judge, kind, &asked, (path, file), sheet)?;
        }
        let outcome = sheets::refused_line(sheet).map_or(0, |(_, refusal)| refusal);
        *outcomes.entry(outcome).or_default() += 1;
    }
    report(judge, kind, &outcomes);
    Ok(())
}

fn compare_one(
    judge: &mut Judge,
    kind: Kind,
    asked: &Asked,
    (path, file): (&str, &str),
    sheet: &[u8],
) -> io::Result<()> {
    let (name, input) = if asked.named {
        fs::write(file, sheet)?;
        (file, BESIDE)
    } else {
        (STANDARD_INPUT, sheet)
    };
    let arguments = asked.arguments(kind, file);
    let ended = run(&mut judge.random, path, &arguments, input)?;
    let expected = expected(kind, asked, name, sheet);
    judge.expect(ended == expected, || {
        difference(&arguments, sheet, &ended, &expected)
    });
    Ok(())
}

/// What the rules say of a run: the respelled sheet, or nothing and why. The status is 1 where the
/// sheet is refused; the program has no exit status of its own.
fn expected(kind: Kind, asked: &Asked, name: &str, sheet: &[u8]) -> Ended {
    let (mut output, mut error) = (Vec::new(), Vec::new());
    let refused = sheets::refused_line(sheet);
    match refused {
        None => output = respelt(sheet, asked.sorted),
        Some((line, refusal)) if asked.explain => error = note(name, line, refusal),
        Some((_, refusal)) => error = format!("{name}: refused {refusal}\n").into_bytes(),
    }
    let status = u8::from(refused.is_some());
    match asked.descriptor {
        Some(1) => output.push(b'0' + status),
        Some(_) => error.push(b'0' + status),
        None => {}
    }
    Ended {
        output,
        error,
        status: Some(match kind {
            Kind::Program => 0,
            Kind::Script => status.into(),
        }),
    }
}

fn respelt(sheet: &[u8], sorted: bool) -> Vec<u8> {
    let (sheet, sorted) = (sheet.to_vec(), sorted.into());
    let case = Case::Respell { sheet, sorted };
    let mut out = vec![0; case.ample_room()];
    let length = case.rules(&mut out).bytes;
    out.truncate(length);
    out
}

fn difference(arguments: &[String], sheet: &[u8], ended: &Ended, expected: &Ended) -> String {
    let same = same_start(&ended.output, &expected.output);
    let told = same_start(&ended.error, &expected.error);
    let lines = [
        format!("sheet program, arguments {arguments:?}, at output byte {same}"),
        format!("sheet {}", Shown(&sheet[..sheet.len().min(300)])),
        format!("program {}", around(&ended.output, same)),
        format!("rules   {}", around(&expected.output, same)),
        format!("program told {}", around(&ended.error, told)),
        format!("rules   tell {}", around(&expected.error, told)),
        format!(
            "status {:?}, by the rules {:?}",
            ended.status, expected.status
        ),
    ];
    lines.join("\n  ")
}

fn report(judge: &mut Judge, kind: Kind, outcomes: &BTreeMap<u32, u64>) {
    let by = match kind {
        Kind::Program => "sheet program",
        Kind::Script => "sheet program by the script",
    };
    let count = |outcome| outcomes.get(&outcome).copied().unwrap_or(0);
    let refused: Vec<String> = OUTCOMES[1..]
        .iter()
        .map(|&refusal| format!("{refusal}: {}", count(refusal)))
        .collect();
    let sheets: u64 = outcomes.values().sum();
    println!(
        "{by}: {sheets} sheets, {} accepted, refused {}",
        count(0),
        refused.join(", ")
    );
    for outcome in OUTCOMES {
        judge.expect(count(outcome) > 0, || {
            format!("no sheet of the {by} with outcome {outcome}")
        });
    }
}

#[cfg(test)]
mod tests {
    use super::*;

    const SHEET: &[u8] = b"::2,1,0\n0::1,1,0\n";

    fn asked(sorted: bool, explain: bool, descriptor: Option<u8>) -> Asked {
        Asked {
            sorted,
            explain,
            named: true,
            descriptor,
        }
    }

    #[test]
    fn arguments_are_those_of_the_script_or_of_the_program() {
        let all = asked(true, true, Some(2));
        assert_eq!(all.arguments(Kind::Script, "f"), ["sheet", "-s", "-e", "f"]);
        assert_eq!(all.arguments(Kind::Program, "f"), ["2", "-se", "f"]);
        let none = asked(false, false, Some(1));
        assert_eq!(none.arguments(Kind::Script, "f"), ["sheet", "f"]);
        assert_eq!(none.arguments(Kind::Program, "f"), ["1", "-", "f"]);
        let plain = Asked::plain();
        assert_eq!(plain.arguments(Kind::Script, "f"), ["sheet"]);
        assert!(plain.arguments(Kind::Program, "f").is_empty());
    }

    #[track_caller]
    fn is(ended: Ended, output: &str, error: &str, status: i32) {
        assert_eq!(String::from_utf8(ended.output).unwrap(), output);
        assert_eq!(String::from_utf8(ended.error).unwrap(), error);
        assert_eq!(ended.status, Some(status));
    }

    #[test]
    fn refused_sheets_are_told_and_not_written() {
        let good = expected(Kind::Script, &asked(true, true, None), "f", SHEET);
        is(good, "::1,1,0\n::2,1,0\n", "", 0);
        let good = expected(Kind::Program, &asked(false, false, Some(1)), "f", SHEET);
        is(good, "::2,1,0\n::1,1,0\n0", "", 0);
        let cut = &SHEET[..SHEET.len() - 1];
        let bad = expected(Kind::Script, &asked(true, false, None), "f", cut);
        is(bad, "", "f: refused 2\n", 1);
        let bad = expected(Kind::Program, &asked(true, true, Some(2)), "f", cut);
        let words = nibharrow::Refusal::Malformed;
        is(bad, "", &format!("f:2: refused 2: {words}\n1"), 0);
    }
}
