//! Compares the library with a second implementation of its rules, with the C library of the
//! machine and with `std::net`.
//!
//! `compare [--seed N] [--count N] [--program PATH] [--sheet-program PATH] [--script PATH]`: the seed is
//! the clock's unless given; the sweeps always run, and random calls follow until there are `count`
//! comparisons; the range program and the sheet program are compared as well, each by itself and both
//! by the script that runs them.

mod case;
mod clib;
mod generate;
mod judge;
mod known;
mod list_sweeps;
mod lists;
mod peers;
mod program;
mod random;
mod roundtrips;
mod rules;
mod run;
mod sheet_inputs;
mod sheet_laws;
mod sheet_program;
mod sheet_sweeps;
mod sheets;
mod specimens;
mod sweeps;

use case::Case;
use judge::Judge;
use program::Kind;
use run::Run;
use std::io;
use std::process::ExitCode;
use std::time::{Instant, SystemTime, UNIX_EPOCH};

const DEFAULT_COUNT: u64 = 4_000_000;

struct Options {
    seed: u64,
    count: u64,
    program: Option<String>,
    sheet_program: Option<String>,
    script: Option<String>,
}

fn options() -> Result<Options, String> {
    let clock = SystemTime::now()
        .duration_since(UNIX_EPOCH)
        .map_or(0, |since| since.as_nanos() as u64);
    let mut options = Options {
        seed: clock,
        count: DEFAULT_COUNT,
        program: None,
        sheet_program: None,
        script: None,
    };
    let mut arguments = std::env::args().skip(1);
    while let Some(name) = arguments.next() {
        let value = arguments.next().ok_or(format!("{name} needs a value"))?;
        let number = || {
            value
                .parse()
                .map_err(|_| format!("{name} needs a number, not {value}"))
        };
        match name.as_str() {
            "--seed" => options.seed = number()?,
            "--count" => options.count = number()?,
            "--program" => options.program = Some(value),
            "--sheet-program" => options.sheet_program = Some(value),
            "--script" => options.script = Some(value),
            _ => {
                return Err(format!(
                    "{name} is unknown; known are --seed N, --count N, --program PATH, \
                     --sheet-program PATH and --script PATH"
                ))
            }
        }
    }
    Ok(options)
}

fn main() -> ExitCode {
    let options = match options() {
        Ok(options) => options,
        Err(message) => {
            eprintln!("{message}");
            return ExitCode::from(2);
        }
    };
    println!("seed {}", options.seed);
    let started = Instant::now();
    let mut run = Run::new(options.seed);
    let sweeps = sweeps::SWEEPS.iter().chain(&list_sweeps::SWEEPS);
    for sweep in sweeps.chain(&sheet_sweeps::SWEEPS) {
        sweep(&mut run);
    }
    let swept = run.judge.compared;
    random_calls(&mut run, options.count);
    println!(
        "{swept} comparisons in order, {} at random",
        run.judge.compared - swept
    );
    run.report(options.count >= DEFAULT_COUNT);
    compare_programs(&mut run.judge, &options);
    let (compared, failures) = (run.judge.compared, run.judge.failures);
    let seconds = started.elapsed().as_secs_f64();
    println!("total: {compared} compared in {seconds:.1} s, {failures} failures");
    ExitCode::from(u8::from(failures > 0))
}

/// Compares the programs that are named.
fn compare_programs(judge: &mut Judge, options: &Options) {
    type Compare = fn(&mut Judge, Kind, &str) -> io::Result<()>;
    let (ranges, sheets): (Compare, Compare) = (program::compare, sheet_program::compare);
    for (compare, kind, path) in [
        (ranges, Kind::Program, &options.program),
        (ranges, Kind::Script, &options.script),
        (sheets, Kind::Program, &options.sheet_program),
        (sheets, Kind::Script, &options.script),
    ] {
        let Some(path) = path else { continue };
        if let Err(error) = compare(judge, kind, path) {
            judge.fail(&format!("{path} cannot be run: {error}"));
        }
    }
}

/// Random calls until that many comparisons are made.
fn random_calls(run: &mut Run, count: u64) {
    while run.judge.compared < count {
        let turn = run.judge.compared;
        let case = generate::case(&mut run.judge.random, turn);
        let room = room(&mut run.judge, &case);
        run.compare(&case, room);
    }
}

/// Exactly enough room, a little more or less, or any from none to ample.
fn room(judge: &mut Judge, case: &Case) -> usize {
    let need = judge.need(case);
    let random = &mut judge.random;
    match random.below(8) {
        0 => need,
        1 => need.saturating_sub(1),
        2 => need.saturating_sub(random.below(20)),
        3 => random.below(51),
        _ => need + random.below(20),
    }
}
