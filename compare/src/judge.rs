//! Puts a call to both programs in guarded buffers, compares everything, and counts the outcomes.

use crate::case::{Answer, Case, Shown, OUTCOMES};
use crate::random::Random;
use std::collections::BTreeMap;
use std::fmt::Display;

/// After this many printed failures a run only counts them.
const MOST_PRINTED: u64 = 20;

pub struct Judge {
    pub random: Random,
    seed: u64,
    outcomes: BTreeMap<(&'static str, u32), u64>,
    pub compared: u64,
    pub failures: u64,
    pattern: Vec<u8>,
    library_buffer: Vec<u8>,
    rules_buffer: Vec<u8>,
}

impl Judge {
    pub fn new(seed: u64) -> Self {
        Self {
            random: Random::new(seed),
            seed,
            outcomes: BTreeMap::new(),
            compared: 0,
            failures: 0,
            pattern: Vec::new(),
            library_buffer: Vec::new(),
            rules_buffer: Vec::new(),
        }
    }

    /// How many bytes a good answer takes by the rules; 0 for a refusal.
    pub fn need(&mut self, case: &Case) -> usize {
        self.rules_buffer.resize(case.ample_room(), 0);
        case.rules(&mut self.rules_buffer).bytes
    }

    /// Compares the two programs on a buffer of `room` bytes in the middle of a larger one, every
    /// byte of which is random before the call and is compared after it.
    pub fn compare(&mut self, case: &Case, room: usize) {
        let (before, behind) = (self.random.below(17), 1 + self.random.below(32));
        self.pattern.resize(before + room + behind, 0);
        self.random.fill(&mut self.pattern);
        self.library_buffer.clone_from(&self.pattern);
        self.rules_buffer.clone_from(&self.pattern);
        let library = case.library(&mut self.library_buffer[before..before + room]);
        let rules = case.rules(&mut self.rules_buffer[before..before + room]);

        self.compared += 1;
        let outcome = (case.name(), library.refusal);
        *self.outcomes.entry(outcome).or_default() += 1;
        let same = library == rules && self.library_buffer == self.rules_buffer;
        if !same || !self.rest_is_kept(library, before, room) {
            let mut pairs = self.library_buffer.iter().zip(&self.rules_buffer);
            let differs = pairs.position(|(ours, theirs)| ours != theirs);
            let lines = [
                format!("{case}, room {room} at {before}"),
                format!("first byte that differs {differs:?}"),
                format!("buffer before {}", Shown(&self.pattern)),
                format!(
                    "library {library:?}, buffer {}",
                    Shown(&self.library_buffer)
                ),
                format!("rules   {rules:?}, buffer {}", Shown(&self.rules_buffer)),
            ];
            self.fail(&lines.join("\n  "));
        }
    }

    /// Whether a refusal has every other field zero and every byte as before, and a good answer
    /// every byte it does not count. This asks nothing of the second implementation.
    fn rest_is_kept(&self, answer: Answer, before: usize, room: usize) -> bool {
        let refusal = Answer {
            refusal: answer.refusal,
            ..Answer::default()
        };
        let behind = before + answer.bytes.min(room);
        (answer.refusal == 0 || answer == refusal)
            && answer.bytes <= room
            && self.library_buffer[..before] == self.pattern[..before]
            && self.library_buffer[behind..] == self.pattern[behind..]
    }

    /// Fails the run unless `holds`.
    pub fn expect(&mut self, holds: bool, describe: impl FnOnce() -> String) {
        if !holds {
            self.fail(&describe());
        }
    }

    /// Prints what went wrong and counts it.
    pub fn fail(&mut self, what: &dyn Display) {
        self.failures += 1;
        if self.failures <= MOST_PRINTED {
            println!("FAILURE (seed {}): {what}", self.seed);
        }
    }

    /// Prints a line per kind of call. An outcome that was never reached, or that the rules do not
    /// know, fails the run.
    pub fn report(&mut self) {
        println!("library against second implementation:");
        for (name, possible) in OUTCOMES {
            let reached = self.outcomes.clone();
            let count = |refusal| reached.get(&(name, refusal)).copied().unwrap_or(0);
            let total: u64 = (0..=10).map(count).sum();
            let refused: Vec<String> = (1..=10)
                .filter(|&refusal| count(refusal) > 0)
                .map(|refusal| format!("{refusal}: {}", count(refusal)))
                .collect();
            let refused = refused.join(", ");
            println!(
                "  {name:<14} {total:>9} compared, {:>8} accepted, refused {refused}",
                count(0)
            );
            for refusal in 0..=10 {
                let expected = possible.contains(&refusal);
                self.expect(expected == (count(refusal) > 0), || {
                    format!(
                        "{name} with outcome {refusal}: reached {}, possible {expected}",
                        count(refusal)
                    )
                });
            }
        }
    }
}
