//! One row: the library and its peer, timed in turn on the same inputs.

use std::fmt::Debug;
use std::hint::black_box;
use std::time::Duration;

use nibharrow::raw::{BlockRead, BlocksWritten, NetworkHost, Written};
use nibharrow::room;

/// How long a side is timed for in each round, and in each of its turns: short ones, so that what
/// else goes on in the machine meets both sides alike.
const ROUND: Duration = Duration::from_millis(5);
const TURN: Duration = Duration::from_millis(1);

/// The room that a call is lent: enough for every answer.
const ROOM: usize = room::UNCOVERED_6;

/// An answer that can be compared with the other side's.
pub trait Answer: Debug + PartialEq {
    /// How many bytes at the start of the lent buffer are part of it.
    fn bytes(&self) -> usize;
}

macro_rules! counted_answers {
    ($($answer:ty),*) => {
        $(impl Answer for $answer {
            fn bytes(&self) -> usize {
                self.bytes
            }
        })*
    };
}

counted_answers!(Written, BlockRead, BlocksWritten);

impl Answer for NetworkHost {
    fn bytes(&self) -> usize {
        0
    }
}

/// A network's size in bits.
impl Answer for Option<u32> {
    fn bytes(&self) -> usize {
        self.map_or(0, |size| size.div_ceil(8) as usize)
    }
}

/// Nanoseconds per call of each round, library first.
pub struct Times {
    pub rounds: Vec<[f64; 2]>,
}

impl Times {
    /// Nanoseconds per call of the library (0) or the peer (1), in rising order.
    fn sorted(&self, side: usize) -> Vec<f64> {
        sorted(self.rounds.iter().map(|round| round[side]))
    }

    pub fn median(&self, side: usize) -> f64 {
        at(&self.sorted(side), 0.5)
    }

    pub fn minimum(&self, side: usize) -> f64 {
        self.sorted(side)[0]
    }

    pub fn ratio(&self) -> f64 {
        self.median(0) / self.median(1)
    }

    /// The 10th and the 90th percentile of the rounds' ratios.
    pub fn spread(&self) -> (f64, f64) {
        let ratios = sorted(self.rounds.iter().map(|round| round[0] / round[1]));
        (at(&ratios, 0.1), at(&ratios, 0.9))
    }
}

fn sorted(values: impl Iterator<Item = f64>) -> Vec<f64> {
    let mut values: Vec<f64> = values.collect();
    values.sort_by(f64::total_cmp);
    values
}

/// The value below which a share of the sorted values lies.
fn at(sorted: &[f64], share: f64) -> f64 {
    sorted[(share * (sorted.len() - 1) as f64).round() as usize]
}

/// The processor time of this thread. Time in which others have the processor does not count.
fn thread_time() -> Duration {
    #[repr(C)]
    struct Timespec {
        seconds: i64,
        nanoseconds: i64,
    }
    extern "C" {
        fn clock_gettime(clock: i32, time: *mut Timespec) -> i32;
    }
    const CLOCK_THREAD_CPUTIME_ID: i32 = 3;
    let mut time = Timespec {
        seconds: 0,
        nanoseconds: 0,
    };
    // SAFETY: `time` has the layout of struct timespec on 64-bit Linux.
    let status = unsafe { clock_gettime(CLOCK_THREAD_CPUTIME_ID, &mut time) };
    assert_eq!(status, 0, "clock_gettime");
    Duration::new(time.seconds as u64, time.nanoseconds as u32)
}

/// The time of some passes over the inputs. Not inlined, so that each side has its own loop and
/// neither is arranged around the other.
#[inline(never)]
fn passes<I, A>(
    side: &impl Fn(&I, &mut [u8]) -> A,
    inputs: &[I],
    out: &mut [u8],
    count: u32,
) -> Duration {
    let began = thread_time();
    for _ in 0..count {
        for input in inputs {
            black_box(side(black_box(input), black_box(&mut *out)));
        }
    }
    thread_time() - began
}

/// How many passes take a turn's time or somewhat more, and how long they do take.
fn passes_of_turn<I, A>(
    side: &impl Fn(&I, &mut [u8]) -> A,
    inputs: &[I],
    out: &mut [u8],
) -> (u32, Duration) {
    let mut count = 1;
    loop {
        let took = passes(side, inputs, out, count);
        if TURN <= took {
            return (count, took);
        }
        count *= 2;
    }
}

/// Panics unless both sides give the same answer to every input.
pub fn verify<I, A: Answer>(
    inputs: &[I],
    library: &impl Fn(&I, &mut [u8]) -> A,
    peer: &impl Fn(&I, &mut [u8]) -> A,
) {
    let (mut ours, mut theirs) = (vec![0; ROOM], vec![0; ROOM]);
    for (index, input) in inputs.iter().enumerate() {
        let (answer, expected) = (library(input, &mut ours), peer(input, &mut theirs));
        assert_eq!(answer, expected, "answers to input {index}");
        let bytes = answer.bytes();
        assert_eq!(ours[..bytes], theirs[..bytes], "bytes of input {index}");
        // So that no byte of this answer stands in for one that the next should have written.
        ours[..bytes].fill(0);
        theirs[..bytes].fill(0);
    }
}

/// Times both sides in turn. The side that begins changes from round to round, so that neither has
/// the better place; the lent buffer is not cleared between calls on either side.
pub fn measure<I, A: Answer>(
    rounds: usize,
    inputs: &[I],
    library: &impl Fn(&I, &mut [u8]) -> A,
    peer: &impl Fn(&I, &mut [u8]) -> A,
) -> Times {
    let mut out = vec![0; ROOM];
    let (library_count, library_turn) = passes_of_turn(library, inputs, &mut out);
    let (peer_count, peer_turn) = passes_of_turn(peer, inputs, &mut out);
    let longest = library_turn.max(peer_turn);
    let turns = ROUND.as_nanos().div_ceil(longest.as_nanos()) as u32;
    let per_call = |took: Duration, count: u32| {
        took.as_nanos() as f64 / (f64::from(turns * count) * inputs.len() as f64)
    };
    let mut round = |number: usize| {
        let (mut ours, mut theirs) = (Duration::ZERO, Duration::ZERO);
        for turn in 0..2 * turns as usize {
            if (number + turn).is_multiple_of(2) {
                ours += passes(library, inputs, &mut out, library_count);
            } else {
                theirs += passes(peer, inputs, &mut out, peer_count);
            }
        }
        [per_call(ours, library_count), per_call(theirs, peer_count)]
    };
    Times {
        rounds: (0..rounds).map(&mut round).collect(),
    }
}
