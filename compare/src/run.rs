//! One run: every call is put to the second implementation, to the peers, and back where there is a
//! way back.

use crate::case::Case;
use crate::judge::Judge;
use crate::peers::Peers;
use crate::roundtrips;

pub struct Run {
    pub judge: Judge,
    peers: Peers,
    round_trips: u64,
}

impl Run {
    pub fn new(seed: u64) -> Self {
        Self {
            judge: Judge::new(seed),
            peers: Peers::default(),
            round_trips: 0,
        }
    }

    /// Compares everything there is to compare about the call, with this much room.
    pub fn compare(&mut self, case: &Case, room: usize) {
        self.judge.compare(case, room);
        self.peers.compare(&mut self.judge, case);
        self.round_trips += u64::from(roundtrips::check(&mut self.judge, case));
    }

    /// Compares with ample room, with exactly enough, and with one byte too few.
    pub fn compare_tight(&mut self, case: &Case) {
        let need = self.judge.need(case);
        for room in [need + 8, need, need.saturating_sub(1)] {
            self.compare(case, room);
        }
    }

    /// Prints what was compared. An outcome that was never reached fails the run, and so does a
    /// known difference that was never met if `all_met` asks for it.
    pub fn report(&mut self, all_met: bool) {
        self.judge.report();
        println!("round trips: {}", self.round_trips);
        self.peers.report(&mut self.judge, all_met);
    }
}
