//! Counts at their limit: the count of client 0 on file 0 is brought to 255, left there for a while and brought back,
//! over and over.

use super::aim::Aim;
use super::rng::Rng;
use super::stage::Stage;
use crate::{Mode, Refusal, Step};

pub struct Tide {
    first_mode: Mode,
    turn: usize,
}

const RISE: usize = u8::MAX as usize;
const STAY: usize = 60;
const CYCLE: usize = RISE + STAY + RISE;

impl Tide {
    /// The aims while the count is at its limit.
    pub const HIGH: [(usize, Aim); 5] = [
        (20, Aim::Refused(Refusal::CountAtLimit)),
        (20, Aim::Accepted),
        (30, Aim::Wait),
        (3, Aim::Crash),
        (6, Aim::Anything),
    ];

    pub fn new(rng: &mut Rng) -> Self {
        Tide { first_mode: *rng.pick(&[Mode::Read, Mode::Write]), turn: 0 }
    }

    /// The next step of the rise or fall; none while the count is high. While the server recovers or an open waits the
    /// tide stands still, but opens are tried now and then all the same.
    pub fn step(&mut self, stage: &mut Stage) -> Option<Step> {
        let (cycle, turn) = (self.turn / CYCLE, self.turn % CYCLE);
        let other_mode = if self.first_mode == Mode::Read { Mode::Write } else { Mode::Read };
        let mode = if cycle.is_multiple_of(2) { self.first_mode } else { other_mode };
        let open = Step::Open { mode, client: 0, file: 0 };
        if stage.service.server.recovering || stage.any_open_waits() {
            return stage.rng.one_in(3).then_some(open);
        }
        self.turn += 1;
        match turn {
            0..RISE => Some(open),
            turn if turn < RISE + STAY => None,
            _ => Some(Step::Close { mode, client: 0, file: 0 }),
        }
    }
}
