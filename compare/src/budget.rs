//! How much a suite generates.

use std::time::{Duration, Instant};

/// The rounds of a run that sets no time.
const USUAL_ROUNDS: u64 = 1_000_000;

#[derive(Clone, Copy)]
pub enum Budget {
    Rounds(u64),
    Time(Duration),
}

impl Budget {
    pub fn usual() -> Budget {
        Budget::Rounds(USUAL_ROUNDS)
    }

    /// So many times the time of a run, where that is set.
    pub fn times(self, share: u32) -> Budget {
        match self {
            Budget::Rounds(_) => self,
            Budget::Time(time) => Budget::Time(time * share),
        }
    }

    /// Counts rounds from 0 until the budget is used up. The time starts with this call.
    pub fn rounds(self) -> impl Iterator<Item = u64> {
        let start = Instant::now();
        (0..).take_while(move |&round| match self {
            Budget::Rounds(most) => round < most,
            Budget::Time(most) => start.elapsed() < most,
        })
    }
}
