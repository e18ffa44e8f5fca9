//! Request 2.9: the boards, the words that name them, and what each holds.

use crate::Refusal;

/// The words that name a board.
pub const GAUGE: u32 = 0;
pub const BENCH: u32 = 1;

/// The limits of refusals 6, 10 and 14.
#[derive(Clone, Copy, Debug, PartialEq, Eq)]
pub struct Limits {
    pub processes: i64,
    pub instances: i64,
    pub hop: i32,
}

impl Limits {
    /// The limits that document 01 names, and request 2.8's for the hop.
    pub const GAUGE: Limits = Limits {
        processes: 1024,
        instances: 4096,
        hop: 5,
    };

    /// The bench board's pair; its hops are the gauge's.
    pub const BENCH: Limits = Limits {
        processes: 256,
        instances: 1024,
        ..Limits::GAUGE
    };

    /// The limits of the board that a word names; declines by 33.
    pub fn of(board: u32) -> Result<Limits, Refusal> {
        match board {
            GAUGE => Ok(Limits::GAUGE),
            BENCH => Ok(Limits::BENCH),
            _ => Err(Refusal(33)),
        }
    }
}
