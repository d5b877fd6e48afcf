//! How a round ended.

/// What closing a round came to, or that none was closed.
#[derive(Clone, Copy, PartialEq, Eq, Debug)]
#[repr(u8)]
pub enum Closing {
    /// No close, or a refused one.
    None = 0,
    /// The next round is open.
    NextRound = 1,
    /// Decided before round t+1, because the estimates agree.
    Agreed = 2,
    /// Decided in round t+1, whether or not the estimates agree.
    LastRound = 3,
}

impl Closing {
    /// Its number in the header.
    pub fn number(self) -> u8 {
        self as u8
    }

    /// This one, or the earlier one where no round was closed since.
    pub fn or(self, earlier: Closing) -> Closing {
        match self {
            Closing::None => earlier,
            _ => self,
        }
    }
}
