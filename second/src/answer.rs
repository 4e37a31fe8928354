//! Refusals, reasons of abort and decisions (N1 to N5, Q7.1 to Q7.8, Q3.4, Q12.5, Q8.5,
//! Q8.6).

/// In the order of the causes: where several apply, the first of this list is
/// returned. The numbers do not ascend along it, and 6 is retired. The last one, 28, has
/// no place in this order.
#[derive(Clone, Copy, PartialEq, Eq, Debug)]
#[repr(u8)]
pub enum Refusal {
    BufferTooShort = 1,
    Impossible = 2,
    /// First keys that are no good table, at the start of a site or of the merger.
    BadTable = 22,
    OtherSite = 3,
    NotNext = 4,
    NotHeld = 5,
    /// The call belongs to the coordinator, and this site is not the coordinator.
    NotCoordinator = 26,
    /// The stage does not allow the call, a site enlisted before included.
    WrongStage = 27,
    JoinedOutstanding = 7,
    Forgotten = 8,
    KeyHeld = 9,
    NewerVersion = 10,
    TooManyKeys = 11,
    /// Start plus length of a value to write is above 2^64 − 1.
    DoesNotFit = 29,
    LiveFull = 12,
    CountSpent = 13,
    NotAbove = 14,
    QueueFull = 15,
    PartsDisagree = 16,
    Nothing = 17,
    /// A page length of 0. Only conversions of bookmarks give 28, and there 2 stands on
    /// both sides of it: a wrong length of buffer goes before it, a bad way back behind it.
    NoPageLength = 28,
}

impl Refusal {
    pub fn number(self) -> u64 {
        self as u64
    }
}

/// Arguments of a VOTE or JOINED, and reasons of abort.
pub mod reason {
    pub const NOT_HELD: u64 = 5;
    pub const LIVE_FULL: u64 = 12;
    pub const CLOCK_SPENT: u64 = 13;
    pub const INCONSISTENT: u64 = 18;
    pub const FORGOTTEN: u64 = 19;
    pub const ABANDONED: u64 = 20;
}

#[derive(Clone, Copy, PartialEq, Eq, Debug)]
pub enum Decision {
    Commit(u64),
    Abort(u64),
}

/// Outcome of a call that may send: words written, and the decision that fell in it.
#[derive(Clone, Copy, PartialEq, Eq, Debug)]
pub struct Sent {
    pub words: usize,
    pub decision: Option<Decision>,
}

/// Order of commits: number first, coordinator second.
#[derive(Clone, Copy, PartialEq, Eq, PartialOrd, Ord, Hash, Debug, Default)]
pub struct Pair {
    pub number: u64,
    pub coordinator: u64,
}

impl Pair {
    pub fn new(number: u64, coordinator: u64) -> Self {
        Pair { number, coordinator }
    }
}

pub fn require(condition: bool, otherwise: Refusal) -> Result<(), Refusal> {
    if condition {
        Ok(())
    } else {
        Err(otherwise)
    }
}
