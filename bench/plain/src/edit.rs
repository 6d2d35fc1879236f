//! Edits of a network, and why they are refused.

/// The numbers of the refusals.
#[derive(Debug, Clone, Copy, PartialEq, Eq)]
pub enum Refusal {
    NotJson = 1,
    NotRequest = 2,
    NoNetwork = 3,
    Range = 4,
    SelfLink = 5,
    Twice = 6,
    Cycle = 7,
    NoLink = 8,
    TooMany = 9,
}

#[derive(Clone, Copy)]
pub enum Edit {
    Cut { u: u32, v: u32 },
    Add { u: u32, v: u32 },
    Join { u: u32, v: u32 },
}
