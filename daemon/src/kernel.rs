//! What the daemon writes to the kernel, line by line.
//!
//! Each device of a link has a table of gates. A rule looks up in it first what comes in by the device. A prefix has two
//! routes there: one with the greatest metric that drops, and a route `throw` before it while the gate is open, which
//! sends the look-up on to the next rule. So to close a gate is to delete a route, which needs no memory.
//!
//! Where several routers are on one device, each has a table of gates of its own. What it sends is known by its hardware
//! address: a map of nftables marks the packet with the number of the table, and a rule looks up in that. What has no
//! mark comes to the table of the device, which then lets nothing in.
//!
//! The ways to a prefix are routes over nexthop objects, by rising metric. Below them is a route that drops.

use crate::datagram::Mac;
use crate::prefix::Prefix;
use std::fmt;
use std::net::Ipv6Addr;

/// One line.
#[derive(Clone, Debug, PartialEq, Eq)]
pub enum Write {
    /// The last route of a prefix, which drops what has no way.
    AddLast {
        table: u32,
        prefix: Prefix,
    },
    RemoveLast {
        table: u32,
        prefix: Prefix,
    },
    /// The route that drops what comes in while the gate is closed.
    Shut {
        table: u32,
        prefix: Prefix,
    },
    RemoveShut {
        table: u32,
        prefix: Prefix,
    },
    Open {
        table: u32,
        prefix: Prefix,
    },
    Close {
        table: u32,
        prefix: Prefix,
    },
    /// Drops all that comes in and is not let in by an open gate.
    Hold {
        table: u32,
        is_ipv6: bool,
    },
    Release {
        table: u32,
        is_ipv6: bool,
    },
    /// The rule that looks up in a table of gates what comes in by a device.
    AddRule {
        table: u32,
        device: String,
        is_ipv6: bool,
    },
    RemoveRule {
        table: u32,
        device: String,
        is_ipv6: bool,
    },
    /// What the rule of a sender's table lets in goes past the rule of the device.
    AddSkip {
        table: u32,
        device: String,
        is_ipv6: bool,
    },
    RemoveSkip {
        table: u32,
        device: String,
        is_ipv6: bool,
    },
    /// The rule to which that goes, which does nothing.
    AddEnd {
        is_ipv6: bool,
    },
    RemoveEnd {
        is_ipv6: bool,
    },
    /// The map of senders, without senders. What was there before is removed.
    AddSenders,
    RemoveSenders,
    /// Packets that come in by a device from a hardware address are for this table of gates.
    AddSender {
        table: u32,
        device: u32,
        mac: Mac,
    },
    RemoveSender {
        device: u32,
        mac: Mac,
    },
    /// The nexthop object of a neighbour on a link.
    AddHop {
        hop: u32,
        device: u32,
        address: Ipv6Addr,
    },
    RemoveHop {
        hop: u32,
    },
    /// A way at a place, counted from 0. The way that was there is replaced, or there was none.
    AddWay {
        table: u32,
        prefix: Prefix,
        place: u32,
        hop: u32,
        replaces: bool,
    },
    RemoveWay {
        table: u32,
        prefix: Prefix,
        place: u32,
    },
}

/// The number of an error of the system, by which the kernel refused a line.
#[derive(Clone, Copy, Debug, PartialEq, Eq)]
pub struct Refusal(pub i32);

impl fmt::Display for Refusal {
    fn fmt(&self, f: &mut fmt::Formatter<'_>) -> fmt::Result {
        std::io::Error::from_raw_os_error(self.0).fmt(f)
    }
}

impl Write {
    /// Whether it is a line for the map of senders, and not for routes and rules.
    pub fn is_of_senders(&self) -> bool {
        matches!(
            self,
            Write::AddSenders
                | Write::RemoveSenders
                | Write::AddSender { .. }
                | Write::RemoveSender { .. }
        )
    }

    /// Whether this error means that nothing was left to be done.
    pub fn is_done_by(&self, error: i32) -> bool {
        match self {
            Write::RemoveLast { .. }
            | Write::RemoveShut { .. }
            | Write::Close { .. }
            | Write::Release { .. }
            | Write::RemoveRule { .. }
            | Write::RemoveSkip { .. }
            | Write::RemoveEnd { .. }
            | Write::RemoveSenders
            | Write::RemoveSender { .. }
            | Write::RemoveHop { .. }
            | Write::RemoveWay { .. } => matches!(error, libc::ESRCH | libc::ENOENT),
            // All that has the daemon's protocol number is the daemon's, so what is there is what is wanted.
            Write::Shut { .. }
            | Write::Open { .. }
            | Write::Hold { .. }
            | Write::AddRule { .. }
            | Write::AddSkip { .. }
            | Write::AddEnd { .. } => error == libc::EEXIST,
            Write::AddLast { .. }
            | Write::AddSenders
            | Write::AddSender { .. }
            | Write::AddHop { .. }
            | Write::AddWay { .. } => false,
        }
    }
}

/// A kernel.
pub trait Kernel {
    /// Does these lines in their order, also after one that is refused. Returns the result of each one.
    fn write(&mut self, lines: &[Write]) -> Vec<Result<(), Refusal>>;

    /// What an earlier process has left, as the lines that remove it.
    fn left_behind(&mut self) -> Result<Vec<Write>, Refusal>;
}

/// Lines that are written together, each with a mark of the caller's.
pub struct Batch<T> {
    lines: Vec<Write>,
    marks: Vec<T>,
}

impl<T> Batch<T> {
    pub fn new() -> Batch<T> {
        Batch {
            lines: Vec::new(),
            marks: Vec::new(),
        }
    }

    pub fn push(&mut self, mark: T, line: Write) {
        self.marks.push(mark);
        self.lines.push(line);
    }

    /// Writes the lines, and returns the result of each with its mark.
    pub fn written(self, kernel: &mut impl Kernel) -> Vec<(T, Result<(), Refusal>)> {
        if self.lines.is_empty() {
            return Vec::new();
        }
        self.marks
            .into_iter()
            .zip(kernel.write(&self.lines))
            .collect()
    }
}
