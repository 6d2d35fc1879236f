//! Routing for one destination by full link reversal.
//!
//! A [`Network`] has directed links that never form a cycle. They lead to the destination from every node that is
//! connected with it. After each change of the network, the engine reverses links until this holds again.
//!
//! ```
//! use revroute::{Hop, Network, Refused, Report};
//!
//! let mut network = Network::new(5, 0, &[(1, 0), (2, 0), (3, 1), (3, 2), (4, 3)])?;
//! assert!(network.walk(4).eq([4, 3, 1, 0]));
//! assert_eq!(network.cut(1, 0)?, Report { turned: 1, cut_off: 0 });
//! assert_eq!(network.changed()?, [(3, Hop::To(2)), (1, Hop::To(3))]);
//! assert_eq!(network.add(0, 4), Err(Refused::ClosedWalk(vec![0, 4, 3, 2, 0])));
//! # Ok::<(), Refused>(())
//! ```
//!
//! Other threads can read next hops without a lock while one thread changes the network. Each of them has a
//! [`Reader`], or a [`WayReader`] if it spreads packets over the ways of a node.
//!
//! A [`Session`] answers lines of text, as the program `revroute run` does.
//!
//! A [`Node`] is the state machine of one router in a network without a controller.
//!
//! The engine is a static library, written and proved in Rattle. This crate calls it, and takes care of most of what
//! a caller in C has to ensure. What is left: the process has one allocator; no call is made from a signal handler,
//! or in the child after a process with threads has forked; and each thread that makes a call has 256 KiB of stack
//! left.
//!
//! In the costs, n is the number of nodes, m is the number of links, and d is the number of links at a node.

#![warn(missing_docs)]

mod engine;
mod hop;
mod network;
mod node;
mod pieces;
mod push_order;
mod questions;
mod reader;
mod refused;
mod session;
mod sys;
mod table;
mod way_reader;

pub use hop::{Hop, Report, Size};
pub use network::{Edit, Network, Walk};
pub use node::{
    HearFault, MESSAGE_LENGTH, Node, NodeFault, NodeTable, Outdated, Policy, Rise, Unwritten,
};
pub use pieces::TakeFault;
pub use push_order::push_order;
pub use reader::{MAX_NODES, Reader, Walked};
pub use refused::{Refused, RefusedEdit};
pub use session::Session;
pub use table::TableFault;
pub use way_reader::{MAX_WAYS, WayReader};

use std::fmt;
use std::str;

/// The version of the library. `O(1)`.
pub fn version() -> String {
    let mut text = vec![0; 16];
    loop {
        let mut length = 0;
        // SAFETY: the text is a slice, which does not overlap its length.
        let status = unsafe { sys::revroute_version(text.as_mut_ptr(), text.len(), &mut length) };
        if status == sys::ANSWERED {
            return String::from(text_of(&text[..length]));
        }
        text.resize(length, 0);
    }
}

/// Memory ran out. Nothing has changed.
#[derive(Debug, Clone, Copy, PartialEq, Eq)]
pub struct NoMemory;

impl fmt::Display for NoMemory {
    fn fmt(&self, f: &mut fmt::Formatter<'_>) -> fmt::Result {
        f.write_str("no memory")
    }
}

impl std::error::Error for NoMemory {}

fn text_of(bytes: &[u8]) -> &str {
    str::from_utf8(bytes).expect("an answer is ASCII")
}

/// A list of the items of an iterator. It fails, instead of aborting, if memory runs out.
fn listed<T>(items: impl ExactSizeIterator<Item = T>) -> Result<Vec<T>, NoMemory> {
    let mut list = Vec::new();
    list.try_reserve_exact(items.len()).map_err(|_| NoMemory)?;
    list.extend(items);
    Ok(list)
}
