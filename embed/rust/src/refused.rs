//! Why a network, a change or a table is refused.

use crate::NoMemory;
use std::error::Error;
use std::fmt;

/// Why a network, a change or a table is refused, with the nodes that show it. Nothing has changed.
///
/// ```
/// use revroute::{Network, Refused};
///
/// let mut network = Network::new(3, 0, &[(1, 0), (2, 1)])?;
/// assert_eq!(network.cut(2, 0), Err(Refused::NoLink(2, 0)));
/// assert_eq!(network.add(0, 2), Err(Refused::ClosedWalk(vec![0, 2, 1, 0])));
/// # Ok::<(), Refused>(())
/// ```
#[derive(Debug, Clone, PartialEq, Eq)]
#[non_exhaustive]
pub enum Refused {
    /// Memory ran out. You can make the same call again.
    NoMemory,
    /// There is no node with this number. Nodes are numbered from 0. A network of 0 nodes is refused for node 0.
    /// (A line that cuts a link at such a number is answered `refused 8`, as if only the link were missing.)
    NoSuchNode(u32),
    /// A link would connect this node with itself.
    SelfLink(u32),
    /// More than one link would connect these two nodes.
    Twice(u32, u32),
    /// The links would contain this cycle, or the new table contains it. The first node comes again at the end.
    ClosedWalk(Vec<u32>),
    /// No link connects these two nodes.
    NoLink(u32, u32),
    /// There would be more than 4,096 nodes, 32,768 links or 1,024 edits, or a table has more than 4,096 hops.
    TooMany,
}

impl fmt::Display for Refused {
    fn fmt(&self, f: &mut fmt::Formatter<'_>) -> fmt::Result {
        match self {
            Refused::NoMemory => NoMemory.fmt(f),
            Refused::NoSuchNode(node) => write!(f, "there is no node {node}"),
            Refused::SelfLink(node) => write!(f, "a link would join node {node} with itself"),
            Refused::Twice(u, v) => write!(f, "more than one link would join nodes {u} and {v}"),
            Refused::ClosedWalk(walk) => {
                f.write_str("links would lead round:")?;
                walk.iter().try_for_each(|node| write!(f, " {node}"))
            }
            Refused::NoLink(u, v) => write!(f, "no link joins nodes {u} and {v}"),
            Refused::TooMany => {
                f.write_str("there would be more than 4,096 nodes, 32,768 links or 1,024 edits")
            }
        }
    }
}

impl Error for Refused {}

impl From<NoMemory> for Refused {
    fn from(_: NoMemory) -> Refused {
        Refused::NoMemory
    }
}

/// Why a batch is refused. Nothing has changed.
///
/// ```
/// use revroute::{Edit, Network, Refused, RefusedEdit};
///
/// let mut network = Network::new(3, 0, &[(1, 0), (2, 1)])?;
/// let edits = [Edit::Cut(2, 1), Edit::Cut(1, 2)];
/// assert_eq!(network.batch(&edits), Err(RefusedEdit { at: 1, why: Refused::NoLink(1, 2) }));
/// assert_eq!(network.links()?, [(1, 0), (2, 1)]);
/// # Ok::<(), Refused>(())
/// ```
#[derive(Debug, Clone, PartialEq, Eq)]
pub struct RefusedEdit {
    /// The index of the first edit that cannot be made after those before it. If there are too many, it is the
    /// limit, 1,024 edits. If memory ran out, it is the number of edits.
    pub at: usize,
    /// The reason.
    pub why: Refused,
}

impl fmt::Display for RefusedEdit {
    fn fmt(&self, f: &mut fmt::Formatter<'_>) -> fmt::Result {
        match self.why {
            Refused::NoMemory | Refused::TooMany => self.why.fmt(f),
            _ => write!(f, "edit {}: {}", self.at, self.why),
        }
    }
}

impl Error for RefusedEdit {
    fn source(&self) -> Option<&(dyn Error + 'static)> {
        Some(&self.why)
    }
}

impl From<RefusedEdit> for Refused {
    fn from(it: RefusedEdit) -> Refused {
        it.why
    }
}
