//! The answers to questions.

use crate::sys;

/// Where a node forwards traffic for the destination.
///
/// ```
/// use revroute::{Hop, Network, Refused};
///
/// let network = Network::new(3, 0, &[(1, 0)])?;
/// assert_eq!(network.hops()?, [Hop::Here, Hop::To(0), Hop::CutOff]);
/// assert_eq!(network.next_hop(1).node(), Some(0));
/// # Ok::<(), Refused>(())
/// ```
#[derive(Debug, Clone, Copy, PartialEq, Eq, Hash)]
#[non_exhaustive]
pub enum Hop {
    /// To this node, the next one on the route.
    To(u32),
    /// Nowhere: the node is the destination.
    Here,
    /// Nowhere: no links connect the node with the destination, whichever way they point.
    CutOff,
}

impl Hop {
    #[inline]
    pub(crate) fn of(value: u32) -> Option<Hop> {
        match value {
            sys::HERE => Some(Hop::Here),
            sys::CUT_OFF => Some(Hop::CutOff),
            sys::NO_SUCH_NODE | sys::NO_HOP => None,
            node => Some(Hop::To(node)),
        }
    }

    /// The number that the library uses for the hop. A number that is too great for a node stays too great for one.
    pub(crate) fn value(self) -> u32 {
        match self {
            Hop::To(node) => node.min(sys::NO_HOP),
            Hop::Here => sys::HERE,
            Hop::CutOff => sys::CUT_OFF,
        }
    }

    /// The next hop, if there is one. `O(1)`.
    pub fn node(self) -> Option<u32> {
        match self {
            Hop::To(node) => Some(node),
            Hop::Here | Hop::CutOff => None,
        }
    }
}

/// The report of a round.
///
/// ```
/// use revroute::{Network, Refused, Report};
///
/// let mut network = Network::new(3, 0, &[(1, 0), (2, 1)])?;
/// assert_eq!(network.cut(2, 1)?, Report { turned: 0, cut_off: 1 });
/// assert_eq!(network.add(0, 2)?, Report { turned: 1, cut_off: 0 });
/// # Ok::<(), Refused>(())
/// ```
#[derive(Debug, Clone, Copy, PartialEq, Eq, Hash)]
pub struct Report {
    /// The number of turns. In a turn, a node reverses all its links.
    pub turned: u64,
    /// The number of nodes that are cut off from the destination.
    pub cut_off: u64,
}

/// The size of a network.
///
/// ```
/// use revroute::{Network, Refused, Size};
///
/// assert_eq!(Network::new(3, 0, &[(1, 0)])?.size(), Size { nodes: 3, links: 1 });
/// # Ok::<(), Refused>(())
/// ```
#[derive(Debug, Clone, Copy, PartialEq, Eq, Hash)]
pub struct Size {
    /// The number of nodes. They are numbered from 0.
    pub nodes: u32,
    /// The number of links.
    pub links: usize,
}
