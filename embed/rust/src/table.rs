//! A caller's table, which has the hops or the ways of its routers.

use crate::{Hop, NoMemory, listed};
use std::error::Error;
use std::fmt;

/// Why a table is refused.
///
/// ```
/// use revroute::{Hop, Network, Refused, TableFault};
///
/// let network = Network::new(2, 0, &[(1, 0)])?;
/// assert_eq!(network.pushes(&[Hop::Here]), Err(TableFault::Length));
/// assert_eq!(network.pushes(&[Hop::Here, Hop::To(2)]), Err(TableFault::NoSuchNode(2)));
/// # Ok::<(), Refused>(())
/// ```
#[derive(Debug, Clone, Copy, PartialEq, Eq)]
#[non_exhaustive]
pub enum TableFault {
    /// The table does not have one entry for each node: one hop, or one list of ways.
    Length,
    /// A hop of the table names this number, which is not a node.
    NoSuchNode(u32),
    /// Memory ran out. You can make the same call again.
    NoMemory,
}

impl fmt::Display for TableFault {
    fn fmt(&self, f: &mut fmt::Formatter<'_>) -> fmt::Result {
        match self {
            TableFault::Length => f.write_str("the table does not have one entry for each node"),
            TableFault::NoSuchNode(node) => {
                write!(f, "a hop of the table names {node}, which is no node")
            }
            TableFault::NoMemory => NoMemory.fmt(f),
        }
    }
}

impl Error for TableFault {}

impl From<NoMemory> for TableFault {
    fn from(_: NoMemory) -> TableFault {
        TableFault::NoMemory
    }
}

/// Nodes with the ways that their routers get.
pub type WayPushes = Vec<(u32, Vec<u32>)>;

/// Checks that a table has one hop for each of `nodes` nodes, and that each hop names a node.
pub fn check(table: &[Hop], nodes: u32) -> Result<(), TableFault> {
    if table.len() != nodes as usize {
        return Err(TableFault::Length);
    }
    let outside = |hop: &Hop| hop.node().filter(|&node| node >= nodes);
    match table.iter().find_map(outside) {
        Some(node) => Err(TableFault::NoSuchNode(node)),
        None => Ok(()),
    }
}

/// The two arrays of a table of ways: where the ways of each node begin, and the ways of all nodes.
pub fn rows(table: &[impl AsRef<[u32]>]) -> Result<(Vec<usize>, Vec<u32>), NoMemory> {
    let (mut starts, mut ways) = (Vec::new(), Vec::new());
    starts
        .try_reserve_exact(table.len() + 1)
        .map_err(|_| NoMemory)?;
    starts.push(0);
    for row in table {
        let row = row.as_ref();
        ways.try_reserve(row.len()).map_err(|_| NoMemory)?;
        ways.extend_from_slice(row);
        starts.push(ways.len());
    }
    Ok((starts, ways))
}

/// The pushes that are written as numbers: for each push its node, how many ways it gets, and these ways.
pub fn way_pushes(mut numbers: &[u32]) -> Result<WayPushes, NoMemory> {
    let mut pushes = Vec::new();
    while let [node, count, rest @ ..] = numbers {
        let (ways, later) = rest.split_at(*count as usize);
        pushes.try_reserve(1).map_err(|_| NoMemory)?;
        pushes.push((*node, listed(ways.iter().copied())?));
        numbers = later;
    }
    Ok(pushes)
}
