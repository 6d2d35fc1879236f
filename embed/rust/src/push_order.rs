//! The push order between two tables, without a network.

use crate::engine::filled_with;
use crate::{Hop, NoMemory, Refused, listed, sys};

/// The nodes whose hop differs in two tables of your own, each with its hop in the new one. They are in push order: each
/// node after those of them on its walk in the new table, and nodes without a route last. `O(n)` for n nodes.
///
/// Any method may have made the tables: this needs no network. Give the old table these hops one after the other. At the
/// end it is the new table, and at no moment does it have a loop that it did not have before. So the old table may have
/// loops, and the new one may not. A node that has a route in both tables has one at every moment. If one table is
/// shorter, the nodes past its end are cut off in it.
///
/// ```
/// use revroute::Hop::{CutOff, Here, To};
/// use revroute::{Refused, push_order};
///
/// let old = [Here, To(0), To(1), CutOff];
/// let new = [Here, To(2), To(3), To(0)];
/// assert_eq!(push_order(&old, &new)?, [(3, To(0)), (2, To(3)), (1, To(2))]);
/// assert_eq!(push_order(&[], &old)?, [(0, Here), (1, To(0)), (2, To(1))]);
/// assert_eq!(push_order(&old, &[Here, To(2), To(1)]), Err(Refused::ClosedWalk(vec![1, 2, 1])));
/// # Ok::<(), Refused>(())
/// ```
///
/// # Errors
///
/// The first of these that holds:
///
/// - [`TooMany`](Refused::TooMany): a table has more than 4,096 hops.
/// - [`NoSuchNode`](Refused::NoSuchNode): a hop names a number that is not a node of the longer table. It is the first
///   such hop in the old table, or else in the new one.
/// - [`ClosedWalk`](Refused::ClosedWalk): the new table has this loop. It begins at the lowest node that is on a
///   loop, which comes again at the end.
/// - [`NoMemory`](Refused::NoMemory): memory ran out.
pub fn push_order(old: &[Hop], new: &[Hop]) -> Result<Vec<(u32, Hop)>, Refused> {
    let (from, to) = (values(old)?, values(new)?);
    let nodes = old.len().max(new.len());
    let mut refusal = sys::Refusal::default();
    let mut is_refused = false;
    // There is room for an order, which has at most all nodes, and for a loop, which has one of them twice.
    let found = filled_with(nodes + 1, |places, room, length| {
        // SAFETY: the tables and the places are those of three slices, and none of the five overlap.
        let status = unsafe {
            let (from_at, to_at) = (from.as_ptr(), to.as_ptr());
            sys::revroute_push_order(
                from_at,
                from.len(),
                to_at,
                to.len(),
                places,
                room,
                length,
                &mut refusal,
            )
        };
        is_refused = status == sys::REFUSED;
        if is_refused { sys::ANSWERED } else { status }
    })?;
    let found = found.unwrap_or_default();
    if !is_refused {
        let hop = |node: u32| new.get(node as usize).copied().unwrap_or(Hop::CutOff);
        return Ok(listed(found.iter().map(|&node| (node, hop(node))))?);
    }
    Err(match refusal.number {
        sys::TOO_MANY => Refused::TooMany,
        sys::NO_SUCH => Refused::NoSuchNode(outside(old, new, nodes).unwrap_or(refusal.u)),
        _ => Refused::ClosedWalk(found),
    })
}

/// The numbers of a table, as the library expects them.
fn values(table: &[Hop]) -> Result<Vec<u32>, NoMemory> {
    listed(table.iter().map(|hop| hop.value()))
}

/// The first number in two tables that is not a node, as the caller gave it.
fn outside(old: &[Hop], new: &[Hop], nodes: usize) -> Option<u32> {
    let mut named = old.iter().chain(new).filter_map(|hop| hop.node());
    named.find(|&node| node as usize >= nodes)
}
