//! A network with typed calls.

use crate::engine::{Engine, filled};
use crate::{
    Hop, NoMemory, Reader, Refused, RefusedEdit, Report, Size, TableFault, WayReader, listed, sys,
};
use std::fmt;
use std::iter::FusedIterator;

/// A network whose links lead to the destination from every node that is connected with it.
///
/// Nodes are numbered from 0. A change succeeds as a whole, and then the links lead to the destination again.
/// Otherwise it returns [`Refused`], and nothing changes. A question about a number that is not a node panics, as
/// indexing does. The same question with `try_` before its name returns `None` then.
///
/// A network can be sent to another thread, and each thread can have its own:
///
/// ```
/// let network = revroute::Network::new(2, 0, &[(0, 1)])?;
/// let hop = std::thread::spawn(move || network.next_hop(1));
/// assert_eq!(hop.join().unwrap(), revroute::Hop::To(0));
/// # Ok::<(), revroute::Refused>(())
/// ```
///
/// Threads cannot share a network, since each call has it for itself. To read next hops on other threads while one
/// thread changes the network, give each of them a [`reader`](Network::reader).
///
/// ```compile_fail,E0277
/// fn is_shared<T: Sync>() {}
/// is_shared::<revroute::Network>();
/// ```
pub struct Network {
    engine: Engine,
}

/// An edit in a batch. It names the two nodes of its link.
#[derive(Debug, Clone, Copy, PartialEq, Eq, Hash)]
#[non_exhaustive]
pub enum Edit {
    /// Removes the link between the two nodes, whichever way it points.
    Cut(u32, u32),
    /// Adds a link from the first node to the second.
    Add(u32, u32),
    /// Adds a link from the first node to the second, or from the second to the first if that would close a cycle.
    Join(u32, u32),
}

impl From<Edit> for sys::Edit {
    fn from(edit: Edit) -> sys::Edit {
        let (kind, u, v) = match edit {
            Edit::Cut(u, v) => (sys::CUT, u, v),
            Edit::Add(u, v) => (sys::ADD, u, v),
            Edit::Join(u, v) => (sys::JOIN, u, v),
        };
        sys::Edit { kind, u, v }
    }
}

impl Network {
    /// Creates a network with the nodes 0 to `nodes - 1`, a destination, and links, each from its tail to its head.
    ///
    /// Then nodes turn until the links lead to the destination. The cost is `O(n + m)`, plus that of the round: its
    /// turns if they are few, and otherwise a search, which is `O(n + m)` too.
    ///
    /// ```
    /// use revroute::{Network, Refused, Report};
    ///
    /// let network = Network::new(4, 0, &[(0, 1), (1, 2), (2, 3)])?;
    /// assert_eq!(network.report(), Report { turned: 6, cut_off: 0 });
    /// let round = Network::new(3, 0, &[(0, 1), (1, 2), (2, 0)]);
    /// assert!(matches!(round, Err(Refused::ClosedWalk(walk)) if walk.len() == 4));
    /// # Ok::<(), Refused>(())
    /// ```
    ///
    /// # Errors
    ///
    /// All variants of [`Refused`] except [`NoLink`](Refused::NoLink).
    pub fn new(nodes: u32, dest: u32, links: &[(u32, u32)]) -> Result<Network, Refused> {
        let links = listed(links.iter().map(|&(tail, head)| sys::Link { tail, head }))?;
        let mut engine = Engine::new();
        let (mut round, mut refusal) = (sys::Round::default(), sys::Refusal::default());
        // SAFETY: the handle is new, the links are a slice, and none of the four overlap.
        let status = unsafe {
            let handle = engine.handle();
            let (list, count) = (links.as_ptr(), links.len());
            sys::revroute_open(handle, nodes, dest, list, count, &mut round, &mut refusal)
        };
        ended(status, &round, || {
            refused(&refusal, nodes, |walk, room, length| {
                // SAFETY: the links and the places of the walk are slices, and none of the three overlap.
                unsafe {
                    let (list, count) = (links.as_ptr(), links.len());
                    sys::revroute_closed_walk_of(nodes, list, count, walk, room, length)
                }
            })
        })?;
        Ok(Network { engine })
    }

    /// Removes the link between two nodes, whichever way it points.
    ///
    /// `O(d)`, and if nodes turn `O(d log d)` for each of them and for each node that had one of these as its next hop.
    /// It costs `O(n)` more in the first change, after a change that ran out of memory, and as long as nodes that have
    /// links are cut off.
    ///
    /// ```
    /// use revroute::{Network, Refused, Report};
    ///
    /// let mut network = Network::new(3, 0, &[(1, 0), (2, 0), (2, 1)])?;
    /// assert_eq!(network.cut(1, 0)?, Report { turned: 1, cut_off: 0 });
    /// assert_eq!(network.cut(1, 0), Err(Refused::NoLink(1, 0)));
    /// assert_eq!(network.cut(99, 0), Err(Refused::NoSuchNode(99)));
    /// # Ok::<(), Refused>(())
    /// ```
    ///
    /// # Errors
    ///
    /// [`NoLink`](Refused::NoLink), [`NoSuchNode`](Refused::NoSuchNode) and [`NoMemory`](Refused::NoMemory).
    pub fn cut(&mut self, u: u32, v: u32) -> Result<Report, Refused> {
        Ok(self.change(sys::revroute_change, &[Edit::Cut(u, v).into()])?)
    }

    /// Adds a link from u to v.
    ///
    /// It costs what [`cut`](Network::cut) costs, and a search if this is needed. The engine keeps a height for each
    /// node, so that links point from higher nodes to lower ones. If u is not higher than v, it searches the links of
    /// the nodes with heights between theirs. It costs `O(n + m)` if heights have to be computed again, or if the links
    /// at a node need a larger place.
    ///
    /// ```
    /// use revroute::{Network, Refused};
    ///
    /// let mut network = Network::new(3, 0, &[(1, 0), (2, 1)])?;
    /// assert_eq!(network.add(0, 2), Err(Refused::ClosedWalk(vec![0, 2, 1, 0])));
    /// network.add(2, 0)?;
    /// # Ok::<(), Refused>(())
    /// ```
    ///
    /// # Errors
    ///
    /// All variants of [`Refused`] except [`NoLink`](Refused::NoLink).
    pub fn add(&mut self, u: u32, v: u32) -> Result<Report, Refused> {
        Ok(self.change(sys::revroute_change, &[Edit::Add(u, v).into()])?)
    }

    /// Adds a link from u to v, or from v to u if the first would close a cycle. It costs what [`add`](Network::add)
    /// costs.
    ///
    /// ```
    /// let mut network = revroute::Network::new(3, 0, &[(1, 0), (2, 1)])?;
    /// network.join(0, 2)?;
    /// assert_eq!(network.links()?, [(1, 0), (2, 0), (2, 1)]);
    /// # Ok::<(), revroute::Refused>(())
    /// ```
    ///
    /// # Errors
    ///
    /// All variants of [`Refused`] except [`NoLink`](Refused::NoLink) and [`ClosedWalk`](Refused::ClosedWalk).
    pub fn join(&mut self, u: u32, v: u32) -> Result<Report, Refused> {
        Ok(self.change(sys::revroute_change, &[Edit::Join(u, v).into()])?)
    }

    /// Makes edits in order, and then one round. If one edit is refused, none is made. Each edit costs what it costs
    /// alone.
    ///
    /// ```
    /// use revroute::{Edit, Network, Refused, RefusedEdit};
    ///
    /// let mut network = Network::new(3, 0, &[(1, 0), (2, 1)])?;
    /// network.batch(&[Edit::Cut(1, 0), Edit::Add(2, 0)])?;
    /// assert!(network.walk(1).eq([1, 2, 0]));
    /// let refused = network.batch(&[Edit::Join(1, 0), Edit::Add(1, 1)]);
    /// assert_eq!(refused, Err(RefusedEdit { at: 1, why: Refused::SelfLink(1) }));
    /// # Ok::<(), Refused>(())
    /// ```
    ///
    /// # Errors
    ///
    /// All variants of [`Refused`], with the index of the first refused edit.
    pub fn batch(&mut self, edits: &[Edit]) -> Result<Report, RefusedEdit> {
        self.change(sys::revroute_change, &made_of(edits)?)
    }

    /// Does the same, and keeps what has to be pushed to routers that hold all their [`ways`](Network::ways):
    /// [`change_shrink`](Network::change_shrink) and [`change_grow`](Network::change_grow) return it.
    ///
    /// The engine looks only at nodes whose ways may have changed, and no table of ways is needed. The first call also
    /// measures the distances of all nodes, in `O(n + m)`. From then on a call costs what [`batch`](Network::batch) costs,
    /// and `O(d log d)` for each of these nodes with d links.
    ///
    /// ```
    /// use revroute::{Edit, Network, Refused};
    ///
    /// let mut network = Network::new(4, 0, &[(1, 0), (2, 0), (2, 1), (3, 2)])?;
    /// network.batch_with_ways(&[Edit::Cut(1, 0)])?; // now 1 sends to 2, which must drop its way to 1 before
    /// assert_eq!(network.change_shrink()?, [(2, vec![0]), (1, vec![])]);
    /// assert_eq!(network.change_grow()?, [(1, vec![2])]);
    /// # Ok::<(), Refused>(())
    /// ```
    ///
    /// # Errors
    ///
    /// Those of [`batch`](Network::batch).
    pub fn batch_with_ways(&mut self, edits: &[Edit]) -> Result<Report, RefusedEdit> {
        self.change(sys::revroute_change_with_ways, &made_of(edits)?)
    }

    /// Makes `dest` the destination. `O(n + m)`, plus the round.
    ///
    /// ```
    /// let mut network = revroute::Network::new(3, 0, &[(1, 0), (2, 1)])?;
    /// network.move_dest(2)?;
    /// assert!(network.walk(0).eq([0, 1, 2]));
    /// # Ok::<(), revroute::Refused>(())
    /// ```
    ///
    /// # Errors
    ///
    /// [`NoSuchNode`](Refused::NoSuchNode) and [`NoMemory`](Refused::NoMemory).
    pub fn move_dest(&mut self, dest: u32) -> Result<Report, Refused> {
        let (mut round, mut refusal) = (sys::Round::default(), sys::Refusal::default());
        let handle = self.engine.handle();
        // SAFETY: the handle is the library's own, no other call has it, and the three do not overlap.
        let status = unsafe { sys::revroute_move_dest(handle, dest, &mut round, &mut refusal) };
        ended(status, &round, || Refused::NoSuchNode(refusal.u))
    }

    /// The former name of [`move_dest`](Network::move_dest).
    ///
    /// # Errors
    ///
    /// Those of `move_dest`.
    #[deprecated(since = "0.2.0", note = "use `move_dest`")]
    pub fn set_destination(&mut self, dest: u32) -> Result<Report, Refused> {
        self.move_dest(dest)
    }

    /// The next hop of a node: where it forwards traffic for the destination. `O(1)`, and needs no memory.
    ///
    /// ```
    /// use revroute::{Hop, Network};
    ///
    /// let network = Network::new(4, 0, &[(0, 1), (1, 2)])?;
    /// let hops = [0, 1, 2, 3].map(|node| network.next_hop(node));
    /// assert_eq!(hops, [Hop::Here, Hop::To(0), Hop::To(1), Hop::CutOff]);
    /// # Ok::<(), revroute::Refused>(())
    /// ```
    ///
    /// # Panics
    ///
    /// If there is no such node.
    #[inline]
    #[track_caller]
    pub fn next_hop(&self, node: u32) -> Hop {
        match self.engine.next_hop(node) {
            Some(hop) => hop,
            None => panic!("there is no node {node}"),
        }
    }

    /// The next hop of a node, or `None` if there is no such node. `O(1)`, and needs no memory.
    ///
    /// ```
    /// use revroute::{Hop, Network};
    ///
    /// let network = Network::new(2, 0, &[(0, 1)])?;
    /// assert_eq!(network.try_next_hop(1), Some(Hop::To(0)));
    /// assert_eq!(network.try_next_hop(2), None);
    /// # Ok::<(), revroute::Refused>(())
    /// ```
    #[inline]
    pub fn try_next_hop(&self, node: u32) -> Option<Hop> {
        self.engine.next_hop(node)
    }

    /// A reader of the next hops, for another thread.
    ///
    /// Once a network has had a reader, each change stores every changed hop a second time, for the readers. The first
    /// reader costs `O(4,096)`, and each later one `O(1)`.
    ///
    /// ```
    /// use revroute::{Hop, Network};
    ///
    /// let mut network = Network::new(3, 0, &[(1, 0), (2, 1)])?;
    /// let reader = network.reader()?;
    /// let hop = std::thread::spawn(move || reader.next_hop(2));
    /// network.join(2, 0)?;
    /// assert!(matches!(hop.join().unwrap(), Hop::To(1) | Hop::To(0)));
    /// # Ok::<(), revroute::Refused>(())
    /// ```
    ///
    /// # Errors
    ///
    /// If memory runs out.
    pub fn reader(&self) -> Result<Reader, NoMemory> {
        self.engine.reader()
    }

    /// A reader of the first ways of nodes, for another thread.
    ///
    /// Once a network has had such a reader, each change costs what [`batch_with_ways`](Network::batch_with_ways)
    /// costs, and stores the ways that it has changed for the readers: `O(k (log k + d log d))` for those of k nodes.
    /// The first reader costs `O(4,096 + m log d)`, and each later one `O(1)`.
    ///
    /// ```
    /// use revroute::Network;
    ///
    /// let mut network = Network::new(4, 0, &[(1, 0), (2, 1), (2, 3), (3, 0)])?;
    /// let reader = network.way_reader()?;
    /// let way = std::thread::spawn(move || reader.way(2, 7));
    /// network.cut(1, 0)?;
    /// assert!(matches!(way.join().unwrap(), Some(1 | 3)));
    /// # Ok::<(), revroute::Refused>(())
    /// ```
    ///
    /// # Errors
    ///
    /// If memory runs out.
    pub fn way_reader(&self) -> Result<WayReader, NoMemory> {
        self.engine.way_reader()
    }

    /// The next hop of each node, in the order of the nodes. `O(n)`.
    ///
    /// ```
    /// use revroute::{Hop, Network};
    ///
    /// let network = Network::new(3, 0, &[(0, 1)])?;
    /// assert_eq!(network.hops()?, [Hop::Here, Hop::To(0), Hop::CutOff]);
    /// # Ok::<(), revroute::Refused>(())
    /// ```
    ///
    /// # Errors
    ///
    /// If memory for the list runs out.
    pub fn hops(&self) -> Result<Vec<Hop>, NoMemory> {
        self.engine.hops()
    }

    /// The nodes on the route from a node to the destination, both included. If the node is cut off, the iterator is
    /// empty. It asks hop by hop: `O(1)` for each, and needs no memory.
    ///
    /// ```
    /// let network = revroute::Network::new(4, 0, &[(0, 1), (1, 2)])?;
    /// assert!(network.walk(2).eq([2, 1, 0]));
    /// assert_eq!(network.walk(3).next(), None);
    /// # Ok::<(), revroute::Refused>(())
    /// ```
    ///
    /// # Panics
    ///
    /// If there is no such node.
    #[track_caller]
    pub fn walk(&self, node: u32) -> Walk<'_> {
        self.walk_by(node, self.next_hop(node))
    }

    /// What [`walk`](Network::walk) returns, or `None` if there is no such node. `O(1)`, and needs no memory.
    ///
    /// ```
    /// let network = revroute::Network::new(3, 0, &[(0, 1)])?;
    /// assert!(network.try_walk(1).unwrap().eq([1, 0]));
    /// assert_eq!(network.try_walk(2).unwrap().next(), None); // it is cut off
    /// assert!(network.try_walk(3).is_none());
    /// # Ok::<(), revroute::Refused>(())
    /// ```
    pub fn try_walk(&self, node: u32) -> Option<Walk<'_>> {
        Some(self.walk_by(node, self.try_next_hop(node)?))
    }

    /// The walk of a node with this next hop.
    fn walk_by(&self, node: u32, hop: Hop) -> Walk<'_> {
        Walk {
            network: self,
            next: (hop != Hop::CutOff).then_some(node),
        }
    }

    /// The ways of a node: the nodes to which its links point, nearest first. They are ordered by their
    /// [`distance`](Network::distance), and then by number. The destination has none, and neither has a node that is
    /// cut off. `O(d log d)`. The first call of `ways`, `distance`, `nearest` or `batch_with_ways`, or the first reader of
    /// ways, also measures the distances of all nodes, in `O(n + m)`. From then on each change keeps them up to date.
    ///
    /// A router may hold all its ways, and send each packet to any of them. Whichever ways routers take, and whatever
    /// links fail, no packet visits a node twice.
    ///
    /// ```
    /// use revroute::{Hop, Network};
    ///
    /// let network = Network::new(5, 0, &[(2, 0), (1, 2), (3, 0), (4, 1), (4, 3)])?;
    /// assert_eq!(network.ways(4)?, [3, 1]);
    /// assert_eq!(network.next_hop(4), Hop::To(1)); // the way with the lowest number
    /// # Ok::<(), revroute::Refused>(())
    /// ```
    ///
    /// # Errors
    ///
    /// If memory for the list runs out.
    ///
    /// # Panics
    ///
    /// If there is no such node.
    #[track_caller]
    pub fn ways(&self, node: u32) -> Result<Vec<u32>, NoMemory> {
        let ways = self.engine.ways(node)?;
        Ok(self.found_of(node, ways).unwrap_or_default())
    }

    /// What [`ways`](Network::ways) returns, or `None` if there is no such node. It costs the same.
    ///
    /// ```
    /// let network = revroute::Network::new(3, 0, &[(1, 0)])?;
    /// let ways = [1, 2, 3].map(|node| network.try_ways(node).unwrap());
    /// assert_eq!(ways, [Some(vec![0]), Some(vec![]), None]);
    /// # Ok::<(), revroute::Refused>(())
    /// ```
    ///
    /// # Errors
    ///
    /// If memory for the list runs out.
    pub fn try_ways(&self, node: u32) -> Result<Option<Vec<u32>>, NoMemory> {
        let ways = self.engine.ways(node)?;
        Ok(self.try_found_of(node, ways).map(Option::unwrap_or_default))
    }

    /// The [`ways`](Network::ways) of each node, in the order of the nodes. `O(n + m)`.
    ///
    /// ```
    /// let network = revroute::Network::new(4, 0, &[(1, 0), (2, 1), (2, 0)])?;
    /// assert_eq!(network.all_ways()?, [vec![], vec![0], vec![0, 1], vec![]]);
    /// # Ok::<(), revroute::Refused>(())
    /// ```
    ///
    /// # Errors
    ///
    /// If memory for the lists runs out.
    pub fn all_ways(&self) -> Result<Vec<Vec<u32>>, NoMemory> {
        self.engine.all_ways()
    }

    /// The nodes on the nearest route from a node to the destination, both included: each is the first of the
    /// [`ways`](Network::ways) of the one before. No route along the links is shorter. `None` if the node is cut off.
    /// `O(k d)` for k nodes, and the first time as for [`ways`](Network::ways).
    ///
    /// ```
    /// let network = revroute::Network::new(5, 0, &[(2, 0), (1, 2), (3, 0), (4, 1), (4, 3)])?;
    /// assert_eq!(network.nearest(4)?, Some(vec![4, 3, 0]));
    /// assert!(network.walk(4).eq([4, 1, 2, 0]));
    /// # Ok::<(), revroute::Refused>(())
    /// ```
    ///
    /// # Errors
    ///
    /// If memory for the list runs out.
    ///
    /// # Panics
    ///
    /// If there is no such node.
    #[track_caller]
    pub fn nearest(&self, node: u32) -> Result<Option<Vec<u32>>, NoMemory> {
        let route = self.engine.nearest(node)?;
        Ok(self.found_of(node, route))
    }

    /// What [`nearest`](Network::nearest) returns, or `None` if there is no such node. It costs the same.
    ///
    /// ```
    /// let network = revroute::Network::new(3, 0, &[(1, 0)])?;
    /// let routes = [1, 2, 3].map(|node| network.try_nearest(node).unwrap());
    /// assert_eq!(routes, [Some(Some(vec![1, 0])), Some(None), None]);
    /// # Ok::<(), revroute::Refused>(())
    /// ```
    ///
    /// # Errors
    ///
    /// If memory for the list runs out.
    pub fn try_nearest(&self, node: u32) -> Result<Option<Option<Vec<u32>>>, NoMemory> {
        let route = self.engine.nearest(node)?;
        Ok(self.try_found_of(node, route))
    }

    /// The distance of a node: the fewest links that lead from it down to the destination. `None` if the node is cut
    /// off. `O(1)`, and the first time as for [`ways`](Network::ways). It needs no memory.
    ///
    /// ```
    /// let network = revroute::Network::new(4, 0, &[(1, 0), (2, 1)])?;
    /// let distances = [0, 1, 2, 3].map(|node| network.distance(node));
    /// assert_eq!(distances, [Some(0), Some(1), Some(2), None]);
    /// # Ok::<(), revroute::Refused>(())
    /// ```
    ///
    /// # Panics
    ///
    /// If there is no such node.
    #[inline]
    #[track_caller]
    pub fn distance(&self, node: u32) -> Option<u32> {
        self.found_of(node, self.engine.distance(node))
    }

    /// What [`distance`](Network::distance) returns, or `None` if there is no such node. It costs the same.
    ///
    /// ```
    /// let network = revroute::Network::new(3, 0, &[(1, 0)])?;
    /// let distances = [0, 1, 2, 3].map(|node| network.try_distance(node));
    /// assert_eq!(distances, [Some(Some(0)), Some(Some(1)), Some(None), None]);
    /// # Ok::<(), revroute::Refused>(())
    /// ```
    #[inline]
    pub fn try_distance(&self, node: u32) -> Option<Option<u32>> {
        self.try_found_of(node, self.engine.distance(node))
    }

    /// What was found of a node. Panics if nothing was found because there is no such node.
    #[track_caller]
    fn found_of<T>(&self, node: u32, found: Option<T>) -> Option<T> {
        if found.is_none() {
            self.next_hop(node);
        }
        found
    }

    /// What was found of a node. `None` if nothing was found because there is no such node.
    fn try_found_of<T>(&self, node: u32, found: Option<T>) -> Option<Option<T>> {
        match found {
            None => self.try_next_hop(node).map(|_| None),
            found => Some(found),
        }
    }

    /// The nodes whose next hop the last change changed, each with its new next hop. They are in push order: each node
    /// after the changed nodes on its new route.
    ///
    /// For a new network, these are all nodes that are not cut off. A refused change does not change the list. `O(k)`
    /// for k nodes.
    ///
    /// ```
    /// use revroute::{Hop, Network};
    ///
    /// let mut network = Network::new(5, 0, &[(1, 0), (2, 0), (3, 1), (3, 2), (4, 3)])?;
    /// network.cut(1, 0)?;
    /// assert_eq!(network.changed()?, [(3, Hop::To(2)), (1, Hop::To(3))]);
    /// # Ok::<(), revroute::Refused>(())
    /// ```
    ///
    /// # Errors
    ///
    /// If memory for the lists runs out.
    pub fn changed(&self) -> Result<Vec<(u32, Hop)>, NoMemory> {
        self.engine.changed()
    }

    /// The nodes whose hop in your table is not their [`next_hop`](Network::next_hop), each with its next hop. They
    /// are in push order: each node after those of them on its route. `O(n)`.
    ///
    /// Keep a table of the hops that your routers have confirmed, and push the difference after each change. If the
    /// next change comes before you have pushed everything, make it, and ask again: nothing has to be undone. At no
    /// moment does the table have a loop that it did not have before.
    ///
    /// ```
    /// use revroute::{Hop, Network, TableFault};
    ///
    /// /// Brings all routers up to date. `push` returns once the router has confirmed its hop, or false to stop.
    /// fn update(
    ///     network: &Network,
    ///     table: &mut [Hop],
    ///     mut push: impl FnMut(u32, Hop) -> bool,
    /// ) -> Result<(), TableFault> {
    ///     for (node, hop) in network.pushes(table)? {
    ///         if !push(node, hop) {
    ///             break;
    ///         }
    ///         table[node as usize] = hop;
    ///     }
    ///     Ok(())
    /// }
    ///
    /// let mut network = Network::new(4, 0, &[(1, 0), (2, 1), (2, 3), (3, 0)])?;
    /// let mut table = vec![Hop::CutOff; 4]; // no router has a hop yet
    /// update(&network, &mut table, |_, _| true)?;
    ///
    /// table[1] = Hop::CutOff; // the link of 1 and 0 fails, and with it the hop over it
    /// network.cut(1, 0)?;
    /// assert_eq!(network.pushes(&table)?, [(2, Hop::To(3)), (1, Hop::To(2))]);
    /// update(&network, &mut table, |node, _| node == 2)?; // interrupted before node 1
    ///
    /// network.join(1, 0)?; // the link comes back
    /// update(&network, &mut table, |_, _| true)?;
    /// assert_eq!(table, network.hops()?);
    /// # Ok::<(), Box<dyn std::error::Error>>(())
    /// ```
    ///
    /// # Errors
    ///
    /// - [`Length`](TableFault::Length): the table does not have one hop for each node.
    /// - [`NoSuchNode`](TableFault::NoSuchNode): a hop names a number that is not a node. It reports the first such
    ///   hop.
    /// - [`NoMemory`](TableFault::NoMemory): memory ran out.
    pub fn pushes(&self, table: &[Hop]) -> Result<Vec<(u32, Hop)>, TableFault> {
        self.engine.pushes(table)
    }

    /// What to push first to routers that hold all their [`ways`](Network::ways): each node that loses a way, with the
    /// ways that it keeps. Nodes that keep one come first, by number, and then those that keep none. `O(n + m + k)`
    /// for k ways in the table.
    ///
    /// Your table has a list for each node: the ways that its router may hold. These are the ways that it has confirmed
    /// last, and those of each later push that it has not confirmed. They may have cycles, and may name any numbers.
    ///
    /// Routers get their new ways in two phases:
    ///
    /// 1. Make the pushes of `shrink`, and wait until all routers have confirmed them.
    /// 2. Then make those of [`grow`](Network::grow).
    ///
    /// The pushes of one phase can be made in any order, and at the same time. If the ways in the table have no cycle, no
    /// packet goes round one at any moment, whatever links fail meanwhile. If the network changes before all is
    /// confirmed, change it, and begin with `shrink` again.
    ///
    /// ```
    /// use revroute::{Network, TableFault};
    ///
    /// /// Sends routers their new ways, in any order, and returns once all have confirmed them.
    /// fn send(pushes: Vec<(u32, Vec<u32>)>, table: &mut [Vec<u32>]) {
    ///     for (node, ways) in pushes {
    ///         table[node as usize] = ways;
    ///     }
    /// }
    ///
    /// /// Brings all routers up to date.
    /// fn update(network: &Network, table: &mut [Vec<u32>]) -> Result<(), TableFault> {
    ///     send(network.shrink(table)?, table);
    ///     send(network.grow(table)?, table);
    ///     Ok(())
    /// }
    ///
    /// let mut network = Network::new(4, 0, &[(1, 0), (2, 0), (2, 1), (3, 2)])?;
    /// let mut table = vec![Vec::new(); 4]; // no router has a way yet
    /// update(&network, &mut table)?;
    /// assert_eq!(table, [vec![], vec![0], vec![0, 1], vec![2]]);
    ///
    /// network.cut(1, 0)?; // now 1 sends to 2, which must drop its way to 1 before
    /// assert_eq!(network.shrink(&table)?, [(2, vec![0]), (1, vec![])]);
    /// assert_eq!(network.grow(&table)?, [(1, vec![2])]);
    /// update(&network, &mut table)?;
    /// assert_eq!(table, network.all_ways()?);
    /// # Ok::<(), Box<dyn std::error::Error>>(())
    /// ```
    ///
    /// # Errors
    ///
    /// - [`Length`](TableFault::Length): the table does not have one list for each node.
    /// - [`NoMemory`](TableFault::NoMemory): memory ran out.
    pub fn shrink(&self, table: &[impl AsRef<[u32]>]) -> Result<Vec<(u32, Vec<u32>)>, TableFault> {
        self.engine.shrink(table)
    }

    /// What to push once all routers have confirmed the pushes of [`shrink`](Network::shrink): each node whose list then
    /// still differs, with all its ways, nearest first. The nodes come by number. It costs what `shrink` costs.
    ///
    /// The result is the same for the table that was given to `shrink` and for the table after its pushes.
    ///
    /// ```
    /// let network = revroute::Network::new(3, 0, &[(1, 0), (2, 1), (2, 0)])?;
    /// assert_eq!(network.grow(&[vec![], vec![0], vec![1]])?, [(2, vec![0, 1])]);
    /// # Ok::<(), Box<dyn std::error::Error>>(())
    /// ```
    ///
    /// # Errors
    ///
    /// Those of [`shrink`](Network::shrink).
    pub fn grow(&self, table: &[impl AsRef<[u32]>]) -> Result<Vec<(u32, Vec<u32>)>, TableFault> {
        self.engine.grow(table)
    }

    /// What the last change by [`batch_with_ways`](Network::batch_with_ways) has to push first to routers that hold all
    /// their ways: the nodes that lose a way, each with the ways that it keeps, in the order of
    /// [`shrink`](Network::shrink). Before such a change there is nothing to push. `O(k)` for k numbers.
    ///
    /// These are the pushes that `shrink` returns for the ways before the change. Use them if your routers hold these ways:
    /// if all pushes of earlier changes are confirmed. Otherwise, and after a change by another call, use `shrink` with
    /// the ways that routers may hold. Refused changes and changes by other calls leave the pushes as they are.
    ///
    /// ```
    /// use revroute::{Edit, Network, Refused};
    ///
    /// let mut network = Network::new(3, 0, &[(1, 0), (2, 1), (2, 0)])?;
    /// let table = network.all_ways()?;
    /// network.batch_with_ways(&[Edit::Cut(2, 0), Edit::Join(0, 2)])?;
    /// assert_eq!(network.change_shrink()?, network.shrink(&table)?);
    /// assert_eq!(network.change_grow()?, network.grow(&table)?);
    /// # Ok::<(), Box<dyn std::error::Error>>(())
    /// ```
    ///
    /// # Errors
    ///
    /// If memory for the lists runs out.
    pub fn change_shrink(&self) -> Result<Vec<(u32, Vec<u32>)>, NoMemory> {
        self.engine.change_shrink()
    }

    /// What to push once all routers have confirmed the pushes of [`change_shrink`](Network::change_shrink): each node
    /// whose list then still differs, with all its ways, nearest first. The nodes come by number. `O(k)` for k numbers.
    ///
    /// # Errors
    ///
    /// If memory for the lists runs out.
    pub fn change_grow(&self) -> Result<Vec<(u32, Vec<u32>)>, NoMemory> {
        self.engine.change_grow()
    }

    /// How often each node turned in the last round, in the order of the nodes. `O(n)`.
    ///
    /// ```
    /// let network = revroute::Network::new(3, 0, &[(0, 1), (1, 2)])?;
    /// assert_eq!(network.counts()?, [0, 1, 2]);
    /// # Ok::<(), revroute::Refused>(())
    /// ```
    ///
    /// # Errors
    ///
    /// If memory for the list runs out.
    pub fn counts(&self) -> Result<Vec<u64>, NoMemory> {
        self.engine.counts()
    }

    /// The links as (tail, head), in rising order. `O(n + m)`.
    ///
    /// ```
    /// let network = revroute::Network::new(3, 0, &[(0, 1), (1, 2)])?;
    /// assert_eq!(network.links()?, [(1, 0), (2, 1)]);
    /// # Ok::<(), revroute::Refused>(())
    /// ```
    ///
    /// # Errors
    ///
    /// If memory for the lists runs out.
    pub fn links(&self) -> Result<Vec<(u32, u32)>, NoMemory> {
        self.engine.links()
    }

    /// The report of the last round. `O(1)`, and needs no memory.
    ///
    /// ```
    /// let network = revroute::Network::new(4, 0, &[(0, 1), (1, 2)])?;
    /// assert_eq!(network.report(), revroute::Report { turned: 3, cut_off: 1 });
    /// # Ok::<(), revroute::Refused>(())
    /// ```
    pub fn report(&self) -> Report {
        self.engine.report().expect("there is a network")
    }

    /// The number of nodes and of links. `O(1)`, and needs no memory.
    ///
    /// ```
    /// let network = revroute::Network::new(4, 0, &[(0, 1), (1, 2)])?;
    /// assert_eq!(network.size(), revroute::Size { nodes: 4, links: 2 });
    /// # Ok::<(), revroute::Refused>(())
    /// ```
    pub fn size(&self) -> Size {
        self.engine.size().expect("there is a network")
    }

    /// The destination. `O(1)`, and needs no memory.
    ///
    /// ```
    /// assert_eq!(revroute::Network::new(4, 2, &[])?.dest(), 2);
    /// # Ok::<(), revroute::Refused>(())
    /// ```
    pub fn dest(&self) -> u32 {
        self.engine.dest().expect("there is a network")
    }

    /// The former name of [`dest`](Network::dest).
    #[deprecated(since = "0.2.0", note = "use `dest`")]
    pub fn destination(&self) -> u32 {
        self.dest()
    }

    /// A network with the same links, destination and next hops, to try changes on. Its
    /// [`report`](Network::report), [`counts`](Network::counts) and [`changed`](Network::changed) are those of a new
    /// network with these links, in which only nodes that are cut off turn. It has no readers. `O(n + m)`.
    ///
    /// ```
    /// let network = revroute::Network::new(3, 0, &[(1, 0), (2, 1), (2, 0)])?;
    /// let mut other = network.try_clone()?;
    /// other.cut(1, 0)?;
    /// assert!(network.walk(1).eq([1, 0]));
    /// assert!(other.walk(1).eq([1, 2, 0]));
    /// # Ok::<(), revroute::Refused>(())
    /// ```
    ///
    /// # Errors
    ///
    /// If memory runs out.
    pub fn try_clone(&self) -> Result<Network, NoMemory> {
        let (nodes, links) = (self.size().nodes, self.links()?);
        Network::new(nodes, self.dest(), &links).map_err(|why| match why {
            Refused::NoMemory => NoMemory,
            _ => unreachable!("the links of a network make a network"),
        })
    }

    fn change(&mut self, call: Change, edits: &[sys::Edit]) -> Result<Report, RefusedEdit> {
        let (mut round, mut refusal) = (sys::Round::default(), sys::Refusal::default());
        let (handle, list, count) = (self.engine.handle(), edits.as_ptr(), edits.len());
        // SAFETY: the handle is the library's own, no other call has it, the edits are a slice, and none of the four
        // overlap.
        let status = unsafe { call(handle, list, count, &mut round, &mut refusal) };
        ended(status, &round, || {
            refused(&refusal, self.size().nodes, |walk, room, length| {
                // SAFETY: as above, and the places of the walk are another slice.
                unsafe { sys::revroute_closed_walk(handle, list, count, walk, room, length) }
            })
        })
        .map_err(|why| RefusedEdit {
            at: match why {
                Refused::NoMemory => count,
                _ => refusal.at,
            },
            why,
        })
    }
}

impl fmt::Debug for Network {
    fn fmt(&self, f: &mut fmt::Formatter<'_>) -> fmt::Result {
        let Size { nodes, links } = self.size();
        f.debug_struct("Network")
            .field("nodes", &nodes)
            .field("links", &links)
            .field("dest", &self.dest())
            .finish_non_exhaustive()
    }
}

/// A network with the same links, destination and next hops, as by [`try_clone`](Network::try_clone).
///
/// # Panics
///
/// If memory runs out.
impl Clone for Network {
    fn clone(&self) -> Network {
        self.try_clone().expect("there is memory for a network")
    }
}

/// The nodes on the route from a node to the destination. See [`Network::walk`].
#[derive(Debug, Clone)]
pub struct Walk<'a> {
    network: &'a Network,
    next: Option<u32>,
}

impl Iterator for Walk<'_> {
    type Item = u32;

    fn next(&mut self) -> Option<u32> {
        let node = self.next?;
        self.next = self.network.next_hop(node).node();
        Some(node)
    }
}

impl FusedIterator for Walk<'_> {}

/// A call that makes edits.
type Change = unsafe extern "C" fn(
    *mut sys::Handle,
    *const sys::Edit,
    usize,
    *mut sys::Round,
    *mut sys::Refusal,
) -> u32;

/// These edits as the library takes them.
fn made_of(edits: &[Edit]) -> Result<Vec<sys::Edit>, RefusedEdit> {
    listed(edits.iter().map(|&edit| edit.into())).map_err(|_| RefusedEdit {
        at: edits.len(),
        why: Refused::NoMemory,
    })
}

/// The result of a call with this status: the report of its round, or why it is refused.
fn ended(
    status: u32,
    round: &sys::Round,
    why: impl FnOnce() -> Refused,
) -> Result<Report, Refused> {
    match status {
        sys::ANSWERED => Ok(round.report()),
        sys::REFUSED => Err(why()),
        sys::NO_MEMORY => Err(Refused::NoMemory),
        _ => unreachable!("a change of a network has three ends"),
    }
}

/// A refusal with its evidence, in a network of this many nodes. A cycle has to be found again, which needs memory.
fn refused(
    refusal: &sys::Refusal,
    nodes: u32,
    closed_walk: impl Fn(*mut u32, usize, *mut usize) -> u32,
) -> Refused {
    let (u, v) = (refusal.u, refusal.v);
    match refusal.number {
        sys::NO_SUCH => Refused::NoSuchNode(u),
        sys::SELF_LINK => Refused::SelfLink(u),
        sys::TWICE => Refused::Twice(u, v),
        // The library has one number for a cut without a link, also if there is no such node.
        sys::NO_LINK if u.max(v) >= nodes => Refused::NoSuchNode(if u >= nodes { u } else { v }),
        sys::NO_LINK => Refused::NoLink(u, v),
        sys::TOO_MANY => Refused::TooMany,
        sys::CLOSED_WALK => match filled(closed_walk) {
            Ok(walk) => Refused::ClosedWalk(walk.expect("a closed walk refuses it")),
            Err(NoMemory) => Refused::NoMemory,
        },
        _ => unreachable!("there are six refusals"),
    }
}
