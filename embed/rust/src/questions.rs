//! Questions to a session that are answered by numbers, without text.

use crate::{Hop, NoMemory, Reader, Report, Session, Size, TableFault, WayReader, listed};

impl Session {
    /// The next hop of a node. `None` if there is no such node, and before the first network. `O(1)`, and needs no
    /// memory.
    ///
    /// ```
    /// use revroute::{Hop, Session};
    ///
    /// let mut session = Session::new();
    /// session.answer(r#"["net",4,0,[[0,1],[1,2]]]"#)?;
    /// let hops = [0, 1, 2, 3, 4].map(|node| session.next_hop(node));
    /// assert_eq!(hops, [Some(Hop::Here), Some(Hop::To(0)), Some(Hop::To(1)), Some(Hop::CutOff), None]);
    /// # Ok::<(), revroute::NoMemory>(())
    /// ```
    pub fn next_hop(&mut self, node: u32) -> Option<Hop> {
        self.engine.next_hop(node)
    }

    /// A reader of the next hops, for another thread, as for [`Network::reader`](crate::Network::reader). Before the
    /// first network all nodes are cut off. The reader keeps working when a later network replaces this one.
    ///
    /// ```
    /// use revroute::{Hop, Session};
    ///
    /// let mut session = Session::new();
    /// let reader = session.reader()?;
    /// assert_eq!(reader.next_hop(1), Hop::CutOff);
    /// session.answer(r#"["net",2,0,[[0,1]]]"#)?;
    /// assert_eq!(reader.next_hop(1), Hop::To(0));
    /// # Ok::<(), revroute::NoMemory>(())
    /// ```
    ///
    /// # Errors
    ///
    /// If memory runs out.
    pub fn reader(&mut self) -> Result<Reader, NoMemory> {
        self.engine.reader()
    }

    /// A reader of the first ways of nodes, for another thread, as for
    /// [`Network::way_reader`](crate::Network::way_reader). Before the first network no node has a way. The reader keeps
    /// working when a later network replaces this one.
    ///
    /// ```
    /// use revroute::Session;
    ///
    /// let mut session = Session::new();
    /// let reader = session.way_reader()?;
    /// assert_eq!(reader.way(1, 0), None);
    /// session.answer(r#"["net",2,0,[[0,1]]]"#)?;
    /// assert_eq!(reader.way(1, 0), Some(0));
    /// # Ok::<(), revroute::NoMemory>(())
    /// ```
    ///
    /// # Errors
    ///
    /// If memory runs out.
    pub fn way_reader(&mut self) -> Result<WayReader, NoMemory> {
        self.engine.way_reader()
    }

    /// The next hop of each node, in the order of the nodes. Empty before the first network. `O(n)`.
    ///
    /// # Errors
    ///
    /// If memory for the list runs out.
    pub fn hops(&mut self) -> Result<Vec<Hop>, NoMemory> {
        self.engine.hops()
    }

    /// The former name of [`hops`](Session::hops).
    ///
    /// # Errors
    ///
    /// If memory for the list runs out.
    #[deprecated(since = "0.2.0", note = "use `hops`")]
    pub fn next_hops(&mut self) -> Result<Vec<Hop>, NoMemory> {
        self.hops()
    }

    /// The nodes whose next hop the last accepted round changed, each with its new next hop. They are in push order:
    /// each node after the changed nodes on its new route. Refused requests and questions do not change this list.
    /// `O(k)` for k nodes.
    ///
    /// A number that is not a node of the network before or after the round counts as cut off there, and before the
    /// first network all numbers do. So if the new network is smaller, the nodes that are gone and had a hop are on
    /// the list, with [`CutOff`](Hop::CutOff).
    ///
    /// ```
    /// use revroute::{Hop, Session};
    ///
    /// let mut session = Session::new();
    /// session.answer(r#"["net",4,0,[[1,0],[2,1],[3,0]]]"#)?;
    /// session.answer(r#"["net",3,0,[[1,0],[2,0]]]"#)?;
    /// assert_eq!(session.changed()?, [(2, Hop::To(0)), (3, Hop::CutOff)]);
    /// # Ok::<(), revroute::NoMemory>(())
    /// ```
    ///
    /// # Errors
    ///
    /// If memory for the lists runs out.
    pub fn changed(&mut self) -> Result<Vec<(u32, Hop)>, NoMemory> {
        self.engine.changed()
    }

    /// The nodes of [`changed`](Session::changed), without their hops.
    ///
    /// # Errors
    ///
    /// If memory for the lists runs out.
    #[deprecated(
        since = "0.2.0",
        note = "use `changed`, which has the nodes and their hops"
    )]
    pub fn rerouted(&mut self) -> Result<Vec<u32>, NoMemory> {
        listed(self.changed()?.iter().map(|&(node, _)| node))
    }

    /// The nodes whose hop in your table is not their next hop, each with its next hop, in push order. See
    /// [`Network::pushes`](crate::Network::pushes). Before the first network there are no nodes, so it accepts only
    /// the empty table. `O(n)`.
    ///
    /// ```
    /// use revroute::{Hop, Session};
    ///
    /// let mut session = Session::new();
    /// session.answer(r#"["net",4,0,[[1,0],[2,1],[2,3],[3,0]]]"#)?;
    /// let table = session.hops()?;
    /// session.answer(r#"["cut",1,0]"#)?;
    /// assert_eq!(session.pushes(&table)?, [(2, Hop::To(3)), (1, Hop::To(2))]);
    /// # Ok::<(), revroute::TableFault>(())
    /// ```
    ///
    /// # Errors
    ///
    /// All variants of [`TableFault`].
    pub fn pushes(&mut self, table: &[Hop]) -> Result<Vec<(u32, Hop)>, TableFault> {
        self.engine.pushes(table)
    }

    /// What to push first to routers that hold all their ways: each node that loses a way, with the ways that it keeps.
    /// See [`Network::shrink`](crate::Network::shrink). Before the first network there are no nodes, so it accepts only
    /// the empty table. It costs the same.
    ///
    /// ```
    /// let mut session = revroute::Session::new();
    /// session.answer(r#"["net",4,0,[[1,0],[2,0],[2,1],[3,2]]]"#)?;
    /// let table = session.all_ways()?;
    /// session.answer(r#"["cut",1,0]"#)?;
    /// assert_eq!(session.shrink(&table)?, [(2, vec![0]), (1, vec![])]);
    /// assert_eq!(session.grow(&table)?, [(1, vec![2])]);
    /// # Ok::<(), revroute::TableFault>(())
    /// ```
    ///
    /// # Errors
    ///
    /// - [`Length`](TableFault::Length): the table does not have one list for each node.
    /// - [`NoMemory`](TableFault::NoMemory): memory ran out.
    pub fn shrink(
        &mut self,
        table: &[impl AsRef<[u32]>],
    ) -> Result<Vec<(u32, Vec<u32>)>, TableFault> {
        self.engine.shrink(table)
    }

    /// What to push once all routers have confirmed the pushes of [`shrink`](Session::shrink): each node whose list then
    /// still differs, with all its ways, nearest first. It costs the same.
    ///
    /// # Errors
    ///
    /// Those of [`shrink`](Session::shrink).
    pub fn grow(
        &mut self,
        table: &[impl AsRef<[u32]>],
    ) -> Result<Vec<(u32, Vec<u32>)>, TableFault> {
        self.engine.grow(table)
    }

    /// How often each node turned in the last round, in the order of the nodes. Empty before the first network.
    /// `O(n)`.
    ///
    /// # Errors
    ///
    /// If memory for the list runs out.
    pub fn counts(&mut self) -> Result<Vec<u64>, NoMemory> {
        self.engine.counts()
    }

    /// The nodes on the route from a node to the destination, both included. `None` if the node is cut off, or if
    /// there is no such node. `O(k)` for k nodes.
    ///
    /// ```
    /// let mut session = revroute::Session::new();
    /// session.answer(r#"["net",4,0,[[0,1],[1,2]]]"#)?;
    /// assert_eq!(session.walk(2)?, Some(vec![2, 1, 0]));
    /// assert_eq!(session.walk(3)?, None);
    /// # Ok::<(), revroute::NoMemory>(())
    /// ```
    ///
    /// # Errors
    ///
    /// If memory for the list runs out.
    pub fn walk(&mut self, node: u32) -> Result<Option<Vec<u32>>, NoMemory> {
        self.engine.walk(node)
    }

    /// The former name of [`walk`](Session::walk).
    ///
    /// # Errors
    ///
    /// If memory for the list runs out.
    #[deprecated(since = "0.2.0", note = "use `walk`")]
    pub fn route(&mut self, node: u32) -> Result<Option<Vec<u32>>, NoMemory> {
        self.walk(node)
    }

    /// The ways of a node, nearest first, as for [`Network::ways`](crate::Network::ways). The destination has none.
    /// `None` if the node is cut off, or if there is no such node. `O(d log d)`.
    ///
    /// ```
    /// let mut session = revroute::Session::new();
    /// session.answer(r#"["net",5,0,[[2,0],[1,2],[3,0],[4,1],[4,3]]]"#)?;
    /// assert_eq!(session.ways(4)?, Some(vec![3, 1]));
    /// assert_eq!(session.ways(0)?, Some(vec![]));
    /// assert_eq!(session.ways(5)?, None);
    /// # Ok::<(), revroute::NoMemory>(())
    /// ```
    ///
    /// # Errors
    ///
    /// If memory for the list runs out.
    pub fn ways(&mut self, node: u32) -> Result<Option<Vec<u32>>, NoMemory> {
        self.engine.ways(node)
    }

    /// The ways of each node, in the order of the nodes. Empty before the first network. `O(n + m)`.
    ///
    /// ```
    /// let mut session = revroute::Session::new();
    /// assert!(session.all_ways()?.is_empty());
    /// session.answer(r#"["net",4,0,[[1,0],[2,1],[2,0]]]"#)?;
    /// assert_eq!(session.all_ways()?, [vec![], vec![0], vec![0, 1], vec![]]);
    /// # Ok::<(), revroute::NoMemory>(())
    /// ```
    ///
    /// # Errors
    ///
    /// If memory for the lists runs out.
    pub fn all_ways(&mut self) -> Result<Vec<Vec<u32>>, NoMemory> {
        self.engine.all_ways()
    }

    /// The nodes on the nearest route from a node to the destination, both included, as for
    /// [`Network::nearest`](crate::Network::nearest). `None` if the node is cut off, or if there is no such node.
    /// `O(k d)` for k nodes.
    ///
    /// ```
    /// let mut session = revroute::Session::new();
    /// session.answer(r#"["net",5,0,[[2,0],[1,2],[3,0],[4,1],[4,3]]]"#)?;
    /// assert_eq!(session.nearest(4)?, Some(vec![4, 3, 0]));
    /// # Ok::<(), revroute::NoMemory>(())
    /// ```
    ///
    /// # Errors
    ///
    /// If memory for the list runs out.
    pub fn nearest(&mut self, node: u32) -> Result<Option<Vec<u32>>, NoMemory> {
        self.engine.nearest(node)
    }

    /// The distance of a node: the fewest links that lead from it down to the destination. `None` if the node is cut
    /// off, or if there is no such node. `O(1)`, and the first time as for [`Network::ways`](crate::Network::ways). It
    /// needs no memory.
    ///
    /// ```
    /// let mut session = revroute::Session::new();
    /// session.answer(r#"["net",3,0,[[1,0],[2,1]]]"#)?;
    /// assert_eq!([session.distance(2), session.distance(3)], [Some(2), None]);
    /// # Ok::<(), revroute::NoMemory>(())
    /// ```
    pub fn distance(&mut self, node: u32) -> Option<u32> {
        self.engine.distance(node)
    }

    /// The links as (tail, head), in rising order. Empty before the first network. `O(n + m)`.
    ///
    /// ```
    /// let mut session = revroute::Session::new();
    /// session.answer(r#"["net",3,0,[[0,1],[1,2]]]"#)?;
    /// assert_eq!(session.links()?, [(1, 0), (2, 1)]);
    /// # Ok::<(), revroute::NoMemory>(())
    /// ```
    ///
    /// # Errors
    ///
    /// If memory for the lists runs out.
    pub fn links(&mut self) -> Result<Vec<(u32, u32)>, NoMemory> {
        self.engine.links()
    }

    /// The report of the last round. `None` before the first network. `O(1)`, and needs no memory.
    ///
    /// ```
    /// let mut session = revroute::Session::new();
    /// session.answer(r#"["net",4,0,[[0,1],[1,2]]]"#)?;
    /// assert_eq!(session.report(), Some(revroute::Report { turned: 3, cut_off: 1 }));
    /// # Ok::<(), revroute::NoMemory>(())
    /// ```
    pub fn report(&mut self) -> Option<Report> {
        self.engine.report()
    }

    /// The destination. `None` before the first network. `O(1)`, and needs no memory.
    ///
    /// ```
    /// let mut session = revroute::Session::new();
    /// assert_eq!(session.dest(), None);
    /// session.answer(r#"["net",4,0,[[0,1],[1,2]]]"#)?;
    /// session.answer(r#"["dest",2]"#)?;
    /// assert_eq!(session.dest(), Some(2));
    /// # Ok::<(), revroute::NoMemory>(())
    /// ```
    pub fn dest(&mut self) -> Option<u32> {
        self.engine.dest()
    }

    /// The number of nodes and of links. `None` before the first network. `O(1)`, and needs no memory.
    pub fn size(&mut self) -> Option<Size> {
        self.engine.size()
    }
}
