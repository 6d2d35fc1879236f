//! The state machine of one router, in a network without a controller.

use crate::engine::filled_with;
use crate::reader::TableName;
use crate::{NoMemory, sys};
use std::cell::UnsafeCell;
use std::error::Error;
use std::fmt;

/// The length of a message in bytes.
pub const MESSAGE_LENGTH: usize = 64;

/// How many neighbours there is room for in the first call that lists some.
const FEW: usize = 16;

/// When a node raises its height.
///
/// ```
/// use revroute::{Node, NodeFault, Policy, Rise};
///
/// let policy = Policy { rise: Rise::Top(64), ..Policy::default() };
/// assert_eq!(Node::new(1, 1, u32::MAX.into(), policy)?.height(), u64::from(u32::MAX));
/// # Ok::<(), NodeFault>(())
/// ```
#[derive(Debug, Clone, Copy, PartialEq, Eq)]
#[non_exhaustive]
pub enum Rise {
    /// If it has no way: above all neighbours. This is full link reversal. Routers that are cut off from all gateways
    /// raise their heights for ever.
    Full,
    /// If no neighbour offers its height or less: at once to [`u32::MAX`], the height of a router without a route. A
    /// neighbour offers its own height and the cost of the link together, if that is below this ceiling. The node comes
    /// down to its best offer once each neighbour at a link that is up is let in. So once all is quiet, routes have the
    /// least costs, if these are below the ceiling, and routers that are cut off from all gateways are silent. Start such
    /// nodes at [`u32::MAX`].
    Top(u32),
}

/// When a node changes its height. No policy can make a loop.
#[derive(Debug, Clone, Copy, PartialEq, Eq)]
pub struct Policy {
    /// When it raises its height.
    pub rise: Rise,
    /// Whether a node with [`Rise::Full`] lowers its height to its distance, if a way with a smaller distance stays a
    /// way.
    pub lower: bool,
    /// Whether it keeps its old height and ways until the neighbours that it lets in have acknowledged a greater
    /// height.
    pub wait: bool,
}

/// The policy to start with: [`Rise::Full`], with `lower` and with `wait`.
///
/// Full reversal needs no number that depends on the network, and packets arrive once messages have arrived and no
/// router changes its height. With `lower`, routers come down to their distances, so routes are short. With `wait`, a
/// router keeps its gates open while its neighbours learn of its new height, so it drops fewer packets. Choose another
/// policy if routes are to have the least costs, or if routers that are cut off from all gateways have to fall silent:
/// [`Rise::Top`].
///
/// ```
/// use revroute::{Policy, Rise};
///
/// assert_eq!(Policy::default(), Policy { rise: Rise::Full, lower: true, wait: true });
/// ```
impl Default for Policy {
    fn default() -> Policy {
        Policy {
            rise: Rise::Full,
            lower: true,
            wait: true,
        }
    }
}

impl Policy {
    fn of_c(self) -> sys::NodePolicy {
        let (rise, ceiling) = match self.rise {
            Rise::Full => (sys::FULL, 0),
            Rise::Top(ceiling) => (sys::TOP, ceiling),
        };
        sys::NodePolicy {
            rise,
            ceiling,
            lower: self.lower.into(),
            wait: self.wait.into(),
        }
    }
}

/// Why a router cannot start, or a neighbour cannot be made known. Nothing has changed.
///
/// ```
/// use revroute::{Node, NodeFault, Policy};
///
/// assert!(matches!(Node::new(1, 1, 1 << 63, Policy::default()), Err(NodeFault::TooHigh)));
/// let mut node = Node::gateway(0, 1)?;
/// assert_eq!(node.know(0, 1), Err(NodeFault::Itself));
/// assert_eq!(node.know(1, 0), Err(NodeFault::FreeLink));
/// # Ok::<(), NodeFault>(())
/// ```
#[derive(Debug, Clone, Copy, PartialEq, Eq)]
#[non_exhaustive]
pub enum NodeFault {
    /// The neighbour is the router itself.
    Itself,
    /// The cost of the link is 0.
    FreeLink,
    /// The height is 2^63 or more. Neighbours have to be able to rise above it.
    TooHigh,
    /// Memory ran out.
    NoMemory,
}

impl fmt::Display for NodeFault {
    fn fmt(&self, f: &mut fmt::Formatter<'_>) -> fmt::Result {
        match self {
            NodeFault::Itself => f.write_str("a router is no neighbour of itself"),
            NodeFault::FreeLink => f.write_str("a link costs 1 or more"),
            NodeFault::TooHigh => f.write_str("a router starts at a height below 2^63"),
            NodeFault::NoMemory => NoMemory.fmt(f),
        }
    }
}

impl Error for NodeFault {}

impl From<NoMemory> for NodeFault {
    fn from(_: NoMemory) -> NodeFault {
        NodeFault::NoMemory
    }
}

/// Why a message is not heard. Nothing has changed, and it was no event.
///
/// ```
/// use revroute::{HearFault, Node, NodeFault};
///
/// assert_eq!(Node::gateway(0, 1)?.hear(b"hello"), Err(HearFault::NotAMessage));
/// # Ok::<(), NodeFault>(())
/// ```
#[derive(Debug, Clone, Copy, PartialEq, Eq)]
#[non_exhaustive]
pub enum HearFault {
    /// The bytes are not a message, because of their number or their header.
    NotAMessage,
    /// A neighbour knows a start of this router with a greater boot number. Either the boot number was not greater than
    /// at all earlier starts, or another router has the number of this one. The promise of a [`Node`] does not hold
    /// then: start the router again with a greater boot number, or with a number of its own.
    LaterStart,
}

impl fmt::Display for HearFault {
    fn fmt(&self, f: &mut fmt::Formatter<'_>) -> fmt::Result {
        f.write_str(match self {
            HearFault::NotAMessage => "the bytes are not a message",
            HearFault::LaterStart => "a neighbour knows a later start of this router",
        })
    }
}

impl Error for HearFault {}

/// The ways and gates of the node have to be written first, and then [`Node::written`] has to be called.
///
/// ```
/// use revroute::{Node, Unwritten};
///
/// let mut node = Node::gateway(0, 1)?;
/// node.know(1, 1)?;
/// node.link_up(1);
/// assert_eq!(node.say(1), Err(Unwritten));
/// # Ok::<(), Box<dyn std::error::Error>>(())
/// ```
#[derive(Debug, Clone, Copy, PartialEq, Eq)]
pub struct Unwritten;

impl fmt::Display for Unwritten {
    fn fmt(&self, f: &mut fmt::Formatter<'_>) -> fmt::Result {
        f.write_str("the ways and gates are not written yet")
    }
}

impl Error for Unwritten {}

/// An event came after the table was handed out, or another node handed it out. Nothing has changed: ask for the
/// [`table`](Node::table) again, and write that.
///
/// ```
/// use revroute::{Node, Outdated};
///
/// let mut node = Node::gateway(0, 1)?;
/// node.know(1, 1)?;
/// let table = node.table()?;
/// node.link_up(1);
/// assert_eq!(node.written(table), Err(Outdated));
/// # Ok::<(), Box<dyn std::error::Error>>(())
/// ```
#[derive(Debug, Clone, Copy, PartialEq, Eq)]
pub struct Outdated;

impl fmt::Display for Outdated {
    fn fmt(&self, f: &mut fmt::Formatter<'_>) -> fmt::Result {
        f.write_str("an event came after the table was handed out")
    }
}

impl Error for Outdated {}

/// What a router writes to its forwarding table: its ways, and the neighbours that it lets in, at one moment.
/// [`Node::table`] hands it out, and [`Node::written`] takes it back once it is written.
#[derive(Debug)]
#[must_use = "the ways and gates have to be written"]
pub struct NodeTable {
    ways: Vec<u32>,
    gates: Vec<u32>,
    state: u64,
    node: TableName,
}

impl NodeTable {
    /// The neighbours to which packets may be sent, the nearest first, and equally near ones by number. A gateway has
    /// none.
    pub fn ways(&self) -> &[u32] {
        &self.ways
    }

    /// The neighbours from which packets are let in, in the order in which they were made known. All other packets have
    /// to be dropped.
    pub fn gates(&self) -> &[u32] {
        &self.gates
    }
}

/// The state machine of one router, for one destination, in a network without a controller.
///
/// Events are [`link_up`](Node::link_up), [`link_down`](Node::link_down) and [`hear`](Node::hear). After an event, write
/// the ways and gates of the [`table`](Node::table) into the forwarding table, and then give it back by
/// [`written`](Node::written). Until then the node says nothing.
///
/// At no moment do the links that routers use contain a loop, whatever happens to messages and whichever routers
/// restart, if each router drops what comes from neighbours that it does not let in. `docs/NODES.md` has all rules.
///
/// ```
/// use revroute::{Node, Policy};
///
/// /// Writes the table of a router.
/// fn write(node: &mut Node) -> Result<(), Box<dyn std::error::Error>> {
///     let table = node.table()?;
///     println!("send to {:?}, let in {:?}", table.ways(), table.gates());
///     Ok(node.written(table)?)
/// }
///
/// let (mut gateway, mut router) = (Node::gateway(0, 1)?, Node::new(1, 1, 0, Policy::default())?);
/// gateway.know(1, 1)?;
/// router.know(0, 1)?;
/// gateway.link_up(1);
/// router.link_up(0);
/// write(&mut gateway)?;
/// write(&mut router)?;
/// for _ in 0..4 {
///     router.hear(&gateway.say(1)?.expect("the link is up"))?;
///     write(&mut router)?;
///     gateway.hear(&router.say(0)?.expect("the link is up"))?;
///     write(&mut gateway)?;
/// }
/// assert_eq!(router.table()?.ways(), [0]);
/// assert_eq!(gateway.table()?.gates(), [1]);
/// # Ok::<(), Box<dyn std::error::Error>>(())
/// ```
///
/// A node can be sent to another thread, but threads cannot share it:
///
/// ```compile_fail,E0277
/// fn is_shared<T: Sync>() {}
/// is_shared::<revroute::Node>();
/// ```
///
/// In the costs, d is the number of known neighbours.
pub struct Node {
    handle: UnsafeCell<sys::NodeHandle>,
    name: TableName,
}

// SAFETY: the library proves that a handle may go to another thread; the cell keeps it from being shared by two.
unsafe impl Send for Node {}

/// A call that lists neighbours, and writes the number of the node's state.
type List =
    unsafe extern "C" fn(*mut sys::NodeHandle, *mut u32, usize, *mut usize, *mut u64) -> u32;

impl Node {
    /// A router that starts at this height. No other router has the number `me`. `boot` is greater than at all earlier
    /// starts of this router. `O(1)`.
    ///
    /// # Errors
    ///
    /// [`TooHigh`](NodeFault::TooHigh) and [`NoMemory`](NodeFault::NoMemory).
    pub fn new(me: u32, boot: u64, height: u64, policy: Policy) -> Result<Node, NodeFault> {
        let policy = policy.of_c();
        // SAFETY: the handle is null, and the policy is another value.
        Node::opened(|handle| unsafe { sys::revroute_node_open(handle, me, boot, height, &policy) })
    }

    /// A gateway that starts: it takes packets out of the network, and sends them to no neighbour. One destination may
    /// have several gateways. `boot` is as for [`Node::new`]. `O(1)`.
    ///
    /// # Errors
    ///
    /// If memory runs out.
    pub fn gateway(me: u32, boot: u64) -> Result<Node, NoMemory> {
        // SAFETY: the handle is null.
        Node::opened(|handle| unsafe { sys::revroute_node_open_gateway(handle, me, boot) })
            .map_err(|_| NoMemory)
    }

    fn opened(open: impl FnOnce(*mut sys::NodeHandle) -> u32) -> Result<Node, NodeFault> {
        let node = Node {
            handle: UnsafeCell::new(sys::NodeHandle::NONE),
            name: TableName::new(),
        };
        match open(node.handle.get()) {
            sys::ANSWERED => Ok(node),
            // Each policy of the crate is known.
            sys::REFUSED => Err(NodeFault::TooHigh),
            sys::NO_MEMORY => Err(NodeFault::NoMemory),
            _ => unreachable!("a start has three ends"),
        }
    }

    /// Makes a neighbour known. `cost` is what it costs this router to send a packet to it: 1 if you have no other number.
    /// The neighbour may know another cost for the other direction. The link is down, until it comes up. A neighbour
    /// that is known stays as it is, with its cost: [`set_cost`](Node::set_cost) changes that. It may come at any time,
    /// and is no event. `O(d)`.
    ///
    /// # Errors
    ///
    /// [`FreeLink`](NodeFault::FreeLink), [`Itself`](NodeFault::Itself) and [`NoMemory`](NodeFault::NoMemory).
    pub fn know(&mut self, neighbour: u32, cost: u32) -> Result<(), NodeFault> {
        // SAFETY: the handle is the library's own, and no other call has it.
        match unsafe { sys::revroute_node_know(self.handle.get(), neighbour, cost) } {
            sys::ANSWERED => Ok(()),
            sys::REFUSED if cost == 0 => Err(NodeFault::FreeLink),
            sys::REFUSED => Err(NodeFault::Itself),
            sys::NO_MEMORY => Err(NodeFault::NoMemory),
            _ => unreachable!("a node is not null"),
        }
    }

    /// An event: the link to a neighbour comes up. It counts as up until [`tick`](Node::tick) ends that. If the
    /// neighbour is not known, no link changes. `O(d)`, and needs no memory.
    pub fn link_up(&mut self, neighbour: u32) {
        // SAFETY: the handle is the library's own, and no other call has it.
        let status = unsafe { sys::revroute_node_link_up(self.handle.get(), neighbour) };
        assert_eq!(status, sys::ANSWERED, "a node is not null");
    }

    /// An event: the link to a neighbour goes down. What was heard on it is kept. If the neighbour is not known, no link
    /// changes. `O(d)`, and needs no memory.
    pub fn link_down(&mut self, neighbour: u32) {
        // SAFETY: the handle is the library's own, and no other call has it.
        let status = unsafe { sys::revroute_node_link_down(self.handle.get(), neighbour) };
        assert_eq!(status, sys::ANSWERED, "a node is not null");
    }

    /// An event: it costs this router something else to send a packet to a neighbour, as when the bandwidth of the link
    /// changes. What was heard on the link stays. If the neighbour is not known, no link changes. `O(d)`, and needs no
    /// memory.
    ///
    /// # Errors
    ///
    /// [`FreeLink`](NodeFault::FreeLink) for the cost 0. Then nothing has changed.
    pub fn set_cost(&mut self, neighbour: u32, cost: u32) -> Result<(), NodeFault> {
        // SAFETY: the handle is the library's own, and no other call has it.
        match unsafe { sys::revroute_node_set_cost(self.handle.get(), neighbour, cost) } {
            sys::ANSWERED => Ok(()),
            sys::REFUSED => Err(NodeFault::FreeLink),
            _ => unreachable!("a node is not null"),
        }
    }

    /// Notices links that do not work both ways. Call this at a steady interval, such as that at which you say messages
    /// again. A link counts as up no longer once its neighbour has said nothing to this start of the router for
    /// `patience` calls: because it does not hear the router, or is not heard. Then the neighbour is no way, its gate
    /// closes, and the router does not wait for it. The node goes on saying messages over such a link, and the link
    /// counts as up again once the neighbour says something to this start. Calls are counted anew when the link comes
    /// up, and when the neighbour starts again. A neighbour that was not heard for as many calls is told so by the
    /// messages for it, so the link does not count at its end either.
    ///
    /// Returns whether a link was lost so, which is an event as [`link_down`](Node::link_down) is; if not, it is none.
    /// `O(d)`, and needs no memory.
    pub fn tick(&mut self, patience: u32) -> bool {
        // SAFETY: the handle is the library's own, and no other call has it.
        unsafe { sys::revroute_node_tick(self.handle.get(), patience) != 0 }
    }

    /// Lets the policy change the height once more. Returns whether something has changed, which is an event; if not, it
    /// is none. Each event takes one step of the policy, so call this after an event until it returns `false`. `O(d)`, and
    /// needs no memory.
    pub fn act(&mut self) -> bool {
        // SAFETY: the handle is the library's own, and no other call has it.
        unsafe { sys::revroute_node_act(self.handle.get()) != 0 }
    }

    /// An event: a message is heard. It is taken if it is for this router, from a known neighbour, and newer than all that
    /// were taken from this neighbour: of a greater boot number, or of the same one with a greater stamp. Any other message
    /// is ignored, and is no event: a repeated one, for example. `O(d)`, and needs no memory.
    ///
    /// # Errors
    ///
    /// The first variant of [`HearFault`] that holds.
    pub fn hear(&mut self, bytes: &[u8]) -> Result<(), HearFault> {
        let (at, count) = (bytes.as_ptr(), bytes.len());
        // SAFETY: the handle is the library's own, no other call has it, and the bytes are a slice.
        match unsafe { sys::revroute_node_hear(self.handle.get(), at, count) } {
            sys::ANSWERED => Ok(()),
            sys::NO_MESSAGE => Err(HearFault::NotAMessage),
            sys::LATER_START => Err(HearFault::LaterStart),
            _ => unreachable!("a node is not null"),
        }
    }

    /// What to write to the forwarding table: the ways and gates as they are now. `O(d log d)`.
    ///
    /// # Errors
    ///
    /// If memory for the lists runs out.
    pub fn table(&self) -> Result<NodeTable, NoMemory> {
        let (ways, state) = self.listed(sys::revroute_node_ways)?;
        let (gates, same) = self.listed(sys::revroute_node_gates)?;
        assert_eq!(state, same, "no event comes between two calls");
        Ok(NodeTable {
            ways,
            gates,
            state,
            node: self.name,
        })
    }

    /// The neighbours that a call lists, and the number of the node's state.
    fn listed(&self, list: List) -> Result<(Vec<u32>, u64), NoMemory> {
        let mut state = 0;
        // SAFETY: the handle is the library's own, no other call has it, and the places are those of a slice, which
        // overlaps neither its length nor the number.
        let found = filled_with(FEW, |places, room, length| unsafe {
            list(self.handle.get(), places, room, length, &mut state)
        })?;
        Ok((found.unwrap_or_default(), state))
    }

    /// Call this once the ways and gates of a table are written, with that table. From then on the node says messages,
    /// until the next event. `O(1)`.
    ///
    /// ```
    /// use revroute::{Node, Outdated};
    ///
    /// let mut node = Node::gateway(0, 1)?;
    /// let table = node.table()?;
    /// node.link_up(1); // while the table is written
    /// assert_eq!(node.written(table), Err(Outdated));
    /// let table = node.table()?;
    /// assert_eq!(node.written(table), Ok(()));
    /// # Ok::<(), revroute::NoMemory>(())
    /// ```
    ///
    /// # Errors
    ///
    /// [`Outdated`], if an event came after the table was handed out, or if another node handed it out.
    pub fn written(&mut self, table: NodeTable) -> Result<(), Outdated> {
        if table.node != self.name {
            return Err(Outdated);
        }
        // SAFETY: the handle is the library's own, and no other call has it.
        match unsafe { sys::revroute_node_written(self.handle.get(), table.state) } {
            sys::ANSWERED => Ok(()),
            sys::OUTDATED => Err(Outdated),
            _ => unreachable!("a node is not null"),
        }
    }

    /// The message for a neighbour. `None` if the neighbour is not known, or if you have not said that the link to it
    /// is up. A link that [`tick`](Node::tick) has lost has messages. One may be said as often as you like, and has
    /// another stamp each time. Messages may be lost, so say one to each neighbour again after some time. `O(d)`, and
    /// needs no memory.
    ///
    /// # Errors
    ///
    /// [`Unwritten`], if an event came since the last table that was written. No event comes before a node starts, so it
    /// may be called at once.
    pub fn say(&mut self, neighbour: u32) -> Result<Option<[u8; MESSAGE_LENGTH]>, Unwritten> {
        let (mut message, mut length) = ([0; MESSAGE_LENGTH], 0);
        let (place, room) = (message.as_mut_ptr(), message.len());
        // SAFETY: the handle is the library's own, no other call has it, and the three do not overlap.
        let status = unsafe {
            sys::revroute_node_say(self.handle.get(), neighbour, place, room, &mut length)
        };
        match status {
            sys::ANSWERED => Ok(Some(message)),
            sys::LINK_DOWN => Ok(None),
            sys::UNWRITTEN => Err(Unwritten),
            _ => unreachable!("a message has room"),
        }
    }

    /// Whether there is news for a neighbour: there is a message for it ([`say`](Node::say)), which differs from the
    /// last one that was said by more than its stamp. `O(d)`, and needs no memory.
    ///
    /// # Errors
    ///
    /// As for [`say`](Node::say).
    pub fn has_news(&self, neighbour: u32) -> Result<bool, Unwritten> {
        let mut news = 0;
        // SAFETY: the handle is the library's own, no other call has it, and the two do not overlap.
        let status =
            unsafe { sys::revroute_node_has_news(self.handle.get(), neighbour, &mut news) };
        match status {
            sys::ANSWERED => Ok(news != 0),
            sys::UNWRITTEN => Err(Unwritten),
            _ => unreachable!("a node is not null"),
        }
    }

    /// The cost of the nearest route from this router to a gateway, by what it has heard: 0 at a gateway. `None` if
    /// there is no way, or if no way has a distance. `O(d)`.
    pub fn distance(&self) -> Option<u32> {
        let mut distance = 0;
        // SAFETY: the handle is the library's own, no other call has it, and the two do not overlap.
        let status = unsafe { sys::revroute_node_distance(self.handle.get(), &mut distance) };
        (status == sys::ANSWERED).then_some(distance)
    }

    /// The height in use. `O(1)`.
    pub fn height(&self) -> u64 {
        let mut height = 0;
        // SAFETY: the handle is the library's own, no other call has it, and the two do not overlap.
        let status = unsafe { sys::revroute_node_height(self.handle.get(), &mut height) };
        assert_eq!(status, sys::ANSWERED, "a node is not null");
        height
    }

    /// Whether packets from a neighbour are let in now. `O(d)`.
    pub fn lets_in(&self, neighbour: u32) -> bool {
        // SAFETY: the handle is the library's own, and no other call has it.
        unsafe { sys::revroute_node_lets_in(self.handle.get(), neighbour) != 0 }
    }

    /// Whether packets may be sent to a neighbour now. `O(d)`.
    pub fn sends_to(&self, neighbour: u32) -> bool {
        // SAFETY: the handle is the library's own, and no other call has it.
        unsafe { sys::revroute_node_sends_to(self.handle.get(), neighbour) != 0 }
    }
}

impl Drop for Node {
    fn drop(&mut self) {
        // SAFETY: the handle is null or the library's own, and no call has it.
        unsafe { sys::revroute_node_close(self.handle.get()) }
    }
}

impl fmt::Debug for Node {
    fn fmt(&self, f: &mut fmt::Formatter<'_>) -> fmt::Result {
        f.debug_struct("Node").finish_non_exhaustive()
    }
}
