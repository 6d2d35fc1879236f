//! Readers: other threads ask them for next hops while one thread changes a network.

use crate::{Hop, NoMemory, sys};
use std::cell::UnsafeCell;
use std::fmt;
use std::sync::atomic::{AtomicU64, Ordering};

/// The most nodes that a network can have. A buffer for so many nodes has room for any route, unless hops are being
/// pushed.
pub const MAX_NODES: usize = 4096;

/// Reads next hops on one thread while another changes the [`Network`](crate::Network) or the
/// [`Session`](crate::Session).
///
/// A read waits for nobody and takes no lock: a hop is one load. All readers of a network read one table. Once there
/// is a reader, each accepted change pushes the changed hops to this table, in push order, before its call returns.
/// So at every moment the table has no loop. Two reads can be of different tables, but a reader never goes back to an
/// earlier table. It can [`learn`](Reader::learn) what another reader knows.
///
/// Give each thread its own reader. `clone` makes one:
///
/// ```
/// use revroute::{Hop, Network};
/// use std::thread;
///
/// let mut network = Network::new(4, 0, &[(1, 0), (2, 1), (2, 3), (3, 0)])?;
/// let reader = network.reader()?;
/// thread::scope(|scope| {
///     for _ in 0..2 {
///         let reader = reader.clone();
///         scope.spawn(move || assert!(matches!(reader.next_hop(2), Hop::To(1) | Hop::To(3))));
///     }
///     network.cut(1, 0).map(|_| ())
/// })?;
/// assert_eq!(reader.next_hop(2), Hop::To(3));
/// # Ok::<(), revroute::Refused>(())
/// ```
///
/// A reader can be sent to another thread, but threads cannot share it:
///
/// ```compile_fail,E0277
/// fn is_shared<T: Sync>() {}
/// is_shared::<revroute::Reader>();
/// ```
///
/// A reader outlives its network, and then reads its last hops:
///
/// ```
/// use revroute::{Hop, Network};
///
/// let network = Network::new(2, 0, &[(0, 1)])?;
/// let reader = network.reader()?;
/// drop(network);
/// assert_eq!(reader.next_hop(1), Hop::To(0));
/// # Ok::<(), revroute::Refused>(())
/// ```
pub struct Reader {
    handle: UnsafeCell<sys::ReaderHandle>,
    table: TableName,
}

/// Tells the tables of different networks, or nodes, apart, which the library cannot do.
#[derive(Debug, Clone, Copy, PartialEq, Eq)]
pub(crate) struct TableName(u64);

impl TableName {
    /// A name that no other table and no other node of the process has.
    pub(crate) fn new() -> TableName {
        static NEXT: AtomicU64 = AtomicU64::new(0);
        TableName(NEXT.fetch_add(1, Ordering::Relaxed))
    }
}

// SAFETY: the library proves that a reader may go to another thread; the cell keeps it from being shared by two.
unsafe impl Send for Reader {}

/// How a walk of a [`Reader`] has ended.
#[derive(Debug, Clone, Copy, PartialEq, Eq, Hash)]
#[non_exhaustive]
pub enum Walked<'a> {
    /// At the destination. The slice has the nodes of the walk, both ends included.
    Arrived(&'a [u32]),
    /// At a node that is cut off.
    CutOff,
    /// The buffer was full before the walk ended. The slice is the whole buffer, with the nodes walked so far.
    Longer(&'a [u32]),
}

impl Reader {
    /// The reader of this table that the call `open` opens.
    pub(crate) fn opened(
        table: TableName,
        open: impl FnOnce(*mut sys::ReaderHandle) -> u32,
    ) -> Result<Reader, NoMemory> {
        let reader = Reader {
            handle: UnsafeCell::new(sys::ReaderHandle::NONE),
            table,
        };
        match open(reader.handle.get()) {
            sys::ANSWERED => Ok(reader),
            sys::NO_MEMORY => Err(NoMemory),
            _ => unreachable!("the reader of a session has two ends"),
        }
    }

    /// One more reader of the same table. `O(1)`.
    ///
    /// # Errors
    ///
    /// If memory runs out.
    pub fn try_clone(&self) -> Result<Reader, NoMemory> {
        // SAFETY: the handle is the library's own, no other call has it, and the other one is new.
        Reader::opened(self.table, |other| unsafe {
            sys::revroute_reader_copy(self.handle.get(), other)
        })
    }

    /// Learns what another reader of the same network knows. From then on this reader reads the last table that the
    /// other one knew, or a later one. `O(1)`, and needs no memory.
    ///
    /// A new reader knows the hops that the network has then. So a thread can hand on its changes: it makes a reader
    /// after them, and sends it to a thread whose reader learns from it. Then it is proved that this reader sees the
    /// changes.
    ///
    /// ```
    /// use revroute::{Hop, Network};
    /// use std::{sync::mpsc, thread};
    ///
    /// let mut network = Network::new(4, 0, &[(1, 0), (2, 1), (2, 3), (3, 0)])?;
    /// let (mut reader, (sender, changes)) = (network.reader()?, mpsc::channel());
    /// let forwarder = thread::spawn(move || {
    ///     reader.learn(&changes.recv().unwrap());
    ///     reader.next_hop(2)
    /// });
    /// network.cut(1, 0)?;
    /// sender.send(network.reader()?).unwrap();
    /// assert_eq!(forwarder.join().unwrap(), Hop::To(3));
    /// # Ok::<(), revroute::Refused>(())
    /// ```
    ///
    /// # Panics
    ///
    /// If the other reader is one of another network.
    #[track_caller]
    pub fn learn(&mut self, other: &Reader) {
        assert!(self.table == other.table, "the readers are of two networks");
        // SAFETY: both handles are the library's own, they are two, no other call has one of them, and both readers
        // read one table.
        let status = unsafe { sys::revroute_reader_learn(self.handle.get(), other.handle.get()) };
        match status {
            sys::ANSWERED => (),
            _ => unreachable!("an open reader is not null"),
        }
    }

    /// The next hop of a node, by one load. A number below [`MAX_NODES`] that is not a node of the network is cut off.
    /// `O(1)`, and needs no memory.
    ///
    /// ```
    /// use revroute::{Hop, Network};
    ///
    /// let network = Network::new(3, 0, &[(0, 1)])?;
    /// let reader = network.reader()?;
    /// let hops = [0, 1, 2, 3].map(|node| reader.next_hop(node));
    /// assert_eq!(hops, [Hop::Here, Hop::To(0), Hop::CutOff, Hop::CutOff]);
    /// # Ok::<(), revroute::Refused>(())
    /// ```
    ///
    /// # Panics
    ///
    /// If the number is [`MAX_NODES`] or more.
    #[inline]
    #[track_caller]
    pub fn next_hop(&self, node: u32) -> Hop {
        match self.try_next_hop(node) {
            Some(hop) => hop,
            None => panic!("no network has a node {node}"),
        }
    }

    /// The same, and `None` if the number is [`MAX_NODES`] or more. `O(1)`, and needs no memory.
    ///
    /// ```
    /// use revroute::{Hop, Network};
    ///
    /// let reader = Network::new(3, 0, &[(0, 1)])?.reader()?;
    /// assert_eq!(reader.try_next_hop(1), Some(Hop::To(0)));
    /// assert_eq!(reader.try_next_hop(4096), None);
    /// # Ok::<(), revroute::Refused>(())
    /// ```
    #[inline]
    pub fn try_next_hop(&self, node: u32) -> Option<Hop> {
        // SAFETY: the handle is the library's own, and no other call has it.
        Hop::of(unsafe { sys::revroute_reader_next_hop(self.handle.get(), node) })
    }

    /// Walks hop by hop from a node, with one load for each hop, and writes the nodes to the front of the buffer
    /// `place`.
    ///
    /// While another thread changes the network, later steps can read later hops. Then the walk can visit a node
    /// again, or end at a node that is cut off although its first node has a route before and after.
    ///
    /// If the buffer is full before the walk ends, the result is [`Longer`](Walked::Longer). Then walk again, or go
    /// on from the last node of the buffer. With room for [`MAX_NODES`] nodes this happens only while hops are
    /// pushed. `O(k)` for k nodes, and needs no memory.
    ///
    /// ```
    /// use revroute::{MAX_NODES, Network, Walked};
    ///
    /// let network = Network::new(4, 0, &[(0, 1), (1, 2)])?;
    /// let (reader, mut place) = (network.reader()?, [0; MAX_NODES]);
    /// assert_eq!(reader.walk(2, &mut place), Walked::Arrived(&[2, 1, 0]));
    /// assert_eq!(reader.walk(3, &mut place), Walked::CutOff);
    /// assert_eq!(reader.walk(2, &mut place[..2]), Walked::Longer(&[2, 1]));
    /// # Ok::<(), revroute::Refused>(())
    /// ```
    ///
    /// # Panics
    ///
    /// If the number is [`MAX_NODES`] or more.
    #[track_caller]
    pub fn walk<'a>(&self, node: u32, place: &'a mut [u32]) -> Walked<'a> {
        assert!((node as usize) < MAX_NODES, "no network has a node {node}");
        let (places, room, mut length) = (place.as_mut_ptr(), place.len(), 0);
        // SAFETY: the handle is the library's own, no other call has it, and the place is a slice, which does not
        // overlap its length.
        let status = unsafe {
            sys::revroute_reader_walk(self.handle.get(), node, places, room, &mut length)
        };
        match status {
            sys::ANSWERED => Walked::Arrived(&place[..length]),
            sys::NO_ROUTE => Walked::CutOff,
            sys::TOO_SHORT => Walked::Longer(place),
            _ => unreachable!("the walk of a reader has three ends"),
        }
    }
}

/// One more reader of the same table, as by [`try_clone`](Reader::try_clone).
///
/// # Panics
///
/// If memory runs out.
impl Clone for Reader {
    fn clone(&self) -> Reader {
        self.try_clone().expect("there is memory for a reader")
    }
}

impl Drop for Reader {
    fn drop(&mut self) {
        // SAFETY: the handle is null or the library's own, and no call has it.
        unsafe { sys::revroute_reader_close(self.handle.get()) }
    }
}

impl fmt::Debug for Reader {
    fn fmt(&self, f: &mut fmt::Formatter<'_>) -> fmt::Result {
        f.debug_struct("Reader").finish_non_exhaustive()
    }
}
