//! Readers of ways: other threads ask them for the ways of nodes while one thread changes a network.

use crate::reader::{MAX_NODES, TableName};
use crate::{NoMemory, sys};
use std::cell::UnsafeCell;
use std::fmt;

/// The most ways of a node that a [`WayReader`] reads. A node may have more; these are its first ones.
pub const MAX_WAYS: usize = 5;

/// Reads the first ways of nodes on one thread while another changes the [`Network`](crate::Network) or the
/// [`Session`](crate::Session). It is to [`ways`](crate::Network::ways) what a [`Reader`](crate::Reader) is to next
/// hops.
///
/// A read waits for nobody and takes no lock: the ways of a node are one load. All readers of ways of a network read
/// one table. It has the first [`MAX_WAYS`] ways of each node, or all if there are fewer. Once there is such a reader,
/// each accepted change pushes the changed ways to this table before its call returns. Nodes that lose ways come first,
/// and then those that get new ones. So at every moment the table has no cycle, whichever of its ways each node uses.
/// Two reads can be of different tables, but a reader never goes back to an earlier table. It can
/// [`learn`](WayReader::learn) what another reader knows.
///
/// Give each thread its own reader. `clone` makes one:
///
/// ```
/// use revroute::Network;
/// use std::thread;
///
/// let mut network = Network::new(4, 0, &[(1, 0), (2, 1), (2, 3), (3, 0)])?;
/// let reader = network.way_reader()?;
/// thread::scope(|scope| {
///     for flow in 0..2 {
///         let reader = reader.clone();
///         scope.spawn(move || assert!(matches!(reader.way(2, flow), Some(1 | 3))));
///     }
///     network.cut(1, 0).map(|_| ())
/// })?;
/// assert_eq!(reader.way(2, 0), Some(3));
/// # Ok::<(), revroute::Refused>(())
/// ```
///
/// A reader can be sent to another thread, but threads cannot share it:
///
/// ```compile_fail,E0277
/// fn is_shared<T: Sync>() {}
/// is_shared::<revroute::WayReader>();
/// ```
///
/// A reader outlives its network, and then reads its last ways.
pub struct WayReader {
    handle: UnsafeCell<sys::WayReaderHandle>,
    table: TableName,
}

// SAFETY: the library proves that a reader may go to another thread; the cell keeps it from being shared by two.
unsafe impl Send for WayReader {}

impl WayReader {
    /// The reader of this table that the call `open` opens.
    pub(crate) fn opened(
        table: TableName,
        open: impl FnOnce(*mut sys::WayReaderHandle) -> u32,
    ) -> Result<WayReader, NoMemory> {
        let reader = WayReader {
            handle: UnsafeCell::new(sys::WayReaderHandle::NONE),
            table,
        };
        match open(reader.handle.get()) {
            sys::ANSWERED => Ok(reader),
            sys::NO_MEMORY => Err(NoMemory),
            _ => unreachable!("the reader of a session has two ends"),
        }
    }

    /// One more reader of the same table. `O(1)`.
    ///
    /// # Errors
    ///
    /// If memory runs out.
    pub fn try_clone(&self) -> Result<WayReader, NoMemory> {
        // SAFETY: the handle is the library's own, no other call has it, and the other one is new.
        WayReader::opened(self.table, |other| unsafe {
            sys::revroute_way_reader_copy(self.handle.get(), other)
        })
    }

    /// Learns what another reader of ways of the same network knows. From then on this reader reads the last table that
    /// the other one knew, or a later one. `O(1)`, and needs no memory.
    ///
    /// A new reader knows the ways that the network has then. So a thread can hand on its changes as with
    /// [`Reader::learn`](crate::Reader::learn). Then it is proved that this reader sees the changes.
    ///
    /// ```
    /// use revroute::Network;
    ///
    /// let mut network = Network::new(4, 0, &[(1, 0), (2, 1), (2, 3), (3, 0)])?;
    /// let mut reader = network.way_reader()?;
    /// network.cut(1, 0)?;
    /// reader.learn(&network.way_reader()?);
    /// assert_eq!(reader.ways(2, &mut [0; 5]), [3]);
    /// # Ok::<(), revroute::Refused>(())
    /// ```
    ///
    /// # Panics
    ///
    /// If the other reader is one of another network.
    #[track_caller]
    pub fn learn(&mut self, other: &WayReader) {
        assert!(self.table == other.table, "the readers are of two networks");
        // SAFETY: both handles are the library's own, they are two, no other call has one of them, and both readers
        // read one table.
        let status =
            unsafe { sys::revroute_way_reader_learn(self.handle.get(), other.handle.get()) };
        match status {
            sys::ANSWERED => (),
            _ => unreachable!("an open reader is not null"),
        }
    }

    /// Writes the first ways of a node, nearest first, to the front of `place`, and returns them. They are all of one
    /// moment. The destination, a node that is cut off, and a number below [`MAX_NODES`] that is not a node of the
    /// network have none. `O(1)`, and needs no memory.
    ///
    /// ```
    /// use revroute::{MAX_WAYS, Network};
    ///
    /// let network = Network::new(5, 0, &[(1, 0), (2, 1), (2, 0)])?;
    /// let (reader, mut place) = (network.way_reader()?, [0; MAX_WAYS]);
    /// assert_eq!(reader.ways(2, &mut place), [0, 1]);
    /// assert_eq!(reader.ways(0, &mut place), []);
    /// assert_eq!(reader.ways(4, &mut place), []);
    /// # Ok::<(), revroute::Refused>(())
    /// ```
    ///
    /// # Panics
    ///
    /// If the number is [`MAX_NODES`] or more.
    #[track_caller]
    pub fn ways<'a>(&self, node: u32, place: &'a mut [u32; MAX_WAYS]) -> &'a [u32] {
        let mut length = 0;
        // SAFETY: the handle is the library's own, no other call has it, and the place is an array, which does not
        // overlap its length.
        let status = unsafe {
            sys::revroute_way_reader_ways(
                self.handle.get(),
                node,
                place.as_mut_ptr(),
                MAX_WAYS,
                &mut length,
            )
        };
        match status {
            sys::ANSWERED => &place[..length],
            sys::NO_ROUTE => panic!("no network has a node {node}"),
            _ => unreachable!("a reader has a place for all ways that it reads"),
        }
    }

    /// One of the first ways of a node: the one at the index `choice` modulo their number. `None` if it has none.
    /// `choice` can be a hash of what the packets of a flow have in common. Then a flow keeps its way as long as the
    /// ways of the node are the same. `O(1)`, and needs no memory.
    ///
    /// ```
    /// use revroute::Network;
    ///
    /// let reader = Network::new(5, 0, &[(1, 0), (2, 1), (2, 0)])?.way_reader()?;
    /// assert_eq!([0, 1, 2, 3].map(|choice| reader.way(2, choice)), [Some(0), Some(1), Some(0), Some(1)]);
    /// assert_eq!(reader.way(0, 7), None);
    /// # Ok::<(), revroute::Refused>(())
    /// ```
    ///
    /// # Panics
    ///
    /// If the number is [`MAX_NODES`] or more.
    #[inline]
    #[track_caller]
    pub fn way(&self, node: u32, choice: u32) -> Option<u32> {
        // SAFETY: the handle is the library's own, and no other call has it.
        let way = unsafe { sys::revroute_way_reader_way(self.handle.get(), node, choice) };
        if way < MAX_NODES as u32 {
            return Some(way);
        }
        assert!(way == sys::CUT_OFF, "no network has a node {node}");
        None
    }
}

/// One more reader of the same table, as by [`try_clone`](WayReader::try_clone).
///
/// # Panics
///
/// If memory runs out.
impl Clone for WayReader {
    fn clone(&self) -> WayReader {
        self.try_clone().expect("there is memory for a reader")
    }
}

impl Drop for WayReader {
    fn drop(&mut self) {
        // SAFETY: the handle is null or the library's own, and no call has it.
        unsafe { sys::revroute_way_reader_close(self.handle.get()) }
    }
}

impl fmt::Debug for WayReader {
    fn fmt(&self, f: &mut fmt::Formatter<'_>) -> fmt::Result {
        f.debug_struct("WayReader").finish_non_exhaustive()
    }
}
