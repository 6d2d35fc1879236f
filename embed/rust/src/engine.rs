//! The handle of the library that a session or a network owns, and the questions to it.

use crate::reader::TableName;
use crate::table::{self, WayPushes};
use crate::{Hop, NoMemory, Reader, Report, Size, TableFault, WayReader, listed, sys};
use std::cell::{OnceCell, UnsafeCell};

/// The owner of a handle. A question changes nothing, but the library needs exclusive access to the handle for it. So
/// the handle is in a cell, and no two threads can ask at once.
pub struct Engine {
    handle: UnsafeCell<sys::Handle>,
    /// The name of the tables that its readers read, once it has had a reader.
    table: OnceCell<TableName>,
}

// SAFETY: the library proves that a handle may go to another thread; the cell keeps it from being shared by two.
unsafe impl Send for Engine {}

/// A question that fills an array of `room` places, and reports the number of elements.
type Fill<T> = unsafe extern "C" fn(*mut sys::Handle, *mut T, usize, *mut usize) -> u32;

/// A question for the pushes of a phase, about a table of ways in two arrays.
type Phase = unsafe extern "C" fn(
    *mut sys::Handle,
    *const usize,
    usize,
    *const u32,
    usize,
    *mut u32,
    usize,
    *mut usize,
) -> u32;

impl Engine {
    /// An engine without a network. It holds no memory.
    pub const fn new() -> Engine {
        Engine {
            handle: UnsafeCell::new(sys::Handle::NEW),
            table: OnceCell::new(),
        }
    }

    /// The handle, for a call that changes the session.
    pub fn handle(&mut self) -> *mut sys::Handle {
        self.handle.get()
    }

    #[inline]
    pub fn next_hop(&self, node: u32) -> Option<Hop> {
        // SAFETY: the handle is new or the library's own, and no other call has it.
        Hop::of(unsafe { sys::revroute_next_hop(self.handle.get(), node) })
    }

    pub fn hops(&self) -> Result<Vec<Hop>, NoMemory> {
        let values = self.all_of(sys::revroute_hops)?;
        listed(
            values
                .iter()
                .map(|&it| Hop::of(it).expect("a node has a hop")),
        )
    }

    pub fn changed(&self) -> Result<Vec<(u32, Hop)>, NoMemory> {
        let nodes = self.all_of(sys::revroute_changed)?;
        self.with_hops(&nodes)
    }

    pub fn pushes(&self, table: &[Hop]) -> Result<Vec<(u32, Hop)>, TableFault> {
        let nodes = self.size().map_or(0, |size| size.nodes);
        table::check(table, nodes)?;
        let values = listed(table.iter().map(|hop| hop.value()))?;
        let (hops, count) = (values.as_ptr(), values.len());
        // Each call computes the order again, so the first call gets room for all nodes.
        let found = filled_with(count, |places, room, length| {
            // SAFETY: as in `all_of`, and the hops are another slice.
            unsafe { sys::revroute_pushes(self.handle.get(), hops, count, places, room, length) }
        })?;
        Ok(self.with_hops(&found.unwrap_or_default())?)
    }

    /// Nodes with their next hops. A node that is gone counts as cut off.
    fn with_hops(&self, nodes: &[u32]) -> Result<Vec<(u32, Hop)>, NoMemory> {
        let hop = |node| self.next_hop(node).unwrap_or(Hop::CutOff);
        listed(nodes.iter().map(|&node| (node, hop(node))))
    }

    pub fn counts(&self) -> Result<Vec<u64>, NoMemory> {
        self.all_of(sys::revroute_counts)
    }

    pub fn links(&self) -> Result<Vec<(u32, u32)>, NoMemory> {
        let links = self.all_of(sys::revroute_links)?;
        listed(links.iter().map(|link| (link.tail, link.head)))
    }

    pub fn walk(&self, node: u32) -> Result<Option<Vec<u32>>, NoMemory> {
        // SAFETY: as in `all_of`.
        filled(|nodes, room, length| unsafe {
            sys::revroute_walk(self.handle.get(), node, nodes, room, length)
        })
    }

    pub fn ways(&self, node: u32) -> Result<Option<Vec<u32>>, NoMemory> {
        // SAFETY: as in `all_of`.
        filled(|ways, room, length| unsafe {
            sys::revroute_ways(self.handle.get(), node, ways, room, length)
        })
    }

    pub fn nearest(&self, node: u32) -> Result<Option<Vec<u32>>, NoMemory> {
        // SAFETY: as in `all_of`.
        filled(|nodes, room, length| unsafe {
            sys::revroute_nearest(self.handle.get(), node, nodes, room, length)
        })
    }

    pub fn all_ways(&self) -> Result<Vec<Vec<u32>>, NoMemory> {
        let (nodes, links) = self.extent();
        let mut starts = listed((0..nodes + 1).map(|_| 0))?;
        let (begins, count) = (starts.as_mut_ptr(), starts.len());
        // There are at most as many ways as links.
        let ways = filled_with(links, |ways, room, length| {
            // SAFETY: as in `all_of`, and the starts are another slice.
            unsafe { sys::revroute_all_ways(self.handle.get(), begins, count, ways, room, length) }
        })?
        .unwrap_or_default();
        let mut table = Vec::new();
        table.try_reserve_exact(nodes).map_err(|_| NoMemory)?;
        for ends in starts.windows(2) {
            table.push(listed(ways[ends[0]..ends[1]].iter().copied())?);
        }
        Ok(table)
    }

    pub fn shrink(&self, table: &[impl AsRef<[u32]>]) -> Result<WayPushes, TableFault> {
        self.phase(sys::revroute_shrink, table)
    }

    pub fn grow(&self, table: &[impl AsRef<[u32]>]) -> Result<WayPushes, TableFault> {
        self.phase(sys::revroute_grow, table)
    }

    pub fn change_shrink(&self) -> Result<WayPushes, NoMemory> {
        table::way_pushes(&self.all_of(sys::revroute_change_shrink)?)
    }

    pub fn change_grow(&self) -> Result<WayPushes, NoMemory> {
        table::way_pushes(&self.all_of(sys::revroute_change_grow)?)
    }

    /// The pushes of one of the two phases.
    fn phase(&self, call: Phase, table: &[impl AsRef<[u32]>]) -> Result<WayPushes, TableFault> {
        let (nodes, links) = self.extent();
        if table.len() != nodes {
            return Err(TableFault::Length);
        }
        let (starts, ways) = table::rows(table)?;
        // Each call computes the pushes again, so the first call gets room for all.
        let found = filled_with(2 * nodes + links, |places, room, length| {
            // SAFETY: as in `all_of`, and the starts and the ways are two other slices.
            unsafe {
                let (starts_at, ways_at) = (starts.as_ptr(), ways.as_ptr());
                call(
                    self.handle.get(),
                    starts_at,
                    starts.len(),
                    ways_at,
                    ways.len(),
                    places,
                    room,
                    length,
                )
            }
        })?;
        Ok(table::way_pushes(&found.unwrap_or_default())?)
    }

    /// The distance of a node. `None` if it is cut off, or if there is no such node.
    #[inline]
    pub fn distance(&self, node: u32) -> Option<u32> {
        // SAFETY: the handle is new or the library's own, and no other call has it.
        let distance = unsafe { sys::revroute_distance(self.handle.get(), node) };
        (distance < sys::NO_HOP).then_some(distance)
    }

    pub fn report(&self) -> Option<Report> {
        let mut round = sys::Round::default();
        // SAFETY: the handle is new or the library's own, no other call has it, and the two do not overlap.
        let status = unsafe { sys::revroute_report(self.handle.get(), &mut round) };
        (status == sys::ANSWERED).then(|| round.report())
    }

    pub fn dest(&self) -> Option<u32> {
        // SAFETY: the handle is new or the library's own, and no other call has it.
        let dest = unsafe { sys::revroute_dest(self.handle.get()) };
        (dest != sys::NO_HOP).then_some(dest)
    }

    pub fn size(&self) -> Option<Size> {
        let (mut nodes, mut links) = (0, 0);
        // SAFETY: the handle is new or the library's own, no other call has it, and the three do not overlap.
        let status = unsafe { sys::revroute_size(self.handle.get(), &mut nodes, &mut links) };
        (status == sys::ANSWERED).then_some(Size { nodes, links })
    }

    /// The number of nodes and of links. Both are 0 before the first network.
    fn extent(&self) -> (usize, usize) {
        self.size()
            .map_or((0, 0), |size| (size.nodes as usize, size.links))
    }

    pub fn reader(&self) -> Result<Reader, NoMemory> {
        let table = *self.table.get_or_init(TableName::new);
        // SAFETY: the handle is new or the library's own, no other call has it, and the reader's is new.
        Reader::opened(table, |reader| unsafe {
            sys::revroute_reader_open(self.handle.get(), reader)
        })
    }

    pub fn way_reader(&self) -> Result<WayReader, NoMemory> {
        let table = *self.table.get_or_init(TableName::new);
        // SAFETY: the handle is new or the library's own, no other call has it, and the reader's is new.
        WayReader::opened(table, |reader| unsafe {
            sys::revroute_way_reader_open(self.handle.get(), reader)
        })
    }

    /// All elements of the answer to a question. The list is empty before the first network.
    fn all_of<T: Copy + Default>(&self, fill: Fill<T>) -> Result<Vec<T>, NoMemory> {
        // SAFETY: no other call has the handle; the places are those of a slice, which does not overlap its length.
        let found = filled(|places, room, length| unsafe {
            fill(self.handle.get(), places, room, length)
        })?;
        Ok(found.unwrap_or_default())
    }
}

impl Drop for Engine {
    fn drop(&mut self) {
        // SAFETY: the handle is new or the library's own, and no call has it.
        unsafe { sys::revroute_close(self.handle.get()) }
    }
}

/// What a call writes, with as much room as it asks for. `None` if the call has no answer.
pub fn filled<T: Copy + Default>(
    fill: impl Fn(*mut T, usize, *mut usize) -> u32,
) -> Result<Option<Vec<T>>, NoMemory> {
    filled_with(0, fill)
}

/// The same, with room for `room` elements in the first call.
pub fn filled_with<T: Copy + Default>(
    room: usize,
    mut fill: impl FnMut(*mut T, usize, *mut usize) -> u32,
) -> Result<Option<Vec<T>>, NoMemory> {
    let mut found = listed((0..room).map(|_| T::default()))?;
    loop {
        let mut length = 0;
        match fill(found.as_mut_ptr(), found.len(), &mut length) {
            sys::ANSWERED => {
                found.truncate(length);
                return Ok(Some(found));
            }
            sys::TOO_SHORT => {
                found
                    .try_reserve_exact(length - found.len())
                    .map_err(|_| NoMemory)?;
                found.resize(length, T::default());
            }
            sys::NO_MEMORY => return Err(NoMemory),
            sys::NO_NETWORK | sys::NO_ROUTE | sys::NO_WALK => return Ok(None),
            _ => unreachable!("a call that fills has six ends"),
        }
    }
}
