//! The calls of `embed/c/revroute.h`, as C declares them.

use crate::Report;
use std::ffi::c_void;
use std::ptr::null_mut;

/// The handle of a session. Only the library reads it.
#[repr(C)]
pub struct Handle {
    at: *mut c_void,
}

impl Handle {
    /// The handle of a session without a network. It holds no memory.
    pub const NEW: Handle = Handle { at: null_mut() };
}

/// The handle of a reader. Only the library reads it.
#[repr(C)]
pub struct ReaderHandle {
    at: *mut c_void,
}

impl ReaderHandle {
    /// The null reader. It holds no memory.
    pub const NONE: ReaderHandle = ReaderHandle { at: null_mut() };
}

/// The handle of a reader of ways. Only the library reads it.
#[repr(C)]
pub struct WayReaderHandle {
    at: *mut c_void,
}

impl WayReaderHandle {
    /// The null reader of ways. It holds no memory.
    pub const NONE: WayReaderHandle = WayReaderHandle { at: null_mut() };
}

/// The handle of a node. Only the library reads it.
#[repr(C)]
pub struct NodeHandle {
    at: *mut c_void,
}

impl NodeHandle {
    /// The null node. It holds no memory.
    pub const NONE: NodeHandle = NodeHandle { at: null_mut() };
}

/// The call succeeded. What it writes is at the front of the buffer or the array.
pub const ANSWERED: u32 = 0;
/// The line is blank.
pub const BLANK: u32 = 1;
/// The buffer is too short. The length is the length that is needed, and nothing has changed.
pub const TOO_SHORT: u32 = 2;
/// Memory ran out. Nothing has changed.
pub const NO_MEMORY: u32 = 3;
/// The session has no network yet, or the reader or the node is null.
pub const NO_NETWORK: u32 = 4;
/// The node has no route to the destination.
pub const NO_ROUTE: u32 = 5;
/// The call is refused, and its refusal says why.
pub const REFUSED: u32 = 6;
/// The edits or the links are not refused for a cycle.
pub const NO_WALK: u32 = 7;
/// No line has ended. The bytes are kept.
pub const BEGUN: u32 = 8;
/// The line is longer than the limit. Nothing was taken.
pub const TOO_LONG: u32 = 9;
// `NO_TABLE`, 10, is never returned: the crate checks a table before it passes it on. Neither is `NULL_ARRAY`, 11: no
// slice is null.
/// The ways and gates of the node have to be written first.
pub const UNWRITTEN: u32 = 12;
/// The bytes are not a message of a node. Nothing has changed.
pub const NO_MESSAGE: u32 = 13;
/// The neighbour is not known, or the link to it is down.
pub const LINK_DOWN: u32 = 14;
/// An event came after the ways and gates were handed out. Nothing has changed.
pub const OUTDATED: u32 = 15;
/// A neighbour knows a later start of this router. Nothing has changed.
pub const LATER_START: u32 = 16;

/// In place of a next hop: the node is the destination.
pub const HERE: u32 = 0xffff_ffff;
/// In place of a next hop: the node is cut off from the destination.
pub const CUT_OFF: u32 = 0xffff_fffe;
/// In place of a next hop: there is no such node.
pub const NO_SUCH_NODE: u32 = 0xffff_fffd;
/// In place of a next hop: there is no network yet.
pub const NO_HOP: u32 = 0xffff_fffc;

/// The kinds of edits: remove a link, add one, or add one in the direction that closes no cycle.
pub const CUT: u32 = 0;
pub const ADD: u32 = 1;
pub const JOIN: u32 = 2;

/// Why a call is refused. Lines use the same numbers.
pub const NO_SUCH: u32 = 4;
pub const SELF_LINK: u32 = 5;
pub const TWICE: u32 = 6;
pub const CLOSED_WALK: u32 = 7;
pub const NO_LINK: u32 = 8;
pub const TOO_MANY: u32 = 9;

/// A link.
#[repr(C)]
#[derive(Clone, Copy, Default)]
pub struct Link {
    pub tail: u32,
    pub head: u32,
}

/// An edit of one link.
#[repr(C)]
#[derive(Clone, Copy)]
pub struct Edit {
    pub kind: u32,
    pub u: u32,
    pub v: u32,
}

/// The report of a round.
#[repr(C)]
#[derive(Default)]
pub struct Round {
    pub turned: u64,
    pub cut_off: u64,
}

impl Round {
    pub fn report(&self) -> Report {
        Report {
            turned: self.turned,
            cut_off: self.cut_off,
        }
    }
}

/// Why a call is refused, with the nodes that show it, and the index of the edit.
#[repr(C)]
#[derive(Default)]
pub struct Refusal {
    pub number: u32,
    pub u: u32,
    pub v: u32,
    pub at: usize,
}

/// The kinds of rise of a node.
pub const FULL: u32 = 0;
pub const TOP: u32 = 1;

/// When a node changes its height.
#[repr(C)]
pub struct NodePolicy {
    pub rise: u32,
    pub ceiling: u32,
    pub lower: u32,
    pub wait: u32,
}

unsafe extern "C" {
    pub fn revroute_open(
        session: *mut Handle,
        nodes: u32,
        dest: u32,
        links: *const Link,
        count: usize,
        round: *mut Round,
        refusal: *mut Refusal,
    ) -> u32;

    pub fn revroute_change(
        session: *mut Handle,
        edits: *const Edit,
        count: usize,
        round: *mut Round,
        refusal: *mut Refusal,
    ) -> u32;

    pub fn revroute_change_with_ways(
        session: *mut Handle,
        edits: *const Edit,
        count: usize,
        round: *mut Round,
        refusal: *mut Refusal,
    ) -> u32;

    pub fn revroute_move_dest(
        session: *mut Handle,
        dest: u32,
        round: *mut Round,
        refusal: *mut Refusal,
    ) -> u32;

    pub fn revroute_closed_walk(
        session: *mut Handle,
        edits: *const Edit,
        count: usize,
        nodes: *mut u32,
        room: usize,
        length: *mut usize,
    ) -> u32;

    pub fn revroute_closed_walk_of(
        nodes: u32,
        links: *const Link,
        count: usize,
        walk: *mut u32,
        room: usize,
        length: *mut usize,
    ) -> u32;

    pub fn revroute_answer(
        session: *mut Handle,
        line: *const u8,
        line_length: usize,
        answer: *mut u8,
        room: usize,
        length: *mut usize,
    ) -> u32;

    pub fn revroute_take(
        session: *mut Handle,
        piece: *const u8,
        piece_length: usize,
        answer: *mut u8,
        room: usize,
        length: *mut usize,
        taken: *mut usize,
    ) -> u32;

    pub fn revroute_finish(
        session: *mut Handle,
        answer: *mut u8,
        room: usize,
        length: *mut usize,
    ) -> u32;

    pub fn revroute_next_hop(session: *mut Handle, node: u32) -> u32;

    pub fn revroute_hops(
        session: *mut Handle,
        hops: *mut u32,
        room: usize,
        length: *mut usize,
    ) -> u32;

    pub fn revroute_changed(
        session: *mut Handle,
        nodes: *mut u32,
        room: usize,
        length: *mut usize,
    ) -> u32;

    pub fn revroute_pushes(
        session: *mut Handle,
        table: *const u32,
        count: usize,
        nodes: *mut u32,
        room: usize,
        length: *mut usize,
    ) -> u32;

    pub fn revroute_push_order(
        old_hops: *const u32,
        old_count: usize,
        new_hops: *const u32,
        new_count: usize,
        nodes: *mut u32,
        room: usize,
        length: *mut usize,
        refusal: *mut Refusal,
    ) -> u32;

    pub fn revroute_counts(
        session: *mut Handle,
        counts: *mut u64,
        room: usize,
        length: *mut usize,
    ) -> u32;

    pub fn revroute_walk(
        session: *mut Handle,
        node: u32,
        nodes: *mut u32,
        room: usize,
        length: *mut usize,
    ) -> u32;

    pub fn revroute_ways(
        session: *mut Handle,
        node: u32,
        ways: *mut u32,
        room: usize,
        length: *mut usize,
    ) -> u32;

    pub fn revroute_distance(session: *mut Handle, node: u32) -> u32;

    pub fn revroute_nearest(
        session: *mut Handle,
        node: u32,
        nodes: *mut u32,
        room: usize,
        length: *mut usize,
    ) -> u32;

    pub fn revroute_all_ways(
        session: *mut Handle,
        starts: *mut usize,
        starts_room: usize,
        ways: *mut u32,
        ways_room: usize,
        length: *mut usize,
    ) -> u32;

    pub fn revroute_shrink(
        session: *mut Handle,
        starts: *const usize,
        starts_count: usize,
        ways: *const u32,
        count: usize,
        pushes: *mut u32,
        room: usize,
        length: *mut usize,
    ) -> u32;

    pub fn revroute_grow(
        session: *mut Handle,
        starts: *const usize,
        starts_count: usize,
        ways: *const u32,
        count: usize,
        pushes: *mut u32,
        room: usize,
        length: *mut usize,
    ) -> u32;

    pub fn revroute_change_shrink(
        session: *mut Handle,
        pushes: *mut u32,
        room: usize,
        length: *mut usize,
    ) -> u32;

    pub fn revroute_change_grow(
        session: *mut Handle,
        pushes: *mut u32,
        room: usize,
        length: *mut usize,
    ) -> u32;

    pub fn revroute_links(
        session: *mut Handle,
        links: *mut Link,
        room: usize,
        length: *mut usize,
    ) -> u32;

    pub fn revroute_report(session: *mut Handle, round: *mut Round) -> u32;

    pub fn revroute_dest(session: *mut Handle) -> u32;

    pub fn revroute_size(session: *mut Handle, nodes: *mut u32, links: *mut usize) -> u32;

    pub fn revroute_close(session: *mut Handle);

    pub fn revroute_reader_open(session: *mut Handle, reader: *mut ReaderHandle) -> u32;

    pub fn revroute_reader_copy(reader: *mut ReaderHandle, other: *mut ReaderHandle) -> u32;

    pub fn revroute_reader_learn(reader: *mut ReaderHandle, other: *mut ReaderHandle) -> u32;

    pub fn revroute_reader_next_hop(reader: *mut ReaderHandle, node: u32) -> u32;

    pub fn revroute_reader_walk(
        reader: *mut ReaderHandle,
        node: u32,
        nodes: *mut u32,
        room: usize,
        length: *mut usize,
    ) -> u32;

    pub fn revroute_reader_close(reader: *mut ReaderHandle);

    pub fn revroute_way_reader_open(session: *mut Handle, reader: *mut WayReaderHandle) -> u32;

    pub fn revroute_way_reader_copy(
        reader: *mut WayReaderHandle,
        other: *mut WayReaderHandle,
    ) -> u32;

    pub fn revroute_way_reader_learn(
        reader: *mut WayReaderHandle,
        other: *mut WayReaderHandle,
    ) -> u32;

    pub fn revroute_way_reader_ways(
        reader: *mut WayReaderHandle,
        node: u32,
        ways: *mut u32,
        room: usize,
        length: *mut usize,
    ) -> u32;

    pub fn revroute_way_reader_way(reader: *mut WayReaderHandle, node: u32, choice: u32) -> u32;

    pub fn revroute_way_reader_close(reader: *mut WayReaderHandle);

    pub fn revroute_node_open(
        node: *mut NodeHandle,
        me: u32,
        boot: u64,
        height: u64,
        policy: *const NodePolicy,
    ) -> u32;

    pub fn revroute_node_open_gateway(node: *mut NodeHandle, me: u32, boot: u64) -> u32;

    pub fn revroute_node_know(node: *mut NodeHandle, neighbour: u32, cost: u32) -> u32;

    pub fn revroute_node_link_up(node: *mut NodeHandle, neighbour: u32) -> u32;

    pub fn revroute_node_link_down(node: *mut NodeHandle, neighbour: u32) -> u32;

    pub fn revroute_node_set_cost(node: *mut NodeHandle, neighbour: u32, cost: u32) -> u32;

    pub fn revroute_node_tick(node: *mut NodeHandle, patience: u32) -> u32;

    pub fn revroute_node_act(node: *mut NodeHandle) -> u32;

    pub fn revroute_node_hear(node: *mut NodeHandle, bytes: *const u8, count: usize) -> u32;

    pub fn revroute_node_written(node: *mut NodeHandle, state: u64) -> u32;

    pub fn revroute_node_say(
        node: *mut NodeHandle,
        neighbour: u32,
        message: *mut u8,
        room: usize,
        length: *mut usize,
    ) -> u32;

    pub fn revroute_node_has_news(node: *mut NodeHandle, neighbour: u32, news: *mut u32) -> u32;

    pub fn revroute_node_ways(
        node: *mut NodeHandle,
        ways: *mut u32,
        room: usize,
        length: *mut usize,
        state: *mut u64,
    ) -> u32;

    pub fn revroute_node_gates(
        node: *mut NodeHandle,
        gates: *mut u32,
        room: usize,
        length: *mut usize,
        state: *mut u64,
    ) -> u32;

    pub fn revroute_node_distance(node: *mut NodeHandle, distance: *mut u32) -> u32;

    pub fn revroute_node_height(node: *mut NodeHandle, height: *mut u64) -> u32;

    pub fn revroute_node_lets_in(node: *mut NodeHandle, neighbour: u32) -> u32;

    pub fn revroute_node_sends_to(node: *mut NodeHandle, neighbour: u32) -> u32;

    pub fn revroute_node_close(node: *mut NodeHandle);

    pub fn revroute_version(text: *mut u8, room: usize, length: *mut usize) -> u32;
}
