//! One destination: its node, and what the kernel has of it.

use crate::kernel::{Batch, Refusal, Write};
use crate::prefix::Prefix;
use revroute::{MESSAGE_LENGTH, Node, NodeTable};
use std::collections::{BTreeMap, BTreeSet};
use std::time::Duration;

/// How often a node is asked whether its policy wants more. Few steps are needed. Those that are left over come with the
/// next event.
const MOST_STEPS: usize = 8;

/// What is known of a neighbour at one destination.
pub struct Link {
    pub neighbour: u32,
    /// The cost by which the node knows it.
    pub cost: u32,
    /// Whether the link is up for the node.
    pub is_up: bool,
    /// The session and the number of the last datagram that told of this destination. 0 if none did.
    pub session: u32,
    pub number: u64,
    /// Whether the neighbour has left the destination. The node has heard nothing from it since.
    pub has_left: bool,
}

/// What the kernel has at one place of the ways.
#[derive(Clone, Copy, PartialEq, Eq)]
enum Place {
    Empty,
    Hop(u32),
    /// A write was refused, or the kernel may have deleted the way.
    Unknown,
}

impl Place {
    /// The lines that give a place another way, or none.
    fn changed_to(
        self,
        hop: Option<u32>,
        (table, prefix, at): (u32, Prefix, usize),
    ) -> impl Iterator<Item = (WayWrite, Write)> {
        let place = at as u32;
        // Another one's route with the same metric must not be replaced: only a way that is there is.
        let replaces = matches!(self, Place::Hop(_));
        let is_removed = hop.is_none() || self == Place::Unknown;
        let removal = is_removed.then_some(Write::RemoveWay {
            table,
            prefix,
            place,
        });
        let way = hop.map(|hop| Write::AddWay {
            table,
            prefix,
            place,
            hop,
            replaces,
        });
        let removal = removal.map(|line| (WayWrite { at, hop: None }, line));
        let way = way.map(|line| (WayWrite { at, hop }, line));
        removal.into_iter().chain(way)
    }
}

#[derive(Clone, Copy, PartialEq, Eq)]
enum Gate {
    Open,
    Unknown,
}

/// What a destination becomes once its table is empty.
#[derive(Clone, Copy, Debug, PartialEq, Eq)]
pub enum Becomes {
    /// This router announces it.
    Own,
    /// This router announces it no more, or its node has to forget what it heard.
    Other,
    /// This router leaves it.
    Left,
}

/// What the kernel is to have: the nexthop objects of the ways, and the tables of gates in which it is to be open.
#[derive(Default)]
pub struct Plan {
    /// What the node handed out, unless the table is to be emptied.
    pub table: Option<NodeTable>,
    pub hops: Vec<u32>,
    pub gates: Vec<u32>,
}

pub struct Destination {
    pub node: Node,
    pub is_own: bool,
    pub becomes: Option<Becomes>,
    /// Whether the kernel has the routes that drop.
    pub is_prepared: bool,
    /// Whether the kernel has what the node wants since its last event.
    pub is_written: bool,
    pub links: Vec<Link>,
    pub since: Duration,
    /// While this router leaves the destination: the neighbours that may still know what it said of it.
    pub leaves: Option<BTreeSet<u32>>,
    places: Vec<Place>,
    /// All gates that may be open, by the table.
    gates: BTreeMap<u32, Gate>,
}

impl Destination {
    pub fn new(node: Node, is_own: bool, since: Duration) -> Destination {
        Destination {
            node,
            is_own,
            becomes: None,
            is_prepared: false,
            is_written: false,
            links: Vec::new(),
            since,
            leaves: None,
            places: Vec::new(),
            gates: BTreeMap::new(),
        }
    }

    pub fn link_to(&mut self, neighbour: u32) -> Option<&mut Link> {
        self.links.iter_mut().find(|it| it.neighbour == neighbour)
    }

    /// Makes a neighbour known. Returns whether there was memory for it. Without it the neighbour is not used here. A
    /// neighbour that is known keeps its cost, until [`set_cost`](Destination::set_cost).
    pub fn know(&mut self, neighbour: u32, cost: u32) -> bool {
        if self.links.iter().any(|it| it.neighbour == neighbour) {
            return true;
        }
        if self.node.know(neighbour, cost).is_err() {
            return false;
        }
        self.links.push(Link {
            neighbour,
            cost,
            is_up: false,
            session: 0,
            number: 0,
            has_left: false,
        });
        true
    }

    /// The cost to a neighbour, if it is known. Returns whether that is an event. The ways stay until there are better ones.
    pub fn set_cost(&mut self, neighbour: u32, cost: u32) -> bool {
        let is_other = self
            .links
            .iter()
            .any(|it| it.neighbour == neighbour && it.cost != cost);
        if !is_other || self.node.set_cost(neighbour, cost).is_err() {
            return false;
        }
        if let Some(link) = self.link_to(neighbour) {
            link.cost = cost;
        }
        true
    }

    /// The link to a neighbour comes up or goes down. Returns whether that is an event.
    pub fn set_link(&mut self, neighbour: u32, is_up: bool) -> bool {
        let Some(link) = self.link_to(neighbour).filter(|it| it.is_up != is_up) else {
            return false;
        };
        link.is_up = is_up;
        if is_up {
            self.node.link_up(neighbour);
        } else {
            self.node.link_down(neighbour);
        }
        true
    }

    /// A node takes one step of its policy for each event. No messages come without news, so this has it take all others
    /// that it wants now.
    pub fn act(&mut self) {
        for _ in 0..MOST_STEPS {
            if !self.node.act() {
                return;
            }
        }
    }

    /// What its node says to a neighbour. Nothing is said that is not written. Then the neighbour learns only that there is
    /// this prefix.
    pub fn message_to(&mut self, neighbour: u32) -> Option<[u8; MESSAGE_LENGTH]> {
        let it = self.is_written.then(|| self.node.say(neighbour).ok());
        it.flatten().flatten()
    }

    /// The ways that the kernel is known to have.
    pub fn hops(&self) -> impl Iterator<Item = u32> + '_ {
        self.places.iter().filter_map(|it| match it {
            Place::Hop(hop) => Some(*hop),
            _ => None,
        })
    }

    pub fn open_gates(&self) -> impl Iterator<Item = u32> + '_ {
        self.gates
            .iter()
            .filter(|(_, it)| **it == Gate::Open)
            .map(|(table, _)| *table)
    }

    /// The kernel has deleted a nexthop object, and all ways over it, if `is_gone`. Returns whether there was one.
    pub fn lose_hop(&mut self, hop: u32, is_gone: bool) -> bool {
        let mut is_one = false;
        for it in &mut self.places {
            if *it == Place::Hop(hop) {
                *it = if is_gone {
                    Place::Empty
                } else {
                    Place::Unknown
                };
                is_one = true;
            }
        }
        is_one
    }

    /// Adds the lines that close the gates that are not wanted any more.
    pub fn close_gates(
        &mut self,
        prefix: Prefix,
        wanted: &[u32],
        batch: &mut Batch<(Prefix, u32)>,
    ) {
        for (table, gate) in &mut self.gates {
            if !wanted.contains(table) {
                *gate = Gate::Unknown;
                batch.push(
                    (prefix, *table),
                    Write::Close {
                        table: *table,
                        prefix,
                    },
                );
            }
        }
    }

    pub fn closed(&mut self, table: u32, result: Result<(), Refusal>) {
        if result.is_ok() {
            self.gates.remove(&table);
        }
    }

    /// Adds the lines that open gates.
    pub fn open_wanted(
        &mut self,
        prefix: Prefix,
        wanted: &[u32],
        batch: &mut Batch<(Prefix, u32)>,
    ) {
        for table in wanted {
            if self.gates.get(table) != Some(&Gate::Open) {
                self.gates.insert(*table, Gate::Unknown);
                batch.push(
                    (prefix, *table),
                    Write::Open {
                        table: *table,
                        prefix,
                    },
                );
            }
        }
    }

    pub fn opened(&mut self, table: u32, result: Result<(), Refusal>) {
        if result.is_ok() {
            self.gates.insert(table, Gate::Open);
        }
    }

    /// Adds the lines that change the ways, each with its place. Returns whether there are some.
    pub fn change_ways(
        &mut self,
        prefix: Prefix,
        table: u32,
        wanted: &[u32],
        batch: &mut Batch<(Prefix, WayWrite)>,
    ) -> bool {
        let mut is_changed = false;
        while self.places.last() == Some(&Place::Empty) {
            self.places.pop();
        }
        let count = wanted.len().max(self.places.len());
        self.places.resize(count, Place::Empty);
        for (at, held) in self.places.iter_mut().enumerate() {
            let hop = wanted.get(at).copied();
            if hop.map_or(Place::Empty, Place::Hop) != *held {
                for (what, line) in held.changed_to(hop, (table, prefix, at)) {
                    batch.push((prefix, what), line);
                }
                *held = Place::Unknown;
                is_changed = true;
            }
        }
        is_changed
    }

    pub fn changed_way(&mut self, what: WayWrite, result: Result<(), Refusal>) {
        let Some(place) = self.places.get_mut(what.at) else {
            return;
        };
        *place = match (result, what.hop) {
            (Ok(()), Some(hop)) => Place::Hop(hop),
            (Ok(()), None) => Place::Empty,
            (Err(_), _) => Place::Unknown,
        };
    }

    /// Whether the kernel is known to have nothing but the routes that drop.
    pub fn is_empty(&self) -> bool {
        self.gates.is_empty() && self.places.iter().all(|it| *it == Place::Empty)
    }
}

/// A write of a way: the place, and the nexthop object that it has then.
#[derive(Clone, Copy)]
pub struct WayWrite {
    at: usize,
    hop: Option<u32>,
}
