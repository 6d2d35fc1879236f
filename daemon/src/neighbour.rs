//! A neighbour, and the links to it.

use crate::asking::Asked;
use crate::datagram::{Mac, Peer, Start};
use crate::news::News;
use std::collections::BTreeMap;
use std::net::Ipv6Addr;
use std::time::Duration;

/// One link to a neighbour. Two routers may have several.
pub struct Adjacency {
    pub address: Ipv6Addr,
    /// The hardware address of the neighbour's device, as its hellos have it.
    pub mac: Option<Mac>,
    /// The neighbour is gone if nothing is heard until then.
    pub until: Duration,
    pub is_heard: bool,
    /// The echo requests to its kernel, while the link is up.
    pub asked: Asked,
    /// Whether the neighbour says that it hears this session of this router.
    pub hears_me: bool,
    /// The number of the nexthop object in the kernel.
    pub hop: Option<u32>,
    /// Both ends hear each other, and the kernel has the nexthop object.
    pub is_up: bool,
}

impl Adjacency {
    pub fn new(address: Ipv6Addr) -> Adjacency {
        Adjacency {
            address,
            mac: None,
            until: Duration::ZERO,
            is_heard: false,
            asked: Asked::default(),
            hears_me: false,
            hop: None,
            is_up: false,
        }
    }

    pub fn is_two_way(&self) -> bool {
        self.is_heard && self.hears_me
    }
}

/// How many devices of a neighbour are known by their hellos.
const MOST_SERIES: usize = 1024;

/// The hellos that have been heard from a neighbour. The upper half of a hello's number is that of a series: each device of
/// the neighbour has another one.
#[derive(Default)]
pub struct Hellos {
    /// The last number of each series, and the device over which it came.
    heard: BTreeMap<u32, (u64, u32)>,
}

fn series_of(number: u64) -> u32 {
    (number >> 32) as u32
}

impl Hellos {
    pub fn is_new(&self, number: u64) -> bool {
        match self.heard.get(&series_of(number)) {
            Some((last, _)) => number > *last,
            None => self.heard.len() < MOST_SERIES,
        }
    }

    /// The device over which hellos of the same series came.
    pub fn device(&self, number: u64) -> Option<u32> {
        self.heard.get(&series_of(number)).map(|it| it.1)
    }

    pub fn note(&mut self, number: u64, device: u32) {
        self.heard.insert(series_of(number), (number, device));
    }
}

pub struct Neighbour {
    pub start: Start,
    /// The links by the index of the device.
    pub links: BTreeMap<u32, Adjacency>,
    pub hellos: Hellos,
    /// Whether a link is up.
    pub is_up: bool,
    /// Whether one was up in this session. If not, nothing was said to the neighbour.
    pub was_up: bool,
    pub since: Duration,
    pub news: News,
    /// Whether all prefixes that the neighbour knew have come. Before that nothing is let in from it: what it sends to a
    /// prefix that this router does not know would be taken for a greater one.
    pub has_told_all: bool,
    /// How often news were sent, so that each of several links is tried.
    pub turns: usize,
}

impl Neighbour {
    pub fn new(start: Start, news: News, since: Duration) -> Neighbour {
        Neighbour {
            start,
            links: BTreeMap::new(),
            hellos: Hellos::default(),
            is_up: false,
            was_up: false,
            since,
            news,
            has_told_all: false,
            turns: 0,
        }
    }

    pub fn peer(&self, router: u32) -> Peer {
        let start = self.start;
        Peer { router, start }
    }
}
