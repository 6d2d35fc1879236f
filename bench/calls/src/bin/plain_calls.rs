//! Times the same calls on the network of `bench/plain`, which is changed in place.

// Only the timed calls of these modules are used.
#![allow(dead_code)]

#[path = "../../../plain/src/edit.rs"]
mod edit;
#[path = "../../../plain/src/net.rs"]
mod net;
#[path = "../../../plain/src/round.rs"]
mod round;
#[path = "../../../plain/src/settle.rs"]
mod settle;
#[path = "../timing.rs"]
mod timing;

use edit::Edit;
use net::Net;
use round::{Hop, Round};
use settle::Method;
use std::sync::Arc;
use std::sync::atomic::{AtomicU32, Ordering};
use timing::{Calls, Change, Input};

/// Stands for the plain crew, which is not used here.
mod crew {
    use crate::net::Net;

    pub fn turned_by(_: &Net, _: u32, _: usize) -> Vec<u32> {
        unreachable!("one thread turns")
    }
}

struct Called(Round);

fn number(hop: Hop) -> u32 {
    match hop {
        Hop::To(node) => node,
        Hop::Here | Hop::CutOff => u32::MAX,
    }
}

impl Calls for Called {
    fn open(input: &Input) -> Called {
        let net = Net::new(input.nodes, &input.links);
        let round = net.and_then(|net| Round::open(net, input.dest, Method::Turns));
        Called(round.unwrap_or_else(|_| panic!("a network")))
    }

    fn hop(&self, node: u32) -> u32 {
        number(self.0.hops()[node as usize])
    }

    // A table of atomic words. Nothing changes while it is read.
    type Reader = Arc<[AtomicU32]>;

    fn reader(&self) -> Self::Reader {
        let hops = self.0.hops().iter();
        hops.map(|&hop| AtomicU32::new(number(hop))).collect()
    }

    fn read(reader: &Self::Reader, node: u32) -> u32 {
        reader[node as usize].load(Ordering::Acquire)
    }

    fn hops(&self, list: &mut Vec<u32>) {
        list.clear();
        list.extend(self.0.hops().iter().map(|&hop| number(hop)));
    }

    fn change(&mut self, change: Change) {
        let edit = match change {
            Change::Cut(u, v) => Edit::Cut { u, v },
            Change::Add(u, v) => Edit::Add { u, v },
        };
        let ended = self.0.edit(edit, Method::Turns);
        ended.unwrap_or_else(|_| panic!("an accepted change"));
    }
}

fn main() -> std::io::Result<()> {
    timing::tell::<Called>(&timing::read()?);
    Ok(())
}
