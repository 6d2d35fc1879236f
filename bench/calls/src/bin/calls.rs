//! Times the calls of the crate `revroute`.

#[path = "../timing.rs"]
mod timing;

use revroute::{Hop, Network, Reader};
use timing::{Calls, Change, Input};

struct Called(Network);

fn number(hop: Hop) -> u32 {
    hop.node().unwrap_or(u32::MAX)
}

impl Calls for Called {
    fn open(input: &Input) -> Called {
        Called(Network::new(input.nodes, input.dest, &input.links).expect("a network"))
    }

    fn hop(&self, node: u32) -> u32 {
        number(self.0.next_hop(node))
    }

    type Reader = Reader;

    fn reader(&self) -> Reader {
        self.0.reader().expect("memory")
    }

    fn read(reader: &Reader, node: u32) -> u32 {
        number(reader.next_hop(node))
    }

    fn hops(&self, list: &mut Vec<u32>) {
        list.clear();
        list.extend(self.0.hops().expect("memory").into_iter().map(number));
    }

    fn change(&mut self, change: Change) {
        let report = match change {
            Change::Cut(u, v) => self.0.cut(u, v),
            Change::Add(u, v) => self.0.add(u, v),
        };
        report.expect("an accepted change");
    }
}

fn main() -> std::io::Result<()> {
    timing::tell::<Called>(&timing::read()?);
    Ok(())
}
