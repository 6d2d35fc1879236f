//! Kernels in memory, and the search for loops in their tables.

use super::lab::Dice;
use crate::datagram::Mac;
use crate::kernel::{Kernel, Refusal, Write};
use crate::machine::GATES;
use crate::prefix::Prefix;
use std::cell::RefCell;
use std::collections::{BTreeMap, BTreeSet};
use std::net::{IpAddr, Ipv6Addr};
use std::rc::Rc;

/// What one kernel has.
#[derive(Default)]
pub struct Tables {
    pub last: BTreeSet<Prefix>,
    pub shut: BTreeSet<(u32, Prefix)>,
    pub open: BTreeSet<(u32, Prefix)>,
    pub hold: BTreeSet<(u32, bool)>,
    pub rules: BTreeSet<(u32, String, bool)>,
    pub skips: BTreeSet<(u32, String, bool)>,
    pub end: BTreeSet<bool>,
    /// The tables of gates of senders, by the device and the hardware address.
    pub senders: Option<BTreeMap<(u32, Mac), u32>>,
    pub hops: BTreeMap<u32, (u32, Ipv6Addr)>,
    pub ways: BTreeMap<(Prefix, u32), u32>,
    pub without_carrier: BTreeSet<u32>,
}

/// The kernels of all routers, and the links between devices.
pub struct World {
    pub tables: BTreeMap<u32, Tables>,
    /// The prefixes that each router delivers.
    pub own: BTreeMap<u32, BTreeSet<Prefix>>,
    /// The default route of each router, which somebody else has made: the device.
    pub defaults: BTreeMap<u32, u32>,
    /// The other ends of each device: a router and its device. A device of a LAN has several.
    pub ends: BTreeMap<(u32, u32), Vec<(u32, u32)>>,
    pub dice: Dice,
    pub refused_percent: u64,
    pub checks: u64,
    /// The last lines that were written, for a reader of a failure.
    pub lines: Vec<String>,
}

pub fn address(router: u32, device: u32) -> Ipv6Addr {
    Ipv6Addr::new(0xfe80, 0, 0, 0, 0, 0, router as u16 + 1, device as u16)
}

pub fn mac(router: u32, device: u32) -> Mac {
    [2, 0, 0, router as u8, 0, device as u8]
}

pub fn contains(prefix: &Prefix, address: IpAddr) -> bool {
    let all = if address.is_ipv4() { 32 } else { 128 };
    let one = Prefix::new(address, all).unwrap();
    *prefix == one || prefix.has_within(&one)
}

pub fn last_address(prefix: &Prefix) -> IpAddr {
    match prefix.address() {
        IpAddr::V4(it) => {
            let rest = u32::MAX.checked_shr(prefix.length().into()).unwrap_or(0);
            (u32::from(it) | rest).to_be_bytes().into()
        }
        IpAddr::V6(it) => {
            let rest = u128::MAX.checked_shr(prefix.length().into()).unwrap_or(0);
            (u128::from(it) | rest).to_be_bytes().into()
        }
    }
}

pub fn longest<'a>(all: impl Iterator<Item = &'a Prefix>, address: IpAddr) -> Option<Prefix> {
    all.filter(|it| contains(it, address))
        .max_by_key(|it| it.length())
        .copied()
}

pub fn there(is_new: bool) -> Result<(), i32> {
    if is_new { Ok(()) } else { Err(libc::EEXIST) }
}

pub fn gone(is_old: bool) -> Result<(), i32> {
    if is_old { Ok(()) } else { Err(libc::ESRCH) }
}

impl Tables {
    pub fn apply(&mut self, line: &Write) -> Result<(), i32> {
        match *line {
            Write::AddLast { prefix, .. } => {
                self.last.insert(prefix);
                Ok(())
            }
            Write::RemoveLast { prefix, .. } => gone(self.last.remove(&prefix)),
            Write::Shut { table, prefix } => there(self.shut.insert((table, prefix))),
            Write::RemoveShut { table, prefix } => gone(self.shut.remove(&(table, prefix))),
            Write::Open { table, prefix } => there(self.open.insert((table, prefix))),
            Write::Close { table, prefix } => gone(self.open.remove(&(table, prefix))),
            Write::Hold { table, is_ipv6 } => there(self.hold.insert((table, is_ipv6))),
            Write::Release { table, is_ipv6 } => gone(self.hold.remove(&(table, is_ipv6))),
            Write::AddHop { .. }
            | Write::RemoveHop { .. }
            | Write::AddWay { .. }
            | Write::RemoveWay { .. } => self.apply_way(line),
            _ if line.is_of_senders() => self.apply_sender(line),
            _ => self.apply_rule(line),
        }
    }

    pub fn apply_rule(&mut self, line: &Write) -> Result<(), i32> {
        match line.clone() {
            Write::AddRule {
                table,
                device,
                is_ipv6,
            } => there(self.rules.insert((table, device, is_ipv6))),
            Write::RemoveRule {
                table,
                device,
                is_ipv6,
            } => gone(self.rules.remove(&(table, device, is_ipv6))),
            Write::AddSkip {
                table,
                device,
                is_ipv6,
            } => there(self.skips.insert((table, device, is_ipv6))),
            Write::RemoveSkip {
                table,
                device,
                is_ipv6,
            } => gone(self.skips.remove(&(table, device, is_ipv6))),
            Write::AddEnd { is_ipv6 } => there(self.end.insert(is_ipv6)),
            Write::RemoveEnd { is_ipv6 } => gone(self.end.remove(&is_ipv6)),
            _ => Err(libc::EOPNOTSUPP),
        }
    }

    pub fn apply_sender(&mut self, line: &Write) -> Result<(), i32> {
        match *line {
            Write::AddSenders => {
                self.senders = Some(BTreeMap::new());
                Ok(())
            }
            Write::RemoveSenders => gone(self.senders.take().is_some()),
            Write::AddSender { table, device, mac } => match &mut self.senders {
                Some(it) => there(it.insert((device, mac), table).is_none()),
                None => Err(libc::ENOENT),
            },
            Write::RemoveSender { device, mac } => {
                let it = self.senders.as_mut();
                gone(it.is_some_and(|it| it.remove(&(device, mac)).is_some()))
            }
            _ => Err(libc::EOPNOTSUPP),
        }
    }

    pub fn apply_way(&mut self, line: &Write) -> Result<(), i32> {
        match *line {
            Write::AddHop { device, .. } if self.without_carrier.contains(&device) => {
                Err(libc::ENETDOWN)
            }
            Write::AddHop {
                hop,
                device,
                address,
            } => there(self.hops.insert(hop, (device, address)).is_none()),
            Write::RemoveHop { hop } => {
                self.ways.retain(|_, it| *it != hop);
                gone(self.hops.remove(&hop).is_some())
            }
            Write::AddWay { hop, .. } if !self.hops.contains_key(&hop) => Err(libc::EINVAL),
            Write::AddWay {
                prefix,
                place,
                hop,
                replaces,
                ..
            } => {
                if !replaces && self.ways.contains_key(&(prefix, place)) {
                    return Err(libc::EEXIST);
                }
                self.ways.insert((prefix, place), hop);
                Ok(())
            }
            Write::RemoveWay { prefix, place, .. } => {
                gone(self.ways.remove(&(prefix, place)).is_some())
            }
            _ => Err(libc::EOPNOTSUPP),
        }
    }

    /// The lines that remove all routes and nexthop objects.
    pub fn routes_left(&self) -> Vec<Write> {
        let table = 254;
        let last = self.last.iter().copied();
        let shut = self.shut.iter().copied();
        let open = self.open.iter().copied();
        let hold = self.hold.iter().copied();
        let ways = self.ways.keys().copied();
        last.map(|prefix| Write::RemoveLast { table, prefix })
            .chain(shut.map(|(table, prefix)| Write::RemoveShut { table, prefix }))
            .chain(self.hops.keys().map(|hop| Write::RemoveHop { hop: *hop }))
            .chain(ways.map(|(prefix, place)| Write::RemoveWay {
                table,
                prefix,
                place,
            }))
            .chain(open.map(|(table, prefix)| Write::Close { table, prefix }))
            .chain(hold.map(|(table, is_ipv6)| Write::Release { table, is_ipv6 }))
            .collect()
    }

    pub fn lose_carrier(&mut self, device: u32) {
        self.without_carrier.insert(device);
        let hops: Vec<u32> = self
            .hops
            .iter()
            .filter(|(_, it)| it.0 == device)
            .map(|(it, _)| *it)
            .collect();
        for hop in hops {
            self.hops.remove(&hop);
            self.ways.retain(|_, it| *it != hop);
        }
    }

    /// Whether a packet to an address is let in, that comes in by a device from a hardware address.
    pub fn lets_in(&self, device: u32, from: Mac, to: IpAddr) -> bool {
        let mark = self.senders.as_ref().and_then(|it| it.get(&(device, from)));
        if let Some(mark) = mark {
            let rule = (*mark, format!("eth{device}"), to.is_ipv6());
            if self.rules.contains(&rule) && !self.table_lets_in(*mark, to) {
                return false;
            }
            if self.skips.contains(&rule) && self.end.contains(&to.is_ipv6()) {
                return true;
            }
        }
        let table = GATES + device;
        let is_rule = |it: &&(u32, String, bool)| it.0 == table && it.2 == to.is_ipv6();
        !self.rules.iter().any(|it| is_rule(&it)) || self.table_lets_in(table, to)
    }

    pub fn table_lets_in(&self, table: u32, to: IpAddr) -> bool {
        let here = |all: &BTreeSet<(u32, Prefix)>| {
            longest(all.iter().filter(|it| it.0 == table).map(|it| &it.1), to)
        };
        match here(&self.shut).max(here(&self.open)) {
            Some(it) => self.open.contains(&(table, it)),
            None => !self.hold.contains(&(table, to.is_ipv6())),
        }
    }
}

impl World {
    /// Kernels without tables, and links or LANs by the devices that are on each.
    pub fn new(routers: &BTreeSet<u32>, links: &[Vec<(u32, u32)>], seed: u64) -> World {
        let mut ends: BTreeMap<_, Vec<_>> = BTreeMap::new();
        for all in links {
            for it in all {
                let others = all.iter().filter(|other| *other != it);
                ends.entry(*it).or_default().extend(others.copied());
            }
        }
        World {
            tables: routers.iter().map(|it| (*it, Tables::default())).collect(),
            own: routers.iter().map(|it| (*it, BTreeSet::new())).collect(),
            defaults: BTreeMap::new(),
            ends,
            dice: Dice(seed ^ 0x9e37),
            refused_percent: 0,
            checks: 0,
            lines: Vec::new(),
        }
    }

    /// The first and the last address of each prefix.
    pub fn addresses(&self) -> BTreeSet<IpAddr> {
        let all = self.tables.values().flat_map(|it| &it.last);
        all.flat_map(|it| [it.address(), last_address(it)])
            .collect()
    }

    /// The routers to which packets are sent and let in, each with whether that is by a way of the daemon.
    pub fn used(&self, router: u32, to: IpAddr) -> Vec<(u32, bool)> {
        let it = &self.tables[&router];
        let own = &self.own[&router];
        let devices: Vec<(u32, Option<Ipv6Addr>)> = match longest(it.last.iter().chain(own), to) {
            Some(prefix) if own.contains(&prefix) => Vec::new(),
            Some(prefix) => {
                let ways = it.ways.iter().filter(|((at, _), _)| *at == prefix);
                ways.map(|(_, hop)| (it.hops[hop].0, Some(it.hops[hop].1)))
                    .collect()
            }
            None => self
                .defaults
                .get(&router)
                .map(|device| (*device, None))
                .into_iter()
                .collect(),
        };
        let mut used = Vec::new();
        for (device, gateway) in devices {
            let ends = self.ends.get(&(router, device)).into_iter().flatten();
            let is_one = |it: &&(u32, u32)| gateway.is_none_or(|to| to == address(it.0, it.1));
            used.extend(
                ends.copied()
                    .find(|it| is_one(&it))
                    .map(|it| (it, device, gateway)),
            );
        }
        used.into_iter()
            .filter(|((other, at), by, _)| self.tables[other].lets_in(*at, mac(router, *by), to))
            .map(|((other, _), _, gateway)| (other, gateway.is_some()))
            .collect()
    }

    /// No loop has a way of the daemon in it. A loop of default routes alone is not the daemon's.
    pub fn check(&mut self, changed: Option<Prefix>) {
        self.checks += 1;
        for to in self.addresses() {
            if changed.is_some_and(|it| !contains(&it, to)) {
                continue;
            }
            let used: BTreeMap<u32, Vec<(u32, bool)>> = self
                .tables
                .keys()
                .map(|it| (*it, self.used(*it, to)))
                .collect();
            for (router, links) in &used {
                for (next, _) in links.iter().filter(|it| it.1) {
                    let mut seen = BTreeSet::new();
                    let mut open = vec![*next];
                    while let Some(at) = open.pop() {
                        assert_ne!(
                            at,
                            *router,
                            "a loop to {to}: {used:?}\n{}",
                            self.lines.join("\n")
                        );
                        if seen.insert(at) {
                            open.extend(used[&at].iter().map(|it| it.0));
                        }
                    }
                }
            }
        }
    }
}

pub fn prefix_of(line: &Write) -> Option<Prefix> {
    match line {
        Write::AddLast { prefix, .. }
        | Write::RemoveLast { prefix, .. }
        | Write::Shut { prefix, .. }
        | Write::RemoveShut { prefix, .. }
        | Write::Open { prefix, .. }
        | Write::Close { prefix, .. }
        | Write::AddWay { prefix, .. }
        | Write::RemoveWay { prefix, .. } => Some(*prefix),
        _ => None,
    }
}

#[derive(Clone)]
pub struct Handle {
    pub world: Rc<RefCell<World>>,
    pub router: u32,
}

impl Kernel for Handle {
    fn write(&mut self, lines: &[Write]) -> Vec<Result<(), Refusal>> {
        let mut results = Vec::new();
        for line in lines {
            let mut world = self.world.borrow_mut();
            let percent = world.refused_percent;
            let is_refused = world.dice.chance(percent);
            let told = if is_refused { "refused" } else { "" };
            world.lines.push(format!("{} {line:?} {told}", self.router));
            if world.lines.len() > 4000 {
                world.lines.drain(..2000);
            }
            if is_refused {
                results.push(Err(Refusal(libc::ENOMEM)));
                continue;
            }
            let tables = world.tables.get_mut(&self.router).unwrap();
            results.push(match tables.apply(line) {
                Err(error) if !line.is_done_by(error) => Err(Refusal(error)),
                _ => Ok(()),
            });
            world.check(prefix_of(line));
        }
        results
    }

    fn left_behind(&mut self) -> Result<Vec<Write>, Refusal> {
        let world = self.world.borrow();
        let it = &world.tables[&self.router];
        let mut left = it.routes_left();
        left.extend(it.senders.iter().map(|_| Write::RemoveSenders));
        let ends = it.end.iter();
        left.extend(ends.map(|is_ipv6| Write::RemoveEnd { is_ipv6: *is_ipv6 }));
        let skips = it.skips.iter().cloned();
        left.extend(skips.map(|(table, device, is_ipv6)| Write::RemoveSkip {
            table,
            device,
            is_ipv6,
        }));
        let rules = it.rules.iter().cloned();
        left.extend(rules.map(|(table, device, is_ipv6)| Write::RemoveRule {
            table,
            device,
            is_ipv6,
        }));
        Ok(left)
    }
}
