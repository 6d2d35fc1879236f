//! Machines in a network in memory, which loses, repeats and reorders datagrams.

use super::world::{Handle, World, address, last_address, mac};
use crate::destination::Destination;
use crate::machine::{Machine, Settings};
use crate::neighbour::Neighbour;
use crate::prefix::Prefix;
use std::cell::RefCell;
use std::collections::{BTreeMap, BTreeSet};
use std::net::{IpAddr, Ipv6Addr};
use std::rc::Rc;
use std::time::Duration;

pub const STEP: Duration = Duration::from_millis(5);

pub struct Dice(pub u64);

impl Dice {
    pub fn below(&mut self, limit: u64) -> u64 {
        self.0 = self
            .0
            .wrapping_mul(6364136223846793005)
            .wrapping_add(1442695040888963407);
        (self.0 >> 33) % limit
    }

    pub fn chance(&mut self, percent: u64) -> bool {
        self.below(100) < percent
    }
}

pub struct Datagram {
    pub from: (u32, u32),
    pub to: (u32, u32),
    pub data: Vec<u8>,
}

/// Routers with their processes, and what is on its way between them.
pub struct Lab {
    pub world: Rc<RefCell<World>>,
    pub machines: BTreeMap<u32, Machine<Handle>>,
    pub sessions: BTreeMap<u32, u32>,
    pub announced: BTreeMap<u32, BTreeSet<Prefix>>,
    pub links: Vec<((u32, u32), (u32, u32))>,
    /// Devices of several routers that are on one LAN.
    pub lans: Vec<Vec<(u32, u32)>>,
    /// Devices over which nothing goes out.
    pub cut: BTreeSet<(u32, u32)>,
    /// The same from one device to another one of a LAN.
    pub apart: BTreeSet<((u32, u32), (u32, u32))>,
    pub way: Vec<Datagram>,
    /// Answers to echo requests: the router and the device that they come to, and from which address.
    pub answers: Vec<((u32, u32), Ipv6Addr)>,
    /// Routers whose kernels answer no echo requests.
    pub unasked: BTreeSet<u32>,
    pub now: Duration,
    pub dice: Dice,
    pub lost_percent: u64,
    pub late_percent: u64,
    pub sent: u64,
    pub forget: Duration,
    /// The costs of devices, where they are not 1.
    pub costs: BTreeMap<(u32, u32), u32>,
    /// The routers that run with the number of another one.
    pub doubles: BTreeMap<u32, u32>,
    /// Whether a storm starts routers with the number of another one.
    pub has_doubles: bool,
    pub neglects: fn(&mut Settings),
}

pub fn settings(router: u32, announce: BTreeSet<Prefix>, forget: Duration) -> Settings {
    Settings {
        router,
        hello: Duration::from_secs(1),
        dead: Duration::from_secs(4),
        forget,
        ceiling: 64,
        table: 254,
        keys: Vec::new(),
        announce,
        costs: BTreeMap::new(),
        lans: BTreeSet::new(),
    }
}

pub fn prefix(text: &str) -> Prefix {
    text.parse().unwrap()
}

impl Lab {
    pub fn new(links: &[(u32, u32)], seed: u64) -> Lab {
        Lab::with_lans(links, &[], seed)
    }

    pub fn with_lans(links: &[(u32, u32)], lans: &[&[u32]], seed: u64) -> Lab {
        let mut counts: BTreeMap<u32, u32> = BTreeMap::new();
        let mut device = |router: u32| {
            let count = counts.entry(router).or_default();
            *count += 1;
            (router, *count)
        };
        let links: Vec<_> = links
            .iter()
            .map(|(u, v)| (device(*u), device(*v)))
            .collect();
        let lans: Vec<Vec<(u32, u32)>> = lans
            .iter()
            .map(|all| all.iter().map(|it| device(*it)).collect())
            .collect();
        let pairs = links.iter().map(|(u, v)| vec![*u, *v]);
        let all: Vec<Vec<(u32, u32)>> = pairs.chain(lans.iter().cloned()).collect();
        let routers: BTreeSet<u32> = counts.keys().copied().collect();
        let world = World::new(&routers, &all, seed);
        Lab {
            world: Rc::new(RefCell::new(world)),
            machines: BTreeMap::new(),
            sessions: BTreeMap::new(),
            announced: routers
                .iter()
                .map(|it| (*it, BTreeSet::from([own(*it)])))
                .collect(),
            links,
            lans,
            cut: BTreeSet::new(),
            apart: BTreeSet::new(),
            way: Vec::new(),
            answers: Vec::new(),
            unasked: BTreeSet::new(),
            now: Duration::from_secs(1),
            dice: Dice(seed),
            lost_percent: 0,
            late_percent: 0,
            sent: 0,
            forget: seconds(30),
            costs: BTreeMap::new(),
            doubles: BTreeMap::new(),
            has_doubles: false,
            neglects: |_| (),
        }
    }

    pub fn routers(&self) -> Vec<u32> {
        self.announced.keys().copied().collect()
    }

    pub fn start(&mut self, router: u32) {
        let session = *self
            .sessions
            .entry(router)
            .and_modify(|it| *it += 1)
            .or_insert(1);
        self.start_as(router, session);
    }

    pub fn start_as(&mut self, router: u32, session: u32) {
        self.machines.remove(&router);
        let kernel = Handle {
            world: self.world.clone(),
            router,
        };
        let told = format!(
            "{router} starts in session {session}, as {:?}",
            self.doubles.get(&router)
        );
        self.world.borrow_mut().lines.push(told);
        let percent = std::mem::take(&mut self.world.borrow_mut().refused_percent);
        let mut set = self.settings(router);
        (self.neglects)(&mut set);
        set.router = self.doubles.get(&router).copied().unwrap_or(set.router);
        let mut machine = Machine::new(set, session, kernel, self.now).expect("nothing is refused");
        self.world.borrow_mut().refused_percent = percent;
        self.world
            .borrow_mut()
            .own
            .insert(router, self.announced[&router].clone());
        for (at, device) in self.devices(router) {
            let has_carrier = !self.world.borrow().tables[&at]
                .without_carrier
                .contains(&device);
            let (name, mac) = (format!("eth{device}"), Some(mac(at, device)));
            machine.device_is(device, &name, mac, has_carrier, self.now);
        }
        self.machines.insert(router, machine);
    }

    pub fn settings(&self, router: u32) -> Settings {
        let lans = self.lans.iter().flatten().filter(|it| it.0 == router);
        let costs = self.costs.iter().filter(|(it, _)| it.0 == router);
        Settings {
            lans: lans.map(|it| format!("eth{}", it.1)).collect(),
            costs: costs
                .map(|(it, cost)| (format!("eth{}", it.1), *cost))
                .collect(),
            ..settings(router, self.announced[&router].clone(), self.forget)
        }
    }

    pub fn devices(&self, router: u32) -> Vec<(u32, u32)> {
        let links = self.links.iter().flat_map(|(u, v)| [*u, *v]);
        links
            .chain(self.lans.iter().flatten().copied())
            .filter(|it| it.0 == router)
            .collect()
    }

    pub fn start_all(&mut self) {
        for it in self.routers() {
            self.start(it);
        }
    }

    /// Time goes on.
    pub fn run(&mut self, time: Duration) {
        let end = self.now + time;
        while self.now < end {
            self.now += STEP;
            for it in std::mem::take(&mut self.way) {
                if self.dice.chance(self.late_percent) {
                    self.way.push(it);
                } else {
                    self.deliver(&it);
                    if self.dice.chance(self.late_percent / 4) {
                        self.way.push(it);
                    }
                }
            }
            for (to, from) in std::mem::take(&mut self.answers) {
                if let Some(machine) = self.machines.get_mut(&to.0) {
                    machine.kernel_answers(to.1, from, self.now);
                }
            }
            if self.late_percent > 0 && self.way.len() > 1 {
                let at = self.dice.below(self.way.len() as u64) as usize;
                self.way.swap(0, at);
            }
            for router in self.routers() {
                self.turn(router);
            }
        }
    }

    pub fn deliver(&mut self, it: &Datagram) {
        if self.cut.contains(&it.from) || self.apart.contains(&(it.from, it.to)) {
            return;
        }
        if let Some(machine) = self.machines.get_mut(&it.to.0) {
            machine.take(it.to.1, address(it.from.0, it.from.1), &it.data, self.now);
        }
    }

    pub fn turn(&mut self, router: u32) {
        let Some(machine) = self.machines.get_mut(&router) else {
            return;
        };
        machine.turn(|| self.now);
        for (device, data) in std::mem::take(&mut machine.outbox) {
            self.sent += 1;
            let ends = self.world.borrow().ends[&(router, device)].clone();
            for to in ends {
                if !self.dice.chance(self.lost_percent) {
                    self.way.push(Datagram {
                        from: (router, device),
                        to,
                        data: data.clone(),
                    });
                }
            }
        }
        let Some(machine) = self.machines.get_mut(&router) else {
            return;
        };
        let (asks, later) = (std::mem::take(&mut machine.asks), machine.later_session);
        for (device, to) in asks {
            self.ask((router, device), to);
        }
        if let Some(later) = later {
            self.sessions.insert(router, later);
            self.start(router);
        }
    }

    /// Sends an echo request to a kernel, whether or not a process runs there.
    fn ask(&mut self, from: (u32, u32), to: Ipv6Addr) {
        let ends = self.world.borrow().ends[&from].clone();
        let Some(end) = ends.into_iter().find(|it| address(it.0, it.1) == to) else {
            return;
        };
        let is_cut = |from, to| self.cut.contains(&from) || self.apart.contains(&(from, to));
        if is_cut(from, end) || is_cut(end, from) || self.unasked.contains(&end.0) {
            return;
        }
        if !self.dice.chance(self.lost_percent) && !self.dice.chance(self.lost_percent) {
            self.answers.push((from, to));
        }
    }

    /// Cuts a link in both directions, or one of them, or all but the datagrams; or joins it again.
    pub fn set_link(&mut self, at: usize, is_up: bool, has_carrier: bool) {
        let (u, v) = self.links[at];
        self.set_ends(&[u, v], is_up, has_carrier);
    }

    pub fn set_ends(&mut self, ends: &[(u32, u32)], is_up: bool, has_carrier: bool) {
        for it in ends.iter().copied() {
            if is_up {
                self.cut.remove(&it);
            } else {
                self.cut.insert(it);
            }
            let mut world = self.world.borrow_mut();
            let tables = world.tables.get_mut(&it.0).unwrap();
            if is_up {
                tables.without_carrier.remove(&it.1);
            } else if !has_carrier {
                tables.lose_carrier(it.1);
            }
            drop(world);
            if let Some(machine) = self.machines.get_mut(&it.0) {
                let (name, mac) = (format!("eth{}", it.1), Some(mac(it.0, it.1)));
                machine.device_is(it.1, &name, mac, is_up || has_carrier, self.now);
            }
        }
    }

    pub fn announce(&mut self, router: u32, prefix: Prefix, is_announced: bool) {
        let all = self.announced.get_mut(&router).unwrap();
        if is_announced {
            all.insert(prefix);
        } else {
            all.remove(&prefix);
        }
        self.world.borrow_mut().own.insert(router, all.clone());
        self.world.borrow_mut().check(Some(prefix));
        self.configure(router);
    }

    /// It costs a router something else to send packets over a device.
    pub fn set_cost(&mut self, router: u32, device: u32, cost: u32) {
        self.costs.insert((router, device), cost);
        self.configure(router);
    }

    /// A router reads its configuration again.
    fn configure(&mut self, router: u32) {
        let mut set = self.settings(router);
        set.router = self.doubles.get(&router).copied().unwrap_or(router);
        if let Some(machine) = self.machines.get_mut(&router) {
            machine.configure(set, self.now);
        }
    }

    /// Two routers on a LAN do not hear each other, or do again.
    pub fn set_apart(&mut self, lan: usize, (u, v): (u32, u32), is_apart: bool) {
        let at = |router: u32| {
            let mut all = self.lans[lan].iter().copied();
            all.find(|it| it.0 == router).unwrap()
        };
        for it in [(at(u), at(v)), (at(v), at(u))] {
            if is_apart {
                self.apart.insert(it);
            } else {
                self.apart.remove(&it);
            }
        }
    }

    /// Where a packet goes that takes the first way of each router: the routers on its path.
    pub fn path(&self, from: u32, to: IpAddr) -> Vec<u32> {
        let (world, mut path) = (self.world.borrow(), vec![from]);
        for _ in 0..20 {
            let Some((next, _)) = world.used(path[path.len() - 1], to).first().copied() else {
                break;
            };
            path.push(next);
        }
        path
    }

    pub fn arrives(&self, from: u32, to: u32) -> bool {
        self.path(from, last_address(&own(to))).last() == Some(&to)
    }

    /// What the machines have of a prefix.
    pub fn known_of(&self, prefix: Prefix) -> String {
        let mut text = String::new();
        for (router, machine) in &self.machines {
            text += &format!("\n{router} in session {}:", machine.start.session);
            for (number, it) in &machine.neighbours {
                text += &told_of_neighbour(*number, it);
            }
            if let Some(it) = machine.destinations.get(&prefix) {
                text += &told_of_destination(it);
            }
            let events: Vec<_> = machine.journal.after(0).collect();
            for it in events.iter().rev().take(6) {
                text += &format!("\n    {}", it.text);
            }
        }
        text
    }

    pub fn expect_all_arrive(&self) {
        for from in self.routers() {
            for to in self.routers() {
                assert!(
                    self.arrives(from, to),
                    "{from} to {to}: {}",
                    self.known_of(own(to))
                );
            }
        }
    }
}

pub fn told_of_neighbour(number: u32, it: &Neighbour) -> String {
    let links = it.links.iter();
    let links: Vec<_> = links
        .map(|(at, it)| (*at, it.is_heard, it.hears_me, it.is_up))
        .collect();
    let news = (it.news.pending(), it.news.is_complete());
    let (session, told) = (it.start.session, it.has_told_all);
    format!("\n    {number}.{session} told {told} news {news:?} {links:?}")
}

pub fn told_of_destination(it: &Destination) -> String {
    let node = (it.is_own, it.node.height(), it.node.distance());
    let state = (it.is_prepared, it.is_written, it.becomes);
    let links = it.links.iter();
    let links: Vec<_> = links
        .map(|it| (it.neighbour, it.is_up, it.session, it.number))
        .collect();
    let table = it.node.table().unwrap();
    let (hops, gates): (Vec<_>, Vec<_>) = (it.hops().collect(), it.open_gates().collect());
    format!(
        "\n    {node:?} {state:?} {:?} {:?}\n    {links:?} hops {hops:?} gates {gates:?}",
        table.ways(),
        table.gates()
    )
}

pub fn own(router: u32) -> Prefix {
    prefix(&format!("10.0.{router}.0/24"))
}

pub fn seconds(count: u64) -> Duration {
    Duration::from_secs(count)
}
