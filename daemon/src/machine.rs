//! The state of the daemon, without sockets and clocks: events come in, lines for the kernel and datagrams go out.

use crate::datagram::{Key, Mac, Start};
use crate::destination::{Becomes, Destination, Link};
use crate::former::{self, Former};
use crate::journal::Journal;
use crate::kernel::{Kernel, Refusal, Write};
use crate::neighbour::Neighbour;
use crate::news::News;
use crate::prefix::Prefix;
use revroute::{Node, Policy, Rise};
use std::collections::{BTreeMap, BTreeSet};
use std::hash::{BuildHasher, RandomState};
use std::net::Ipv6Addr;
use std::time::Duration;

/// The table in which the system finds what it delivers by itself: the networks of its interfaces.
pub const MAIN: u32 = 254;
/// The table of gates of a device has this number and that of the device together.
pub const GATES: u32 = 0x4d00_0000;
/// Where a device has several neighbours, each has a table of gates. Their numbers are those after this one, which no table
/// of a device has. What the neighbour sends is marked by the number of its table.
pub const SENDERS: u32 = 0xd000_0000;
/// Nexthop objects have the numbers after this one.
pub const HOPS: u32 = 0x4d00_0000;
/// The most prefixes and neighbours that a router takes up. What comes beyond is refused, so no datagram can take all
/// memory.
pub const MOST_PREFIXES: usize = 16_384;
pub const MOST_NEIGHBOURS: usize = 512;
/// The longest time that a router may be silent. Whoever has this router for a neighbour, from before a start, has
/// noticed the silence by the end of HOLD.
pub const LONGEST_DEAD: Duration = Duration::from_secs(30);
pub const HOLD: Duration = Duration::from_secs(60);

/// A random number that differs between the processes of a router, as far as chance can see to that. The number of the router
/// is mixed in: so two routers draw different ones also if their systems are alike and have no randomness yet, as early at a
/// boot.
pub fn drawn(router: u32, keys: &RandomState) -> u64 {
    keys.hash_one(router)
}

/// What a machine is told at its start, and at a reload.
#[derive(Clone)]
pub struct Settings {
    pub router: u32,
    pub hello: Duration,
    pub dead: Duration,
    /// How long a prefix is known that nobody announces.
    pub forget: Duration,
    /// Routes of this cost or more do not count.
    pub ceiling: u32,
    /// The table of the ways.
    pub table: u32,
    pub keys: Vec<Key>,
    pub announce: BTreeSet<Prefix>,
    /// The costs of links by the name of the device, where they are not 1.
    pub costs: BTreeMap<String, u32>,
    /// The devices with several neighbours, by their names.
    pub lans: BTreeSet<String>,
}

/// A device over which there may be neighbours.
pub struct Device {
    pub name: String,
    pub mac: Option<Mac>,
    /// Whether there may be several neighbours. Then the gates of the device stay closed, and each neighbour has its own.
    pub is_lan: bool,
    pub has_carrier: bool,
    /// Whether the kernel drops what comes in and is not let in. Nothing is said over the device before.
    pub is_ready: bool,
    /// Whether all that comes in and is not let in is dropped, as long as the neighbour is not up or its list has not
    /// come.
    pub hold: Hold,
    /// The number of the last hello. The upper half is a random number of the device.
    pub hello: u64,
    pub next_hello: Duration,
    /// How many datagrams had another key or none, or were of another version.
    pub not_understood: u64,
    /// Routers that were heard, but are not those that are known by their numbers. The next hello tells them whom
    /// this router knows instead, so that they start again.
    pub outdated: BTreeSet<u32>,
}

/// A destination that is not written whole: when it is tried again, and how long this has waited.
pub struct Retry {
    pub at: Duration,
    pub wait: Duration,
    /// Whether the kernel refused a write. If not, other writes have to come first.
    pub is_refused: bool,
}

/// Whether a device drops all that comes in and is not let in.
#[derive(Clone, Copy, PartialEq, Eq)]
pub enum Hold {
    Held,
    Open,
    /// A write was refused.
    Unknown,
}

/// The gates for what one of several neighbours sends over a device.
pub struct Sender {
    pub table: u32,
    /// The hardware address for which the map may have an entry that leads to this table.
    pub mac: Option<Mac>,
    /// Whether it has that entry, which was written last.
    pub is_ready: bool,
    pub hold: Hold,
}

pub struct Machine<K> {
    pub settings: Settings,
    pub start: Start,
    pub kernel: K,
    pub journal: Journal,
    pub devices: BTreeMap<u32, Device>,
    /// The neighbours on devices that have several, by the device and the number of the router.
    pub senders: BTreeMap<(u32, u32), Sender>,
    /// Whether the kernel has the map of senders.
    pub has_senders: bool,
    pub neighbours: BTreeMap<u32, Neighbour>,
    pub destinations: BTreeMap<Prefix, Destination>,
    /// The destinations whose tables may have to be written.
    pub changed: BTreeSet<Prefix>,
    /// Those that are not written whole.
    pub retries: BTreeMap<Prefix, Retry>,
    /// Those for which the kernel refused the routes that drop.
    pub unprepared: BTreeSet<Prefix>,
    pub former: Vec<Former>,
    /// The prefixes that nobody is known to announce, and when this router leaves them.
    pub fading: BTreeMap<Prefix, Duration>,
    /// Datagrams to be sent over devices.
    pub outbox: Vec<(u32, Vec<u8>)>,
    /// Echo requests to be sent: the device, and the address of the neighbour.
    pub asks: Vec<(u32, Ipv6Addr)>,
    /// A later session of this router that a neighbour knows. Then the machine has to end.
    pub later_session: Option<u32>,
    pub counts: Counts,
    /// Whether the last turn has done all that was to be done, and nothing but hellos has come since. Then there is nothing to
    /// do before the next time: a hello that changes a link makes the next hello due at once.
    pub is_quiet: bool,
    /// How many nodes this process has started.
    starts: u32,
    last_hop: u32,
    last_sender: u32,
}

/// What has happened how often.
#[derive(Clone, Copy, Default, serde::Serialize, serde::Deserialize)]
pub struct Counts {
    pub datagrams_sent: u64,
    pub bytes_sent: u64,
    pub datagrams_received: u64,
    pub datagrams_ignored: u64,
    /// Those that were not answered in time, so what they said was said again.
    pub datagrams_unanswered: u64,
    pub messages_heard: u64,
    pub messages_said: u64,
    pub lines_written: u64,
    pub lines_refused: u64,
}

impl<K: Kernel> Machine<K> {
    /// A machine that starts. `session` is greater than at all earlier starts. All that an earlier process left is closed
    /// first, and then removed.
    pub fn new(
        settings: Settings,
        session: u32,
        mut kernel: K,
        now: Duration,
    ) -> Result<Machine<K>, Refusal> {
        let former = former::clear(&mut kernel, settings.forget, now)?;
        let mut machine = Machine {
            start: Start {
                session,
                process: drawn(settings.router, &RandomState::new()) as u32,
            },
            kernel,
            journal: Journal::default(),
            devices: BTreeMap::new(),
            senders: BTreeMap::new(),
            has_senders: false,
            neighbours: BTreeMap::new(),
            destinations: BTreeMap::new(),
            changed: BTreeSet::new(),
            retries: BTreeMap::new(),
            unprepared: BTreeSet::new(),
            fading: BTreeMap::new(),
            former,
            outbox: Vec::new(),
            asks: Vec::new(),
            later_session: None,
            counts: Counts::default(),
            is_quiet: false,
            starts: 0,
            last_hop: HOPS,
            last_sender: SENDERS,
            settings,
        };
        for prefix in machine.settings.announce.clone() {
            machine.take_up(prefix, true, now);
        }
        Ok(machine)
    }

    /// Starts the node of a prefix.
    fn node(&mut self, is_own: bool) -> Option<Node> {
        self.starts = self.starts.checked_add(1)?;
        let (me, boot) = (
            self.settings.router,
            u64::from(self.start.session) << 32 | u64::from(self.starts),
        );
        if is_own {
            return Node::gateway(me, boot).ok();
        }
        let policy = Policy {
            rise: Rise::Top(self.settings.ceiling),
            lower: false,
            wait: true,
        };
        // The router has no route yet.
        Node::new(me, boot, u32::MAX.into(), policy).ok()
    }

    /// Takes up a prefix that is not known. Returns whether there is space for it.
    pub fn take_up(&mut self, prefix: Prefix, is_own: bool, now: Duration) -> bool {
        if self.destinations.len() >= MOST_PREFIXES {
            self.journal.add_rarely(
                format!("more than {MOST_PREFIXES} prefixes: the others are refused"),
                now,
            );
            return false;
        }
        let Some(node) = self.node(is_own) else {
            return false;
        };
        let mut it = Destination::new(node, is_own, now);
        join_all(&mut it, &self.neighbours, &self.costs());
        self.destinations.insert(prefix, it);
        self.changed.insert(prefix);
        true
    }

    /// Starts the node of a destination anew, whose table is empty.
    pub fn start_again(&mut self, prefix: Prefix, becomes: Becomes) {
        let Some(node) = self.node(becomes == Becomes::Own) else {
            return;
        };
        let costs = self.costs();
        if let Some(it) = self.destinations.get_mut(&prefix) {
            it.node = node;
            it.is_own = becomes == Becomes::Own;
            it.becomes = None;
            // The route that drops may have to be in another table.
            it.is_prepared = false;
            it.leaves = None;
            let left: Vec<Link> = it
                .links
                .drain(..)
                .filter(|link| link.has_left && !it.is_own)
                .collect();
            join_all(it, &self.neighbours, &costs);
            for before in left {
                it.set_link(before.neighbour, false);
                if let Some(link) = it.link_to(before.neighbour) {
                    (link.session, link.number, link.has_left) =
                        (before.session, before.number, true);
                }
            }
            self.changed.insert(prefix);
        }
    }

    /// A device is there, with its carrier or without.
    pub fn device_is(
        &mut self,
        index: u32,
        name: &str,
        mac: Option<Mac>,
        has_carrier: bool,
        now: Duration,
    ) {
        self.is_quiet = false;
        let is_lan = self.settings.lans.contains(name);
        let router = self.settings.router;
        let it = self.devices.entry(index).or_insert_with(|| Device {
            name: name.into(),
            mac,
            is_lan,
            has_carrier: false,
            is_ready: false,
            hold: Hold::Unknown,
            hello: drawn(router, &RandomState::new()) << 32,
            next_hello: now,
            not_understood: 0,
            outdated: BTreeSet::new(),
        });
        if it.mac != mac {
            (it.mac, it.next_hello) = (mac, now);
        }
        if it.name != name || it.is_lan != is_lan {
            // The rule has the name of the device.
            self.device_is_gone(index, now);
            return self.device_is(index, name, mac, has_carrier, now);
        }
        if it.has_carrier != has_carrier {
            it.has_carrier = has_carrier;
            it.next_hello = now;
            if !has_carrier {
                self.lose_device(index, "the carrier is lost", now);
            }
        }
    }

    /// A device is gone, or is not to be used any more.
    pub fn device_is_gone(&mut self, index: u32, now: Duration) {
        self.is_quiet = false;
        self.lose_device(index, "the device is not used any more", now);
        if let Some(it) = self.devices.remove(&index) {
            self.close_for_good(index, &it.name, now);
        }
    }

    /// Ends all links over a device. The kernel has deleted their nexthop objects, or they have to be deleted.
    fn lose_device(&mut self, index: u32, why: &str, now: Duration) {
        let numbers: Vec<u32> = self.neighbours.keys().copied().collect();
        for number in numbers {
            self.remove_link(number, index, why, now);
        }
    }

    /// Removes a link to a neighbour, with its nexthop object.
    pub fn remove_link(&mut self, number: u32, device: u32, why: &str, now: Duration) {
        let Some(link) = self
            .neighbours
            .get_mut(&number)
            .and_then(|it| it.links.remove(&device))
        else {
            return;
        };
        self.links_changed(number, why, now);
        self.drop_hop(link.hop);
        self.say_hello_soon(device, now);
    }

    /// Has the kernel delete a nexthop object, and with it all ways over it.
    pub fn drop_hop(&mut self, hop: Option<u32>) {
        let Some(hop) = hop else { return };
        let is_gone = self
            .write(&[Write::RemoveHop { hop }])
            .iter()
            .all(Result::is_ok);
        for (prefix, it) in &mut self.destinations {
            if it.lose_hop(hop, is_gone) {
                self.changed.insert(*prefix);
            }
        }
    }

    pub fn next_hop(&mut self) -> u32 {
        self.last_hop = if self.last_hop == u32::MAX {
            HOPS + 1
        } else {
            self.last_hop + 1
        };
        self.last_hop
    }

    pub fn next_sender(&mut self) -> u32 {
        self.last_sender += 1;
        self.last_sender
    }

    pub fn is_lan(&self, device: u32) -> bool {
        self.devices.get(&device).is_some_and(|it| it.is_lan)
    }

    pub fn say_hello_soon(&mut self, device: u32, now: Duration) {
        if let Some(it) = self.devices.get_mut(&device) {
            it.next_hello = now;
        }
    }

    /// The links to a neighbour have changed: it may come up or go down.
    pub fn links_changed(&mut self, number: u32, why: &str, now: Duration) {
        let Some(it) = self.neighbours.get_mut(&number) else {
            return;
        };
        let is_up = it.links.values().any(|link| link.is_up);
        // ways and gates over one of several links
        self.changed.extend(self.destinations.keys());
        if is_up == it.is_up {
            self.compare_cost(number);
            return;
        }
        (it.is_up, it.since) = (is_up, now);
        it.was_up |= is_up;
        if is_up {
            self.journal.add(format!("router {number} is up"));
            self.compare_cost(number);
            self.join(number);
        } else {
            it.news.recall_all();
            self.journal.add(format!("router {number} is down: {why}"));
            for destination in self.destinations.values_mut() {
                destination.is_written &= !destination.set_link(number, false);
            }
        }
    }

    /// A neighbour has come up: its link is up at each destination.
    fn join(&mut self, number: u32) {
        let cost = self.cost_to(number);
        let Some(neighbour) = self.neighbours.get(&number) else {
            return;
        };
        for it in self
            .destinations
            .values_mut()
            .filter(|it| it.leaves.is_none())
        {
            if !it.know(number, cost) || it.link_to(number).is_some_and(|it| it.has_left) {
                continue;
            }
            let session = it.link_to(number).map_or(0, |it| it.session);
            // What was heard of an earlier session would make a way at once, and its packets would be lost. The neighbour
            // says first what it has now: it knows nothing of an earlier session of its own.
            if session == 0 || session == neighbour.start.session {
                it.is_written &= !it.set_link(number, true);
            }
        }
    }

    /// What it costs to send a packet to a neighbour: as much as over the cheapest of its links that are up, or of all if
    /// none is up.
    pub fn cost_to(&self, number: u32) -> u32 {
        let Some(it) = self.neighbours.get(&number) else {
            return 1;
        };
        let links = it.links.iter().filter(|(_, link)| link.is_up || !it.is_up);
        let costs = links.map(|(device, _)| self.cost_of(*device));
        costs.min().unwrap_or(1)
    }

    /// The cost of each neighbour.
    fn costs(&self) -> BTreeMap<u32, u32> {
        let all = self.neighbours.keys();
        all.map(|number| (*number, self.cost_to(*number))).collect()
    }

    /// The cost of a neighbour may have changed.
    fn compare_cost(&mut self, number: u32) {
        let cost = self.cost_to(number);
        for (prefix, it) in &mut self.destinations {
            if it.set_cost(number, cost) {
                it.is_written = false;
                self.changed.insert(*prefix);
            }
        }
    }

    /// The nodes of all destinations start again. That of an own one does not: it sends to no neighbour.
    fn renew(&mut self) {
        for (prefix, it) in &mut self.destinations {
            if !it.is_own && it.leaves.is_none() && it.becomes.is_none() {
                it.becomes = Some(Becomes::Other);
                self.changed.insert(*prefix);
            }
        }
    }

    /// A neighbour has started again, or is new.
    pub fn begin_session(&mut self, number: u32, start: Start, now: Duration) {
        self.is_quiet = false;
        let devices: Vec<u32> = match self.neighbours.get(&number) {
            Some(it) => it.links.keys().copied().collect(),
            None => Vec::new(),
        };
        for it in devices {
            self.remove_link(number, it, "it has started again", now);
        }
        for it in self.destinations.values_mut() {
            // It knows nothing of what was said to it before.
            it.leaves.as_mut().map(|it| it.remove(&number));
            if let Some(link) = it.link_to(number) {
                link.has_left = false;
            }
        }
        let known = self
            .destinations
            .iter()
            .filter(|(_, it)| it.leaves.is_none());
        let news = News::new(known.map(|(prefix, _)| *prefix));
        self.neighbours
            .insert(number, Neighbour::new(start, news, now));
    }

    pub fn write(&mut self, lines: &[Write]) -> Vec<Result<(), Refusal>> {
        let results = self.kernel.write(lines);
        self.counts.lines_written += lines.len() as u64;
        self.counts.lines_refused += results.iter().filter(|it| it.is_err()).count() as u64;
        results
    }

    /// Takes other settings. Nothing is lost that is in both. The number of the router stays.
    pub fn configure(&mut self, settings: Settings, now: Duration) {
        self.is_quiet = false;
        let before = std::mem::replace(&mut self.settings, settings);
        let (old, new) = (before.announce, self.settings.announce.clone());
        for prefix in new.difference(&old) {
            self.announce(*prefix, Becomes::Own, now);
        }
        for prefix in old.difference(&new) {
            self.announce(*prefix, Becomes::Other, now);
        }
        for it in self.devices.values_mut() {
            it.next_hello = now;
        }
        for number in self.costs().into_keys() {
            self.compare_cost(number);
        }
        if self.settings.ceiling != before.ceiling {
            // A node keeps the ceiling that it starts with.
            self.renew();
        }
        self.changed.extend(self.destinations.keys());
    }

    /// A prefix is announced by this router from now on, or is not any more.
    fn announce(&mut self, prefix: Prefix, becomes: Becomes, now: Duration) {
        match self.destinations.get_mut(&prefix) {
            Some(it) if it.is_own == (becomes == Becomes::Own) && it.leaves.is_none() => {
                it.becomes = None
            }
            Some(it) => it.becomes = Some(becomes),
            None if becomes == Becomes::Own => drop(self.take_up(prefix, true, now)),
            None => (),
        }
        self.changed.insert(prefix);
    }

    /// Does what is to be done now, and writes datagrams to the outbox. Nothing, once a neighbour knows a later session of
    /// this router.
    pub fn turn(&mut self, clock: impl Fn() -> Duration) {
        if self.later_session.is_some() {
            return;
        }
        let now = clock();
        if self.is_quiet && now < self.next_time() {
            return;
        }
        let refused = self.counts.lines_refused;
        self.look_around(now);
        self.settle(now);
        self.release();
        // What is said is as old as it looks only after the writes.
        self.speak(clock());
        // What was refused is tried again at each turn.
        self.is_quiet = refused == self.counts.lines_refused
            && self.retries.is_empty()
            && self.unprepared.is_empty()
            && self.devices.values().all(|it| it.is_ready);
    }

    /// When the next turn is due, even if nothing happens.
    pub fn next_time(&self) -> Duration {
        if !self.changed.is_empty() {
            return Duration::ZERO;
        }
        let hellos = self
            .devices
            .values()
            .filter(|it| it.has_carrier)
            .map(|it| it.next_hello);
        let links = || self.neighbours.values().flat_map(|it| it.links.values());
        let silence = links().filter(|it| it.is_heard).map(|it| it.until);
        let asks = links().filter(|it| it.is_up).map(|it| it.asked.next());
        let news = self
            .neighbours
            .values()
            .filter(|it| it.is_up)
            .filter_map(|it| it.news.next_time());
        let retries = self.retries.values().map(|it| it.at);
        let former = self
            .former
            .iter()
            .map(|it| it.until)
            .chain(self.fading.values().copied());
        let all = hellos
            .chain(silence)
            .chain(asks)
            .chain(news)
            .chain(retries)
            .chain(former);
        all.min().unwrap_or(Duration::MAX)
    }
}

/// Makes all neighbours known at a destination whose node has just started, so nothing of an earlier session is known
/// there.
fn join_all(
    it: &mut Destination,
    neighbours: &BTreeMap<u32, Neighbour>,
    costs: &BTreeMap<u32, u32>,
) {
    for (number, neighbour) in neighbours {
        let cost = costs.get(number).copied().unwrap_or(1);
        if it.know(*number, cost) && neighbour.is_up {
            it.set_link(*number, true);
        }
    }
    it.is_written = false;
}
