//! What a machine does with a datagram.

use crate::asking::Step;
use crate::datagram::{self, Address, Body, Head, Hello, Mac, Peer, Record, Says, Start};
use crate::destination::Becomes;
use crate::kernel::{Kernel, Write};
use crate::machine::{HOLD, MOST_NEIGHBOURS, Machine};
use crate::neighbour::Adjacency;
use crate::prefix::Prefix;
use revroute::HearFault;
use std::net::Ipv6Addr;
use std::time::Duration;

/// The shortest hold time that is believed. A shorter one would make a link flap.
const SHORTEST_HOLD: Duration = Duration::from_millis(100);

/// A record could not be taken, so its datagram must not be acknowledged.
struct NotTaken;

impl<K: Kernel> Machine<K> {
    /// Takes a datagram that came in over a device from a link-local address, with a hop limit of 255.
    pub fn take(&mut self, device: u32, source: Ipv6Addr, data: &[u8], now: Duration) {
        self.counts.datagrams_received += 1;
        if !self.is_taken(device, source, data, now) {
            self.counts.datagrams_ignored += 1;
        }
    }

    fn is_taken(&mut self, device: u32, source: Ipv6Addr, data: &[u8], now: Duration) -> bool {
        if !self
            .devices
            .get(&device)
            .is_some_and(|it| it.is_ready && it.has_carrier)
        {
            return false;
        }
        if datagram::receiver(data).is_some_and(|it| it != self.settings.router) {
            return false;
        }
        let Some((head, body)) = datagram::read(data, &self.settings.keys) else {
            if let Some(it) = self.devices.get_mut(&device) {
                it.not_understood += 1;
            }
            return false;
        };
        if head.from == self.settings.router {
            let number = head.from;
            self.journal.add_rarely(
                format!(
                    "another router with the number {number}: {source} on {}",
                    self.name_of(device)
                ),
                now,
            );
            return false;
        }
        if !self.has_session(device, source, head, now) {
            return false;
        }
        match body {
            Body::Hello(said) => self.take_hello(device, source, head, &said, now),
            Body::News(address, records) => {
                self.is_quiet = false;
                self.take_news(device, source, head, (address, &records), now)
            }
        }
    }

    pub fn name_of(&self, device: u32) -> &str {
        self.devices.get(&device).map_or("?", |it| &it.name)
    }

    /// The cost of a link.
    pub fn cost_of(&self, device: u32) -> u32 {
        self.settings
            .costs
            .get(self.name_of(device))
            .copied()
            .unwrap_or(1)
    }

    /// Whether a datagram is from the present session of its sender, which may have begun with it. Only a sender that
    /// knows a key comes so far.
    fn has_session(&mut self, device: u32, source: Ipv6Addr, head: Head, now: Duration) -> bool {
        let known = self.neighbours.get(&head.from).map(|it| it.start);
        match known {
            Some(it) if it == head.start => true,
            // To mix what two processes say of one number and one session would make loops.
            Some(it) if head.start.session <= it.session => {
                if let Some(it) = self.devices.get_mut(&device) {
                    it.outdated.insert(head.from);
                }
                let text = self.double(device, source, head.from);
                self.journal.add_rarely(text, now);
                false
            }
            None if self.neighbours.len() >= MOST_NEIGHBOURS => {
                self.journal.add_rarely(
                    format!("more than {MOST_NEIGHBOURS} neighbours: the others are refused"),
                    now,
                );
                false
            }
            _ => {
                self.begin_session(head.from, head.start, now);
                true
            }
        }
    }

    fn double(&self, device: u32, source: Ipv6Addr, number: u32) -> String {
        format!(
            "router {number} is not the one that is known: {source} on {}. Either it has been started with an earlier boot \
             number, or two routers have this number",
            self.name_of(device)
        )
    }

    fn take_hello(
        &mut self,
        device: u32,
        source: Ipv6Addr,
        head: Head,
        said: &Hello,
        now: Duration,
    ) -> bool {
        if !self.is_new_hello(head, device)
            || !self.is_place(head.from, device, (source, said.mac), now)
        {
            return false;
        }
        self.look_for_another(&said.known);
        let (hears_me, mac) = (said.heard.contains(&self.start), said.mac);
        if self.is_lan(device) && self.link(head.from, device).and_then(|it| it.mac) != mac {
            self.take_down_link(head.from, device, "it has another hardware address", now);
        }
        if let Some(it) = self.neighbours.get_mut(&head.from) {
            it.hellos.note(head.number, device);
            if let Some(link) = it.links.get_mut(&device) {
                link.mac = mac;
            }
        }
        self.hear_from(head, device, hears_me, now);
        true
    }

    /// Whether a hello has not been heard before, on whatever device. All hellos from one device of a neighbour belong to
    /// the device over which they come, as long as the neighbour is heard there.
    fn is_new_hello(&self, head: Head, device: u32) -> bool {
        let Some(it) = self.neighbours.get(&head.from) else {
            return false;
        };
        it.hellos.is_new(head.number)
            && it.hellos.device(head.number).is_none_or(|other| {
                other == device || !it.links.get(&other).is_some_and(|it| it.is_heard)
            })
    }

    /// Looks whether a neighbour knows another process by the number of this router: one of a later session, or one of
    /// this session, so that the boot number has not grown.
    fn look_for_another(&mut self, known: &[Peer]) {
        let (router, me) = (self.settings.router, self.start);
        let is_later =
            |it: &Start| it.session > me.session || it.session == me.session && *it != me;
        let known = known.iter().find(|it| it.router == router);
        if let Some(it) = known.map(|it| it.start).filter(is_later) {
            self.later_session = Some(it.session);
        }
    }

    /// This process, as its neighbours name it.
    fn me(&self) -> Peer {
        let (router, start) = (self.settings.router, self.start);
        Peer { router, start }
    }

    fn link(&self, number: u32, device: u32) -> Option<&Adjacency> {
        self.neighbours.get(&number)?.links.get(&device)
    }

    /// Makes a link to a neighbour, unless it is there. `false` if another one has its place.
    fn is_place(
        &mut self,
        number: u32,
        device: u32,
        at: (Ipv6Addr, Option<Mac>),
        now: Duration,
    ) -> bool {
        if !self.is_alone(number, device, at, now) {
            return false;
        }
        if self
            .link(number, device)
            .is_some_and(|it| it.address != at.0)
        {
            self.remove_link(number, device, "it has another address", now);
        }
        let Some(it) = self.neighbours.get_mut(&number) else {
            return false;
        };
        it.links
            .entry(device)
            .or_insert_with(|| Adjacency::new(at.0));
        true
    }

    /// Whether no other neighbour is on a device, or on one for several none that is at the same addresses: it may be the
    /// same router, which is known by another number. One that was there gives up its place after a long silence.
    fn is_alone(
        &mut self,
        number: u32,
        device: u32,
        (source, mac): (Ipv6Addr, Option<Mac>),
        now: Duration,
    ) -> bool {
        let is_lan = self.is_lan(device);
        let is_same = |it: &Adjacency| it.address == source || it.mac.is_some() && it.mac == mac;
        let is_rival = |it: &Adjacency| !is_lan || is_same(it);
        // One that was silent for a long time has noticed that it is not heard.
        let is_there = |it: &Adjacency| now < it.until + HOLD;
        let rivals: Vec<(u32, bool)> = self
            .neighbours
            .iter()
            .filter(|(it, _)| **it != number)
            .filter_map(|(other, it)| Some((*other, it.links.get(&device)?)))
            .filter(|(_, it)| is_rival(it))
            .map(|(other, it)| (other, is_there(it)))
            .collect();
        let name = self.name_of(device);
        if let Some((other, _)) = rivals.iter().find(|it| it.1) {
            let text = if is_lan {
                format!(
                    "router {number} is refused on {name}, where router {other} has the same address"
                )
            } else {
                format!(
                    "router {number} is refused on {name}, where router {other} was heard: without `lan = true`, an interface has one neighbour"
                )
            };
            self.journal.add_rarely(text, now);
            return false;
        }
        for (other, _) in rivals {
            self.remove_link(other, device, "another router has its place", now);
        }
        true
    }

    /// Something was heard from a neighbour that says whether it hears this router.
    fn hear_from(&mut self, head: Head, device: u32, hears_me: bool, now: Duration) {
        let Some(it) = self
            .neighbours
            .get_mut(&head.from)
            .and_then(|it| it.links.get_mut(&device))
        else {
            return;
        };
        let is_new = !it.is_heard;
        it.is_heard = true;
        it.until = now + head.hold.max(SHORTEST_HOLD);
        it.hears_me = hears_me;
        it.asked.rest(self.settings.hello, now);
        if is_new {
            // The next hello lists the neighbour, so it has to come at once.
            self.say_hello_soon(device, now);
        }
        let why = if hears_me {
            ""
        } else {
            "it does not hear this router, as when it ends"
        };
        self.judge_link(head.from, device, why, now);
    }

    /// Takes a link up or down, as what is heard on it says.
    pub fn judge_link(&mut self, number: u32, device: u32, why: &str, now: Duration) {
        let Some(link) = self.link(number, device) else {
            return;
        };
        match (link.is_two_way(), link.is_up) {
            (true, false) => self.take_up_link(number, device, now),
            (false, true) => self.take_down_link(number, device, why, now),
            _ => (),
        }
    }

    /// Takes a link up, if the kernel takes its nexthop object. Otherwise the next hello tries again.
    fn take_up_link(&mut self, number: u32, device: u32, now: Duration) {
        let Some((address, mac)) = self.link(number, device).map(|it| (it.address, it.mac)) else {
            return;
        };
        if self.is_lan(device) && !self.prepare_sender(device, number, mac, now) {
            return;
        }
        let hop = self.next_hop();
        if let Some(Err(why)) = self
            .write(&[Write::AddHop {
                hop,
                device,
                address,
            }])
            .first()
        {
            let name = self.name_of(device);
            self.journal.add_rarely(
                format!("the nexthop {address} on {name} is refused: {why}"),
                now,
            );
            return;
        }
        if let Some(it) = self
            .neighbours
            .get_mut(&number)
            .and_then(|it| it.links.get_mut(&device))
        {
            (it.is_up, it.hop) = (true, Some(hop));
            it.asked.begin(now);
        }
        self.say_hello_soon(device, now);
        self.links_changed(number, "", now);
    }

    fn take_down_link(&mut self, number: u32, device: u32, why: &str, now: Duration) {
        let Some(it) = self
            .neighbours
            .get_mut(&number)
            .and_then(|it| it.links.get_mut(&device))
        else {
            return;
        };
        it.is_up = false;
        let hop = it.hop.take();
        // So the kernel turns to the next way of each prefix by one write.
        self.drop_hop(hop);
        self.say_hello_soon(device, now);
        self.links_changed(number, why, now);
    }

    /// Notices that neighbours are silent, and asks the kernels of those whose hellos are late.
    pub fn notice_silence(&mut self, now: Duration) {
        let mut silent = Vec::new();
        for (number, it) in &mut self.neighbours {
            let patience = it.news.usual_patience();
            for (device, link) in &mut it.links {
                let step = link.is_up.then(|| link.asked.step(patience, now));
                let step = step.flatten();
                if step == Some(Step::Ask) {
                    self.asks.push((*device, link.address));
                }
                let why = if step == Some(Step::GiveUp) {
                    "its kernel does not answer"
                } else if link.is_heard && link.until <= now {
                    "nothing is heard from it"
                } else {
                    continue;
                };
                link.is_heard = false;
                silent.push((*number, *device, why));
            }
        }
        for (number, device, why) in silent {
            self.judge_link(number, device, why, now);
        }
    }

    /// The kernel of the neighbour with this link-local address has answered an echo request over a device.
    pub fn kernel_answers(&mut self, device: u32, source: Ipv6Addr, now: Duration) {
        let hello = self.settings.hello;
        let links = self.neighbours.values_mut();
        let links = links.filter_map(|it| it.links.get_mut(&device));
        for link in links.filter(|it| it.address == source) {
            link.asked.answered(hello, now);
        }
    }

    fn take_news(
        &mut self,
        device: u32,
        source: Ipv6Addr,
        head: Head,
        (address, records): (Address, &[Record<'_>]),
        now: Duration,
    ) -> bool {
        let is_here = |it: &Adjacency| it.address == source;
        if address.to != self.me() || !self.link(head.from, device).is_some_and(is_here) {
            return false;
        }
        let Some(it) = self.neighbours.get(&head.from) else {
            return false;
        };
        if !it.news.is_new(head.number) {
            return false;
        }
        // It has this session of this router, so its sender hears this router.
        self.hear_from(head, device, true, now);
        let Some(it) = self.neighbours.get_mut(&head.from).filter(|it| it.is_up) else {
            return false;
        };
        it.news.acknowledge(address.arrived, address.waited, now);
        let left = it.news.arrived_leaves();
        self.has_heard_leaves(head.from, left);
        // One that is not taken keeps none of the others from being taken. The datagram is not acknowledged then.
        let mut are_taken = true;
        for record in records {
            are_taken &= self.take_record(head, record, now).is_ok();
        }
        if !are_taken {
            return false;
        }
        if let Some(it) = self.neighbours.get_mut(&head.from) {
            it.news.heard(head.number, address.wants_answer, now);
            if address.is_complete && !it.has_told_all {
                it.has_told_all = true;
                self.changed.extend(self.destinations.keys());
            }
        }
        true
    }

    /// A neighbour has acknowledged that this router leaves some prefixes.
    fn has_heard_leaves(&mut self, number: u32, some: Vec<Prefix>) {
        for prefix in some {
            let it = self.destinations.get_mut(&prefix);
            if let Some(all) = it.and_then(|it| it.leaves.as_mut()) {
                all.remove(&number);
                self.changed.insert(prefix);
            }
        }
    }

    fn take_record(
        &mut self,
        head: Head,
        record: &Record<'_>,
        now: Duration,
    ) -> Result<(), NotTaken> {
        let prefix = record.prefix;
        if record.says == Says::Left {
            return self.take_leave(head, prefix);
        }
        if !self.destinations.contains_key(&prefix) && !self.take_up(prefix, false, now) {
            return Err(NotTaken);
        }
        let Says::Message(message, is_alive) = record.says else {
            return Ok(());
        };
        let Some(it) = self.destinations.get_mut(&prefix) else {
            return Err(NotTaken);
        };
        if it.leaves.is_some() {
            if !is_alive {
                // So that routers that leave a prefix do not teach it each other again.
                return Ok(());
            }
            self.start_again(prefix, Becomes::Other);
        }
        self.hear(prefix, head, message, now)
    }

    /// The node of a prefix hears a message.
    fn hear(
        &mut self,
        prefix: Prefix,
        head: Head,
        message: &[u8],
        now: Duration,
    ) -> Result<(), NotTaken> {
        let cost = self.cost_to(head.from);
        let Some(it) = self
            .destinations
            .get_mut(&prefix)
            .filter(|it| it.leaves.is_none())
        else {
            return Err(NotTaken);
        };
        if !it.know(head.from, cost) {
            return Err(NotTaken);
        }
        let Some(link) = it.link_to(head.from) else {
            return Err(NotTaken);
        };
        if (link.session, link.number) > (head.start.session, head.number) {
            // A datagram was overtaken. An older message with the same announcement would bring an older distance back.
            return Ok(());
        }
        match it.node.hear(message) {
            Ok(()) => self.heard(prefix, head),
            Err(HearFault::LaterStart) => {
                self.later_session = Some(self.later_session.unwrap_or(self.start.session));
                Err(NotTaken)
            }
            Err(_) => {
                let why = "says what this version does not understand";
                let text = format!("router {} {why}", head.from);
                self.journal.add_rarely(text, now);
                Err(NotTaken)
            }
        }
    }

    /// A neighbour has left a prefix, and will forget it. This is acknowledged only once the kernel has no way over it,
    /// and the node knows nothing that would make one.
    fn take_leave(&mut self, head: Head, prefix: Prefix) -> Result<(), NotTaken> {
        let cost = self.cost_to(head.from);
        let Some(it) = self
            .destinations
            .get_mut(&prefix)
            .filter(|it| it.leaves.is_none())
        else {
            return Ok(());
        };
        if !it.know(head.from, cost) {
            return Err(NotTaken);
        }
        let (is_own, is_busy) = (it.is_own, it.becomes.is_some());
        let Some(link) = it.link_to(head.from) else {
            return Err(NotTaken);
        };
        if (link.session, link.number) > (head.start.session, head.number) {
            return Ok(());
        }
        // The node of an own prefix sends to nobody.
        let has_to_forget = !is_own && !link.has_left && link.session > 0;
        (link.session, link.number, link.has_left) = (head.start.session, head.number, true);
        it.is_written &= !it.set_link(head.from, false);
        if has_to_forget && !is_busy {
            it.becomes = Some(Becomes::Other);
        }
        self.changed.insert(prefix);
        if has_to_forget || is_busy {
            Err(NotTaken)
        } else {
            Ok(())
        }
    }

    /// A message was heard. The link is up for the node now, also if it was heard in an earlier session.
    fn heard(&mut self, prefix: Prefix, head: Head) -> Result<(), NotTaken> {
        self.counts.messages_heard += 1;
        let is_up = self.neighbours.get(&head.from).is_some_and(|it| it.is_up);
        if let Some(it) = self.destinations.get_mut(&prefix) {
            if let Some(link) = it.link_to(head.from) {
                (link.session, link.number, link.has_left) =
                    (head.start.session, head.number, false);
            }
            it.set_link(head.from, is_up);
            it.is_written = false;
        }
        self.changed.insert(prefix);
        Ok(())
    }
}
