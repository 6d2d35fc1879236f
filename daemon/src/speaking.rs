//! What a machine says to its neighbours.

use crate::datagram::{self, Address, Head, Hello, News, Record, Says};
use crate::kernel::Kernel;
use crate::machine::Machine;
use crate::neighbour::Neighbour;
use crate::prefix::Prefix;
use std::time::Duration;

impl<K: Kernel> Machine<K> {
    /// Says hello where it is time, and what is new to all neighbours.
    pub fn speak(&mut self, now: Duration) {
        let devices: Vec<u32> = self
            .devices
            .iter()
            .filter(|(_, it)| it.is_ready && it.has_carrier && it.next_hello <= now)
            .map(|(it, _)| *it)
            .collect();
        for it in devices {
            self.say_hello(it, now);
        }
        let up: Vec<u32> = self
            .neighbours
            .iter()
            .filter(|(_, it)| it.is_up)
            .map(|(it, _)| *it)
            .collect();
        for it in up {
            self.say_news(it, now);
        }
    }

    fn head(&self, number: u64) -> Head {
        Head {
            from: self.settings.router,
            start: self.start,
            number,
            hold: self.settings.dead,
        }
    }

    /// When the next hello is due after one. It is due on all devices at once, so the process wakes up once for them.
    fn next_hello(&self, now: Duration) -> Duration {
        let hello = self.settings.hello;
        let past = now.as_nanos() % hello.as_nanos().max(1);
        now + hello - Duration::from_nanos(past as u64)
    }

    fn say_hello(&mut self, index: u32, now: Duration) {
        let next = self.next_hello(now);
        let Some(device) = self.devices.get_mut(&index) else {
            return;
        };
        device.hello += 1;
        device.next_hello = next;
        let (number, mac) = (device.hello, device.mac);
        let outdated = std::mem::take(&mut device.outdated);
        let is_heard = |it: &Neighbour| it.links.get(&index).is_some_and(|it| it.is_heard);
        let (mut heard, mut known) = (Vec::new(), Vec::new());
        for (number, it) in &self.neighbours {
            if is_heard(it) {
                heard.push(it.start);
            }
            if outdated.contains(number) {
                known.push(it.peer(*number));
            }
        }
        let said = Hello { mac, heard, known };
        let data = datagram::hello(self.head(number), &said, &self.settings.keys);
        self.send(index, data);
    }

    /// Says by a hello on each device that this router hears nobody any more, so that its neighbours use it no longer.
    pub fn say_goodbye(&mut self) {
        for it in self
            .neighbours
            .values_mut()
            .flat_map(|it| it.links.values_mut())
        {
            it.is_heard = false;
        }
        let all: Vec<u32> = self
            .devices
            .iter()
            .filter(|(_, it)| it.is_ready && it.has_carrier)
            .map(|(it, _)| *it)
            .collect();
        for it in all {
            self.say_hello(it, Duration::ZERO);
        }
    }

    fn send(&mut self, device: u32, data: Vec<u8>) {
        self.counts.datagrams_sent += 1;
        self.counts.bytes_sent += data.len() as u64;
        self.outbox.push((device, data));
    }

    /// Says to a neighbour what is new, what was lost, and what has arrived.
    fn say_news(&mut self, number: u32, now: Duration) {
        while self
            .neighbours
            .get(&number)
            .is_some_and(|it| it.news.is_due())
        {
            if !self.say_once(number, now) {
                return;
            }
        }
    }

    /// Says one datagram of news. Returns whether it was sent.
    fn say_once(&mut self, number: u32, now: Duration) -> bool {
        let Some(it) = self.neighbours.get_mut(&number) else {
            return false;
        };
        let up = it.links.iter().filter(|(_, it)| it.is_up);
        let up: Vec<u32> = up.map(|(it, _)| *it).collect();
        if up.is_empty() {
            return false;
        }
        // Each datagram takes the next one of several links, so one that loses all does not hold up the others.
        it.turns = it.turns.wrapping_add(1);
        let device = up[it.turns % up.len()];
        let address = Address {
            to: it.peer(number),
            arrived: it.news.arrived(),
            waited: it.news.waited(now),
            is_complete: it.news.is_complete(),
            wants_answer: false,
        };
        let count = it.news.next_number();
        let mut data = News::new(self.head(count), address, &self.settings.keys);
        let (prefixes, leaves) = self.add_records(number, &mut data);
        let Some(it) = self.neighbours.get_mut(&number) else {
            return false;
        };
        if prefixes.is_empty() && !it.news.is_due() {
            // What was to be said is not written yet, or is no news any more.
            return false;
        }
        let wants_answer = it.news.wants_answer(&prefixes);
        it.news.sent(prefixes, leaves, now);
        let data = data.sealed(wants_answer, &self.settings.keys);
        self.send(device, data);
        true
    }

    /// Adds what is to be said to a neighbour, as long as there is space. Returns the prefixes, and those of them that
    /// this router says it has left.
    fn add_records(&mut self, number: u32, data: &mut News) -> (Vec<Prefix>, Vec<Prefix>) {
        let (mut told, mut leaves) = (Vec::new(), Vec::new());
        let Some(neighbour) = self.neighbours.get_mut(&number) else {
            return (told, leaves);
        };
        while data.has_space() && neighbour.news.can_say_more() {
            let Some(prefix) = neighbour.news.next_prefix() else {
                break;
            };
            let Some(it) = self.destinations.get_mut(&prefix) else {
                neighbour.news.forget(&prefix);
                continue;
            };
            if let Some(all) = &it.leaves {
                if all.contains(&number) {
                    let says = Says::Left;
                    data.push(Record { prefix, says });
                    told.push(prefix);
                    leaves.push(prefix);
                } else {
                    neighbour.news.forget(&prefix);
                }
                continue;
            }
            let message = it.message_to(number);
            if message.is_none() {
                neighbour.news.wait(prefix);
                if !neighbour.news.is_unlisted(&prefix) {
                    continue;
                }
            }
            self.counts.messages_said += u64::from(message.is_some());
            let is_alive = it.node.distance().is_some();
            let said = message.as_ref();
            let says = said.map_or(Says::Name, |it| Says::Message(it, is_alive));
            data.push(Record { prefix, says });
            told.push(prefix);
        }
        (told, leaves)
    }
}
