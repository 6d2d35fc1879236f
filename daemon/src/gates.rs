//! The gates of devices and of senders: what is let in, and what is dropped until a neighbour has named all that it knows.

use crate::datagram::Mac;
use crate::kernel::{Kernel, Refusal, Write};
use crate::machine::{GATES, Hold, Machine, Sender};
use crate::writing::{LONGEST, all_done, both};
use std::collections::BTreeSet;
use std::time::Duration;

impl<K: Kernel> Machine<K> {
    /// Has the kernel drop all that comes in by a device and is not let in.
    pub fn prepare_device(&mut self, index: u32, now: Duration) {
        let Some(name) = self
            .devices
            .get(&index)
            .filter(|it| it.next_hello <= now)
            .map(|it| it.name.clone())
        else {
            return;
        };
        let table = GATES + index;
        let mut lines = self.closed_gates(table);
        lines.extend(both(|is_ipv6| Write::AddRule {
            table,
            device: name.clone(),
            is_ipv6,
        }));
        let refused = self.write(&lines).into_iter().find_map(Result::err);
        if let Some(why) = refused {
            self.journal.add_rarely(
                format!("the kernel refuses the gates of {name}: {why}"),
                now,
            );
        }
        if let Some(it) = self.devices.get_mut(&index) {
            it.is_ready = refused.is_none();
            it.hold = if it.is_ready {
                Hold::Held
            } else {
                Hold::Unknown
            };
            it.next_hello = if it.is_ready { now } else { now + LONGEST };
        }
        self.former.retain(|it| it.gates != Some(table));
    }

    /// The lines that make a table of gates in which all is closed.
    fn closed_gates(&self, table: u32) -> Vec<Write> {
        let mut lines: Vec<Write> = both(|is_ipv6| Write::Hold { table, is_ipv6 }).collect();
        let known = self.destinations.iter().filter(|(_, it)| it.is_prepared);
        lines.extend(known.map(|(prefix, _)| Write::Shut {
            table,
            prefix: *prefix,
        }));
        lines
    }

    /// All tables of gates, also those that the kernel may not have.
    pub fn all_gates(&self) -> Vec<u32> {
        let devices = self.devices.keys().map(|it| GATES + it);
        devices
            .chain(self.senders.values().map(|it| it.table))
            .collect()
    }

    /// Makes gates for what a neighbour sends over a device that has several, unless they are there. Returns whether they are.
    pub fn prepare_sender(
        &mut self,
        device: u32,
        router: u32,
        mac: Option<Mac>,
        now: Duration,
    ) -> bool {
        let Some(mac) = mac else { return false };
        let one = (device, router);
        if self
            .senders
            .get(&one)
            .is_some_and(|it| it.is_ready && it.mac == Some(mac))
        {
            return true;
        }
        let written = self.write_sender(one, mac);
        if let Err(why) = written {
            let name = self.name_of(device);
            let text = format!("the kernel refuses the gates of {name} for router {router}: {why}");
            self.journal.add_rarely(text, now);
        }
        written.is_ok()
    }

    /// Writes the gates of a sender, closed, and then has the kernel mark what it sends.
    fn write_sender(&mut self, one: (u32, u32), mac: Mac) -> Result<(), Refusal> {
        if !self.has_senders {
            all_done(self.write(&[Write::AddSenders]))?;
            self.has_senders = true;
        }
        let known = self.senders.get(&one).map(|it| it.table);
        let table = known.unwrap_or_else(|| self.next_sender());
        self.remove_entries(one, table, mac)?;
        let mut lines = self.closed_gates(table);
        lines.extend(sender_rules(table, self.name_of(one.0)));
        all_done(self.write(&lines))?;
        if let Some(it) = self.senders.get_mut(&one) {
            (it.mac, it.hold) = (Some(mac), Hold::Held);
        }
        let device = one.0;
        all_done(self.write(&[Write::AddSender { table, device, mac }]))?;
        if let Some(it) = self.senders.get_mut(&one) {
            it.is_ready = true;
        }
        Ok(())
    }

    /// Removes the entry of the map for a hardware address, and the one that a sender has.
    fn remove_entries(&mut self, one: (u32, u32), table: u32, mac: Mac) -> Result<(), Refusal> {
        let device = one.0;
        let it = self.senders.entry(one).or_insert(Sender {
            table,
            mac: None,
            is_ready: false,
            hold: Hold::Unknown,
        });
        it.is_ready = false;
        // An entry may be there that was not acknowledged, or that of a router which was known by another number.
        for mac in BTreeSet::from_iter(it.mac.into_iter().chain([mac])) {
            all_done(self.write(&[Write::RemoveSender { device, mac }]))?;
            let others = self.senders.iter_mut().filter(|(at, _)| at.0 == device);
            for (_, it) in others.filter(|(_, it)| it.mac == Some(mac)) {
                (it.mac, it.is_ready) = (None, false);
            }
        }
        Ok(())
    }

    /// The links that are up, each as its device and its neighbour, to neighbours that have named all prefixes that they know.
    fn links_told(&self) -> BTreeSet<(u32, u32)> {
        let told = self.neighbours.iter().filter(|(_, it)| it.has_told_all);
        told.flat_map(|(router, it)| {
            let up = it.links.iter().filter(|(_, link)| link.is_up);
            up.map(|(device, _)| (*device, *router))
        })
        .collect()
    }

    /// All tables of gates that are in use: how each holds, and whether its neighbour has told all. That of a device with
    /// several neighbours holds always.
    pub fn holds(&self) -> Vec<(u32, Hold, bool)> {
        let told = self.links_told();
        let is_told = |device: u32| {
            told.range((device, 0)..=(device, u32::MAX))
                .next()
                .is_some()
        };
        let devices = self.devices.iter().filter(|(_, it)| it.is_ready);
        let of_devices = devices.map(|(index, it)| {
            let is_told = !it.is_lan && is_told(*index);
            (GATES + index, it.hold, is_told)
        });
        let senders = self.senders.iter();
        let of_senders = senders.map(|(one, it)| (it.table, it.hold, told.contains(one)));
        of_devices.chain(of_senders).collect()
    }

    fn set_hold(&mut self, table: u32, hold: Hold) {
        if let Some(it) = self.senders.values_mut().find(|it| it.table == table) {
            it.hold = hold;
        } else if let Some(it) = self.devices.get_mut(&table.wrapping_sub(GATES)) {
            it.hold = hold;
        }
    }

    /// Drops all that comes in from a neighbour that is not up. It may still send to prefixes that this router forgets
    /// meanwhile. There is no end by time: a router may stand still for as long as it likes.
    pub fn hold(&mut self) {
        for (table, hold, is_told) in self.holds() {
            if hold == Hold::Held || is_told {
                continue;
            }
            let lines: Vec<Write> = both(|is_ipv6| Write::Hold { table, is_ipv6 }).collect();
            let is_done = all_done(self.write(&lines)).is_ok();
            self.set_hold(table, if is_done { Hold::Held } else { Hold::Unknown });
        }
    }

    /// Whether all that has to be dropped is dropped.
    pub fn is_held(&self) -> bool {
        let is_well = |(_, hold, is_told): &(u32, Hold, bool)| *hold == Hold::Held || *is_told;
        self.holds().iter().all(is_well)
    }

    /// Lets in what is not routed by this daemon from a neighbour whose list has come.
    pub fn release(&mut self) {
        if !self.unprepared.is_empty() {
            // Packets for these would take a default route.
            return;
        }
        for (table, hold, is_told) in self.holds() {
            if hold == Hold::Open || !is_told {
                continue;
            }
            let lines: Vec<Write> = both(|is_ipv6| Write::Release { table, is_ipv6 }).collect();
            let is_done = all_done(self.write(&lines)).is_ok();
            self.set_hold(table, if is_done { Hold::Open } else { Hold::Unknown });
        }
    }

    /// The table of gates for what a neighbour sends over a device.
    pub fn gates_of(&self, device: u32, router: u32) -> Option<u32> {
        if !self.is_lan(device) {
            return Some(GATES + device);
        }
        let it = self.senders.get(&(device, router));
        it.filter(|it| it.is_ready).map(|it| it.table)
    }
}

/// The rules by which what a sender sends comes to its table, and goes past the rule of its device.
fn sender_rules(table: u32, name: &str) -> Vec<Write> {
    let ends = both(|is_ipv6| Write::AddEnd { is_ipv6 });
    let skips = both(|is_ipv6| Write::AddSkip {
        table,
        device: name.into(),
        is_ipv6,
    });
    let rules = both(|is_ipv6| Write::AddRule {
        table,
        device: name.into(),
        is_ipv6,
    });
    ends.chain(skips).chain(rules).collect()
}
