//! How a router leaves a prefix that nobody announces any more, and forgets it.

use crate::destination::{Becomes, Destination};
use crate::kernel::{Kernel, Refusal, Write};
use crate::machine::Machine;
use crate::prefix::Prefix;
use crate::writing::{LATER, all_done};
use std::collections::{BTreeMap, BTreeSet};
use std::time::Duration;

impl<K: Kernel> Machine<K> {
    /// Begins to leave the prefixes that nobody has announced for a long time.
    pub fn leave(&mut self, now: Duration) {
        let due: Vec<Prefix> = self
            .fading
            .iter()
            .filter(|(_, at)| **at <= now)
            .map(|(it, _)| *it)
            .collect();
        for prefix in due {
            self.fading.remove(&prefix);
            if let Some(it) = self.destinations.get_mut(&prefix) {
                if !it.is_own && it.becomes != Some(Becomes::Own) && it.leaves.is_none() {
                    it.becomes = Some(Becomes::Left);
                    self.changed.insert(prefix);
                }
            }
        }
    }

    /// The table of a destination that is left is empty. Says so to all neighbours to which it was named.
    pub fn left(&mut self, prefix: Prefix) {
        let told = self.neighbours.iter().filter(|(_, it)| it.was_up);
        let all: BTreeSet<u32> = told.map(|(number, _)| *number).collect();
        if let Some(it) = self.destinations.get_mut(&prefix) {
            it.becomes = None;
            it.leaves = Some(all);
            it.is_written = false;
            self.changed.insert(prefix);
        }
        for it in self.neighbours.values_mut() {
            it.news.want(prefix);
        }
    }

    /// Forgets the prefixes that are left, once no neighbour may have a way for them over this router. From then on their
    /// packets are those of a greater prefix.
    pub fn forget_left(
        &mut self,
        some: &BTreeSet<Prefix>,
        refused: &mut BTreeMap<Prefix, Refusal>,
    ) {
        let is_over = |it: &Destination| {
            it.becomes.is_none() && it.leaves.as_ref().is_some_and(BTreeSet::is_empty)
        };
        let over: Vec<Prefix> = some
            .iter()
            .filter(|it| self.destinations.get(it).is_some_and(is_over))
            .copied()
            .collect();
        // A gate that should be closed may be open, and would let in what is for a prefix within its own.
        let leaves = |it: &Prefix| {
            self.destinations
                .get(it)
                .is_some_and(|it| it.leaves.is_some())
        };
        let is_done = |it: &Prefix| some.contains(it) || leaves(it);
        let is_calm = self.is_held() && refused.is_empty() && self.retries.keys().all(is_done);
        for prefix in over {
            let result = if is_calm {
                self.forget(prefix)
            } else {
                Err(LATER)
            };
            if let Err(why) = result {
                refused.insert(prefix, why);
            }
        }
    }

    /// Forgets a prefix, once the kernel has removed the routes that drop.
    fn forget(&mut self, prefix: Prefix) -> Result<(), Refusal> {
        let mut lines: Vec<Write> = self
            .all_gates()
            .into_iter()
            .map(|table| Write::RemoveShut { table, prefix })
            .collect();
        lines.push(Write::RemoveLast {
            table: self.settings.table,
            prefix,
        });
        all_done(self.write(&lines))?;
        self.destinations.remove(&prefix);
        self.fading.remove(&prefix);
        self.unprepared.remove(&prefix);
        for it in self.neighbours.values_mut() {
            it.news.forget(&prefix);
        }
        self.journal
            .add(format!("{prefix} is forgotten: nobody announces it"));
        Ok(())
    }

    /// A prefix is announced again, so neighbours that have left it have to learn of it.
    pub fn tell_those_who_left(&mut self, prefix: Prefix) {
        let Some(it) = self.destinations.get_mut(&prefix) else {
            return;
        };
        let some: Vec<u32> = it
            .links
            .iter()
            .filter(|it| it.has_left)
            .map(|it| it.neighbour)
            .collect();
        for number in some {
            let Some(neighbour) = self.neighbours.get_mut(&number) else {
                continue;
            };
            if let Some(link) = it.link_to(number) {
                link.has_left = false;
            }
            it.is_written &= !it.set_link(number, neighbour.is_up);
            neighbour.news.want(prefix);
            self.changed.insert(prefix);
        }
    }
}
