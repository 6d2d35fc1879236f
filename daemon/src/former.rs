//! What is left of devices that are not used any more, and of an earlier process.

use crate::kernel::{Kernel, Refusal, Write};
use crate::machine::{GATES, HOLD, Machine, SENDERS};
use crate::writing::{LONGEST, all_done, both};
use std::collections::{BTreeMap, BTreeSet};
use std::time::Duration;

/// What is removed later: of a device that this process does not use any more, or of an earlier process.
pub struct Former {
    pub until: Duration,
    /// The table of gates of the device. If this process uses it again before, nothing is removed.
    pub gates: Option<u32>,
    pub lines: Vec<Write>,
}

/// Removes what an earlier process left: first the gates, then the ways, and then the rest. Two things stay for some time.
/// What comes in by a device that it had is dropped until the router at the other end has noticed that this one was started
/// again. Only after that the rules of the device go. And the routes that drop stay for `forget`, or for `HOLD` if that is
/// longer. So a default route takes no packets to prefixes that this process will know again soon: if the routers at both
/// ends of a link start at once, neither knows them, and the default routes of the two may lead to each other.
pub fn clear(
    kernel: &mut impl Kernel,
    forget: Duration,
    now: Duration,
) -> Result<Vec<Former>, Refusal> {
    let left = kernel.left_behind()?;
    let tables: BTreeSet<u32> = left.iter().filter_map(gates_of_rule).collect();
    let (mut holds, mut rest) = (Vec::new(), Vec::new());
    let mut former: BTreeMap<u32, Vec<Write>> = BTreeMap::new();
    for table in tables {
        holds.extend(both(|is_ipv6| Write::Hold { table, is_ipv6 }));
        let releases = both(|is_ipv6| Write::Release { table, is_ipv6 });
        // What a sender sends comes to the table of its device, once it is not marked any more.
        if table > SENDERS {
            rest.extend(releases);
        } else {
            former.insert(table, releases.collect());
        }
    }
    let is_last = |line: &Write| matches!(line, Write::RemoveLast { .. });
    let (lasts, left) = left.into_iter().partition(is_last);
    let [closes, ways, senders, rest] = sorted(left, rest, &mut former);
    for lines in [holds, closes, ways, senders, rest] {
        all_done(kernel.write(&lines))?;
    }
    let lasts = Former {
        until: now + forget.max(HOLD),
        gates: None,
        lines: lasts,
    };
    let devices = former.into_iter().map(|(table, lines)| Former {
        until: now + HOLD,
        gates: Some(table),
        lines,
    });
    Ok(devices.chain([lasts]).collect())
}

/// What removes gates, ways, the map of senders, and the rest. What removes the tables of devices comes later, so it joins those
/// in `former`.
fn sorted(
    left: Vec<Write>,
    mut rest: Vec<Write>,
    former: &mut BTreeMap<u32, Vec<Write>>,
) -> [Vec<Write>; 4] {
    let (mut closes, mut ways, mut senders) = (Vec::new(), Vec::new(), Vec::new());
    for line in left {
        match &line {
            Write::Close { .. } => closes.push(line),
            Write::RemoveWay { .. } => ways.push(line),
            Write::RemoveSenders => senders.push(line),
            Write::RemoveRule { table, .. } if *table > SENDERS => rest.insert(0, line),
            Write::RemoveSkip { .. } => rest.insert(0, line),
            Write::RemoveRule { table, .. } => former.entry(*table).or_default().insert(0, line),
            Write::Release { table, .. } if former.contains_key(table) => (),
            _ => rest.push(line),
        }
    }
    [closes, ways, senders, rest]
}

fn gates_of_rule(line: &Write) -> Option<u32> {
    match line {
        Write::RemoveRule { table, .. } => Some(*table),
        _ => None,
    }
}

impl<K: Kernel> Machine<K> {
    /// A device is not used any more. What comes in by it is dropped until its neighbours have noticed that.
    pub fn close_for_good(&mut self, index: u32, name: &str, now: Duration) {
        let some = self.senders.keys().filter(|it| it.0 == index);
        for one in some.copied().collect::<Vec<(u32, u32)>>() {
            let Some(it) = self.senders.remove(&one) else {
                continue;
            };
            let table = it.table;
            let entry = it.mac.map(|mac| Write::RemoveSender { device: index, mac });
            let mut lines: Vec<Write> = entry.into_iter().collect();
            lines.extend(both(|is_ipv6| Write::RemoveSkip {
                table,
                device: name.into(),
                is_ipv6,
            }));
            self.close_table(table, name, lines, now);
        }
        self.close_table(GATES + index, name, Vec::new(), now);
        // No neighbour is there any more, so all gates of the table are closed next.
        self.changed.extend(self.destinations.keys());
    }

    /// Has a table of gates drop all, and removes it later, after these lines.
    fn close_table(&mut self, table: u32, name: &str, mut lines: Vec<Write>, now: Duration) {
        lines.extend(both(|is_ipv6| Write::RemoveRule {
            table,
            device: name.into(),
            is_ipv6,
        }));
        lines.extend(both(|is_ipv6| Write::Release { table, is_ipv6 }));
        lines.extend(self.destinations.keys().map(|prefix| Write::RemoveShut {
            table,
            prefix: *prefix,
        }));
        let holds: Vec<Write> = both(|is_ipv6| Write::Hold { table, is_ipv6 }).collect();
        self.write(&holds);
        self.former.push(Former {
            until: now + HOLD,
            gates: Some(table),
            lines,
        });
    }

    /// Removes what is due: the rules and tables of devices that are not used any more, and the routes that drop of an
    /// earlier process, except those that this one has by now.
    pub fn forget_former(&mut self, now: Duration) {
        let (over, rest) = std::mem::take(&mut self.former)
            .into_iter()
            .partition(|it: &Former| it.until <= now);
        self.former = rest;
        for mut it in over as Vec<Former> {
            it.lines.retain(|line| !self.has_last(line));
            if self.write(&it.lines).iter().any(Result::is_err) {
                it.until = now + LONGEST;
                self.former.push(it);
            } else if it.gates.is_none() && !it.lines.is_empty() {
                let count = it.lines.len();
                self.journal.add(format!(
                    "{count} prefixes that only the process before knew are dropped no more"
                ));
            }
        }
    }

    /// Whether a line would remove the route that drops of a destination.
    fn has_last(&self, line: &Write) -> bool {
        let Write::RemoveLast { table, prefix } = line else {
            return false;
        };
        let known = self.destinations.get(prefix);
        known.is_some_and(|it| self.table_of_last(it.is_own) == *table)
    }
}
