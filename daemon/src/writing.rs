//! What a machine writes to the kernel, and in which order.

use crate::destination::{Becomes, Plan, WayWrite};
use crate::kernel::{Batch, Kernel, Refusal, Write};
use crate::machine::{MAIN, Machine, Retry};
use crate::prefix::Prefix;
use revroute::NodeTable;
use std::collections::{BTreeMap, BTreeSet};
use std::time::Duration;

/// What the kernel refused is tried again after this time, which doubles up to LONGEST.
const SHORTEST: Duration = Duration::from_millis(50);
pub const LONGEST: Duration = Duration::from_secs(5);
/// What has to wait, though the kernel has not refused it.
pub const LATER: Refusal = Refusal(libc::EAGAIN);

/// The destinations whose tables are being written, each with what is wanted.
type Plans = BTreeMap<Prefix, Plan>;

/// The nexthop objects of each neighbour, with what they cost, and its tables of gates.
#[derive(Default)]
struct Means {
    hops: BTreeMap<u32, Vec<(u32, u32)>>,
    gates: BTreeMap<u32, Vec<u32>>,
}

impl Means {
    /// What the kernel is to have of what a node handed out. No gate is open unless `is_whole`.
    fn plan(&self, table: NodeTable, is_whole: bool) -> Plan {
        let Means { hops, gates } = self;
        let ways = table.ways().iter().filter_map(|it| hops.get(it)).flatten();
        let ways = ways.map(|it| it.1).collect();
        let let_in = table.gates().iter().filter(|_| is_whole);
        let open = let_in
            .filter_map(|it| gates.get(it))
            .flatten()
            .copied()
            .collect();
        Plan {
            table: Some(table),
            hops: ways,
            gates: open,
        }
    }
}

impl<K: Kernel> Machine<K> {
    /// Prepares devices, and notices what time brings.
    pub fn look_around(&mut self, now: Duration) {
        self.notice_silence(now);
        let waiting: Vec<u32> = self
            .devices
            .iter()
            .filter(|(_, it)| !it.is_ready)
            .map(|(it, _)| *it)
            .collect();
        for index in waiting {
            self.prepare_device(index, now);
        }
        for it in self.neighbours.values_mut().filter(|it| it.is_up) {
            self.counts.datagrams_unanswered += it.news.expire(now);
        }
        self.forget_former(now);
        self.leave(now);
    }

    /// Writes the tables of the destinations that have changed: closes gates, changes ways, and then opens gates.
    pub fn settle(&mut self, now: Duration) {
        let due = self
            .retries
            .iter()
            .filter(|(_, it)| it.at <= now)
            .map(|(it, _)| *it);
        self.changed.extend(due.collect::<Vec<Prefix>>());
        self.hold();
        self.prepare(now);
        if self.changed.is_empty() {
            return;
        }
        let some = std::mem::take(&mut self.changed);
        let mut refused = BTreeMap::new();
        let mut plans = self.plans(&some, &mut refused);
        self.close_gates(&mut plans, &mut refused);
        self.change_ways(&mut plans, &mut refused, now);
        self.open_gates(&plans, &mut refused);
        for (prefix, plan) in plans {
            self.confirm(prefix, plan, now);
        }
        self.forget_left(&some, &mut refused);
        for prefix in some.into_iter().filter(|it| !refused.contains_key(it)) {
            self.retries.remove(&prefix);
        }
        for (prefix, why) in refused {
            self.try_again(prefix, why, now);
        }
    }

    /// A destination that is not written whole is tried again later.
    pub fn try_again(&mut self, prefix: Prefix, why: Refusal, now: Duration) {
        let wait = self
            .retries
            .get(&prefix)
            .map_or(SHORTEST, |it| (it.wait * 2).min(LONGEST));
        let is_refused = why != LATER;
        let at = now + wait;
        self.retries.insert(
            prefix,
            Retry {
                at,
                wait,
                is_refused,
            },
        );
        if !is_refused {
            return;
        }
        self.journal.add_rarely(
            format!("the kernel refuses a write for {prefix}: {why}"),
            now,
        );
    }

    /// Has the kernel drop what has no way, for all destinations that are new.
    fn prepare(&mut self, now: Duration) {
        let is_new = |it: &&Prefix| self.destinations.get(it).is_some_and(|it| !it.is_prepared);
        let some: Vec<Prefix> = self.changed.iter().filter(is_new).copied().collect();
        let gates: Vec<u32> = self.holds().into_iter().map(|it| it.0).collect();
        let mut batch = Batch::new();
        for prefix in &some {
            self.add_drops(*prefix, &gates, &mut batch);
        }
        let mut refused = BTreeMap::new();
        for (prefix, result) in self.done(batch) {
            if let Err(why) = result {
                refused.insert(prefix, why);
            }
        }
        for prefix in some {
            if let Some(it) = self.destinations.get_mut(&prefix) {
                it.is_prepared = !refused.contains_key(&prefix);
            }
            if let Some(why) = refused.get(&prefix) {
                self.changed.remove(&prefix);
                self.unprepared.insert(prefix);
                self.try_again(prefix, *why, now);
            } else if self.unprepared.remove(&prefix) {
                // greater prefixes may open their gates
                self.changed.extend(self.destinations.keys());
            }
        }
    }

    /// Adds the lines that have the kernel drop what has no way to a prefix, or comes in by a closed gate of some tables.
    fn add_drops(&self, prefix: Prefix, gates: &[u32], batch: &mut Batch<Prefix>) {
        let is_own = self.destinations.get(&prefix).is_some_and(|it| it.is_own);
        let table = self.table_of_last(is_own);
        batch.push(prefix, Write::AddLast { table, prefix });
        // In the table of the ways it would come before the network of an interface, if a rule looks up in that table first.
        let other = self.table_of_last(!is_own);
        if other != table {
            batch.push(
                prefix,
                Write::RemoveLast {
                    table: other,
                    prefix,
                },
            );
        }
        for table in gates.iter().copied() {
            batch.push(prefix, Write::Shut { table, prefix });
        }
    }

    /// The table with the route that drops of a prefix. One that is announced here has it in the main table.
    pub fn table_of_last(&self, is_own: bool) -> u32 {
        if is_own { MAIN } else { self.settings.table }
    }

    /// Writes a batch, and counts its lines.
    fn done<T>(&mut self, batch: Batch<T>) -> Vec<(T, Result<(), Refusal>)> {
        let results = batch.written(&mut self.kernel);
        self.counts.lines_written += results.len() as u64;
        self.counts.lines_refused += results.iter().filter(|it| it.1.is_err()).count() as u64;
        results
    }

    /// What is wanted of each of some destinations that are prepared.
    fn plans(&mut self, some: &BTreeSet<Prefix>, refused: &mut BTreeMap<Prefix, Refusal>) -> Plans {
        let means = self.means();
        let mut plans = Plans::new();
        for prefix in some {
            let Some(it) = self
                .destinations
                .get_mut(prefix)
                .filter(|it| it.is_prepared)
            else {
                continue;
            };
            if it.becomes.is_some() {
                plans.insert(*prefix, Plan::default());
                continue;
            }
            if it.leaves.is_some() {
                continue;
            }
            it.act();
            // What is for a prefix within this one would be let in as for this one.
            let is_whole = !self.unprepared.iter().any(|it| prefix.has_within(it));
            match it.node.table() {
                Ok(table) => drop(plans.insert(*prefix, means.plan(table, is_whole))),
                Err(_) => drop(refused.insert(*prefix, Refusal(libc::ENOMEM))),
            }
        }
        plans
    }

    /// What there is to reach each neighbour that is up, and to let it in.
    fn means(&self) -> Means {
        let mut means = Means::default();
        for (number, it) in self.neighbours.iter().filter(|(_, it)| it.is_up) {
            let up = it.links.iter().filter(|(_, link)| link.is_up);
            let mut all: Vec<_> = up
                .clone()
                .filter_map(|(device, link)| Some((self.cost_of(*device), link.hop?)))
                .collect();
            all.sort_unstable();
            means.hops.insert(*number, all);
            if it.has_told_all {
                let tables = up.filter_map(|(device, _)| self.gates_of(*device, *number));
                means.gates.insert(*number, tables.collect());
            }
        }
        means
    }

    /// Closes gates. A destination with a gate that stays open is written no further.
    fn close_gates(&mut self, plans: &mut Plans, refused: &mut BTreeMap<Prefix, Refusal>) {
        let mut batch: Batch<(Prefix, u32)> = Batch::new();
        for (prefix, plan) in plans.iter() {
            if let Some(it) = self.destinations.get_mut(prefix) {
                it.close_gates(*prefix, &plan.gates, &mut batch);
            }
        }
        for ((prefix, table), result) in self.done(batch) {
            if let Some(it) = self.destinations.get_mut(&prefix) {
                it.closed(table, result);
            }
            give_up(plans, refused, prefix, result);
        }
    }

    fn change_ways(
        &mut self,
        plans: &mut Plans,
        refused: &mut BTreeMap<Prefix, Refusal>,
        now: Duration,
    ) {
        let mut batch: Batch<(Prefix, WayWrite)> = Batch::new();
        for (prefix, plan) in plans.iter() {
            if let Some(it) = self.destinations.get_mut(prefix) {
                if it.change_ways(*prefix, self.settings.table, &plan.hops, &mut batch) {
                    it.since = now;
                }
            }
        }
        for ((prefix, what), result) in self.done(batch) {
            if let Some(it) = self.destinations.get_mut(&prefix) {
                it.changed_way(what, result);
            }
            give_up(plans, refused, prefix, result);
        }
    }

    /// Opens gates. One that is refused stays closed, which is safe, and is tried again.
    fn open_gates(&mut self, plans: &Plans, refused: &mut BTreeMap<Prefix, Refusal>) {
        let mut batch: Batch<(Prefix, u32)> = Batch::new();
        for (prefix, plan) in plans {
            if let Some(it) = self.destinations.get_mut(prefix) {
                it.open_wanted(*prefix, &plan.gates, &mut batch);
            }
        }
        for ((prefix, table), result) in self.done(batch) {
            if let Some(it) = self.destinations.get_mut(&prefix) {
                it.opened(table, result);
            }
            if let Err(why) = result {
                refused.insert(prefix, why);
            }
        }
    }

    /// All is written that was planned for a destination, so its node may say that.
    fn confirm(&mut self, prefix: Prefix, plan: Plan, now: Duration) {
        let Some(it) = self.destinations.get_mut(&prefix) else {
            return;
        };
        if let (Some(becomes), None) = (it.becomes, &plan.table) {
            if it.is_empty() {
                self.become_other(prefix, becomes);
            }
            return;
        }
        let Some(table) = plan.table else { return };
        if it.node.written(table).is_err() {
            self.changed.insert(prefix);
            return;
        }
        it.is_written = true;
        for link in it.links.iter().filter(|it| it.is_up) {
            let Some(neighbour) = self.neighbours.get_mut(&link.neighbour) else {
                continue;
            };
            if neighbour.news.has_waited(&prefix) || it.node.has_news(link.neighbour) == Ok(true) {
                neighbour.news.want(prefix);
            }
        }
        if it.node.distance().is_some() {
            self.fading.remove(&prefix);
            self.tell_those_who_left(prefix);
        } else {
            self.fading
                .entry(prefix)
                .or_insert(now + self.settings.forget);
        }
    }

    /// The table of a destination is empty, so it can become another one.
    fn become_other(&mut self, prefix: Prefix, becomes: Becomes) {
        let was_own = self.destinations.get(&prefix).is_some_and(|it| it.is_own);
        match becomes {
            Becomes::Left => return self.left(prefix),
            Becomes::Own => self.journal.add(format!("{prefix} is announced here")),
            Becomes::Other if was_own => self
                .journal
                .add(format!("{prefix} is not announced here any more")),
            Becomes::Other => (),
        }
        self.start_again(prefix, becomes);
    }

    /// Closes all gates, and then removes all ways. What drops stays. Returns whether all was done.
    pub fn empty(&mut self, now: Duration) -> bool {
        let mut refused = BTreeMap::new();
        let all = self.destinations.keys();
        let mut plans: Plans = all.map(|it| (*it, Plan::default())).collect();
        self.close_gates(&mut plans, &mut refused);
        self.change_ways(&mut plans, &mut refused, now);
        let hops: Vec<u32> = self
            .neighbours
            .values_mut()
            .flat_map(|it| it.links.values_mut())
            .filter_map(|it| it.hop.take())
            .collect();
        for hop in hops {
            self.drop_hop(Some(hop));
        }
        if self.has_senders {
            // What senders send comes to the gates of their devices now, which are closed.
            self.has_senders = all_done(self.write(&[Write::RemoveSenders])).is_err();
        }
        refused.is_empty() && !self.has_senders
    }
}

/// A destination with a write that was refused is not written any further now.
fn give_up(
    plans: &mut Plans,
    refused: &mut BTreeMap<Prefix, Refusal>,
    prefix: Prefix,
    result: Result<(), Refusal>,
) {
    if let Err(why) = result {
        plans.remove(&prefix);
        refused.insert(prefix, why);
    }
}

pub fn both(line: impl Fn(bool) -> Write) -> impl Iterator<Item = Write> {
    [false, true].into_iter().map(line)
}

pub fn all_done(results: Vec<Result<(), Refusal>>) -> Result<(), Refusal> {
    results.into_iter().collect()
}
