//! What is to be said to one neighbour in one of its sessions, and what has arrived.
//!
//! A datagram has a number. The neighbour acknowledges the numbers that arrived. What was not acknowledged in time is said
//! again, as it is then. Nothing else is said twice.

use crate::datagram::Arrived;
use crate::prefix::Prefix;
use crate::round_trip::RoundTrip;
use std::collections::{BTreeMap, BTreeSet};
use std::time::Duration;

/// After this time a datagram counts as lost, or after the time that TCP would wait (RFC 6298), if that is longer: so a far
/// neighbour is not told everything twice. It waits for at most MOST_USUAL so. The time doubles up to LONGEST as long as
/// nothing is acknowledged.
const SHORTEST: Duration = Duration::from_millis(50);
const LONGEST: Duration = Duration::from_millis(400);
const MOST_USUAL: Duration = Duration::from_secs(1);
/// The most datagrams that are not acknowledged. The receiver can tell apart the last 65 numbers.
const MOST_FLIGHTS: usize = 32;

/// A datagram that is not acknowledged.
struct Flight {
    prefixes: Vec<Prefix>,
    /// Those of them that this router said it has left.
    leaves: Vec<Prefix>,
    says_complete: bool,
    due: Duration,
}

/// Whether the neighbour knows that the list of this router's prefixes has arrived.
#[derive(Clone, Copy, PartialEq, Eq)]
enum List {
    /// Some prefixes of the list are not acknowledged.
    Sending,
    /// All are, and the neighbour has to learn that.
    Arrived,
    Known,
}

pub struct News {
    number: u64,
    queue: BTreeSet<Prefix>,
    /// Those that are to be said once the kernel has their tables.
    waiting: BTreeSet<Prefix>,
    flights: BTreeMap<u64, Flight>,
    patience: Duration,
    unlisted: BTreeSet<Prefix>,
    list: List,
    says_complete: bool,
    arrived: Arrived,
    /// When the greatest number that arrived did.
    arrived_at: Duration,
    pub round_trip: RoundTrip,
    owes: bool,
    left: Vec<Prefix>,
}

impl News {
    /// For a new session of this router or of the neighbour, with a list of the prefixes that are known.
    pub fn new(list: impl Iterator<Item = Prefix>) -> News {
        let unlisted: BTreeSet<Prefix> = list.collect();
        News {
            number: 0,
            queue: unlisted.clone(),
            waiting: BTreeSet::new(),
            flights: BTreeMap::new(),
            patience: SHORTEST,
            list: if unlisted.is_empty() {
                List::Arrived
            } else {
                List::Sending
            },
            says_complete: false,
            unlisted,
            arrived: Arrived::default(),
            arrived_at: Duration::ZERO,
            round_trip: RoundTrip::default(),
            owes: false,
            left: Vec::new(),
        }
    }

    /// A prefix is to be said. What was said before that this router has left it counts no more.
    pub fn want(&mut self, prefix: Prefix) {
        for it in self.flights.values_mut() {
            it.leaves.retain(|it| *it != prefix);
        }
        self.queue.insert(prefix);
    }

    /// A prefix was to be said, but its table is not written. What was said of it before may be lost, so it is to be said also
    /// if its node has no news by then.
    pub fn wait(&mut self, prefix: Prefix) {
        self.waiting.insert(prefix);
    }

    /// The table of a prefix is written. Returns whether it has waited for that.
    pub fn has_waited(&mut self, prefix: &Prefix) -> bool {
        self.waiting.remove(prefix)
    }

    /// Whether the neighbour has not acknowledged yet that it knows of a prefix.
    pub fn is_unlisted(&self, prefix: &Prefix) -> bool {
        self.unlisted.contains(prefix)
    }

    /// A prefix is not known any more, so it is not in the list.
    pub fn forget(&mut self, prefix: &Prefix) {
        self.queue.remove(prefix);
        self.waiting.remove(prefix);
        self.unlisted.remove(prefix);
        if self.list == List::Sending && self.unlisted.is_empty() {
            self.list = List::Arrived;
        }
    }

    /// The prefixes that this router said it has left, and whose records have arrived since the last call.
    pub fn arrived_leaves(&mut self) -> Vec<Prefix> {
        std::mem::take(&mut self.left)
    }

    /// Whether a datagram has to be sent.
    pub fn is_due(&self) -> bool {
        self.owes || self.has_to_say_complete() || self.can_say_more()
    }

    /// Whether there are prefixes to be said, and not too many datagrams on their way.
    pub fn can_say_more(&self) -> bool {
        !self.queue.is_empty() && self.flights.len() < MOST_FLIGHTS
    }

    fn has_to_say_complete(&self) -> bool {
        self.list == List::Arrived && !self.says_complete
    }

    pub fn is_complete(&self) -> bool {
        self.list != List::Sending
    }

    pub fn next_prefix(&mut self) -> Option<Prefix> {
        self.queue.pop_first()
    }

    /// The number of the next datagram.
    pub fn next_number(&self) -> u64 {
        self.number + 1
    }

    pub fn arrived(&self) -> Arrived {
        self.arrived
    }

    /// For how long this router has had the greatest number that arrived.
    pub fn waited(&self, now: Duration) -> Duration {
        now.saturating_sub(self.arrived_at)
    }

    /// Whether a datagram with these prefixes has to be acknowledged.
    pub fn wants_answer(&self, prefixes: &[Prefix]) -> bool {
        !prefixes.is_empty() || self.list == List::Arrived
    }

    /// Notes that the next datagram is sent, with these prefixes.
    pub fn sent(&mut self, prefixes: Vec<Prefix>, leaves: Vec<Prefix>, now: Duration) {
        self.number += 1;
        self.owes = false;
        if self.wants_answer(&prefixes) {
            let says_complete = self.list == List::Arrived;
            self.says_complete |= says_complete;
            self.round_trip.sent(self.number, now);
            let due = now + self.patience;
            self.flights.insert(
                self.number,
                Flight {
                    prefixes,
                    leaves,
                    says_complete,
                    due,
                },
            );
        }
    }

    /// What the neighbour says of the datagrams that arrived there, and how long the last of them waited for that.
    pub fn acknowledge(&mut self, arrived: Arrived, waited: Duration, now: Duration) {
        if self.round_trip.answered(arrived.greatest, waited, now) {
            self.patience = self.usual_patience();
        }
        let numbers: Vec<u64> = self
            .flights
            .keys()
            .copied()
            .filter(|it| arrived.has(*it))
            .collect();
        for number in numbers {
            if let Some(flight) = self.flights.remove(&number) {
                self.landed(number, flight);
            }
        }
    }

    /// For how long an answer is awaited where the ones before came.
    pub fn usual_patience(&self) -> Duration {
        let usual = self.round_trip.smoothed();
        let usual = usual.map_or(SHORTEST, |it| it.mean + 4 * it.variation);
        usual.clamp(SHORTEST, MOST_USUAL)
    }

    /// A later datagram says what is so later, so earlier ones about the same prefixes need not be said again.
    fn landed(&mut self, number: u64, flight: Flight) {
        for prefix in &flight.prefixes {
            self.unlisted.remove(prefix);
        }
        self.left.extend(flight.leaves);
        if flight.says_complete {
            self.list = List::Known;
        } else if self.list == List::Sending && self.unlisted.is_empty() {
            self.list = List::Arrived;
        }
        let said: BTreeSet<Prefix> = flight.prefixes.into_iter().collect();
        for it in self.flights.range_mut(..number) {
            it.1.prefixes.retain(|prefix| !said.contains(prefix));
        }
        let is_known = self.list == List::Known;
        self.flights
            .retain(|_, it| !it.prefixes.is_empty() || it.says_complete && !is_known);
    }

    /// Has said again what was not acknowledged in time. Returns how many datagrams that are.
    pub fn expire(&mut self, now: Duration) -> u64 {
        let late: Vec<u64> = self
            .flights
            .iter()
            .filter(|(_, it)| it.due <= now)
            .map(|(it, _)| *it)
            .collect();
        let count = late.len() as u64;
        if count > 0 {
            let most = LONGEST.max(self.usual_patience());
            self.patience = (self.patience * 2).min(most);
        }
        self.recall(late);
        count
    }

    /// The link is down: what is on its way is lost.
    pub fn recall_all(&mut self) {
        self.patience = self.usual_patience();
        self.recall(self.flights.keys().copied().collect());
    }

    fn recall(&mut self, numbers: Vec<u64>) {
        for number in numbers {
            if let Some(flight) = self.flights.remove(&number) {
                self.queue.extend(flight.prefixes);
                self.says_complete &= !flight.says_complete;
            }
        }
    }

    /// When the next datagram counts as lost.
    pub fn next_time(&self) -> Option<Duration> {
        self.flights.values().map(|it| it.due).min()
    }

    /// Whether a datagram of the neighbour is new. One that came before is not acknowledged again: what is said again
    /// has another number.
    pub fn is_new(&self, number: u64) -> bool {
        !self.arrived.is_past(number) && !self.arrived.has(number)
    }

    /// A datagram of the neighbour has been heard. It is to be acknowledged if it has something to acknowledge.
    pub fn heard(&mut self, number: u64, owes: bool, now: Duration) {
        if number > self.arrived.greatest {
            self.arrived_at = now;
        }
        self.arrived.add(number);
        self.owes |= owes;
    }

    /// How many prefixes are to be said, or are not acknowledged.
    pub fn pending(&self) -> usize {
        self.queue.len()
            + self
                .flights
                .values()
                .map(|it| it.prefixes.len())
                .sum::<usize>()
    }
}

#[cfg(test)]
mod tests {
    use super::*;

    fn ms(count: u64) -> Duration {
        Duration::from_millis(count)
    }

    /// Answers to a far neighbour take 120 ms. The first datagram is said again before its answer can come, and none after it.
    #[test]
    fn a_far_neighbour_is_not_told_twice() {
        let one: Prefix = "10.0.0.0/8".parse().unwrap();
        let mut it = News::new(std::iter::empty());
        let mut heard = Arrived::default();
        for (begun, said_again) in [(0, true), (1000, false), (2000, false)] {
            it.want(one);
            let prefix = it.next_prefix().unwrap();
            it.sent(vec![prefix], Vec::new(), ms(begun));
            assert_eq!(it.expire(ms(begun + 110)) > 0, said_again);
            heard.add(it.next_number() - 1);
            it.acknowledge(heard, Duration::ZERO, ms(begun + 120));
            it.queue.clear();
        }
        // Its answers stay away: the time doubles.
        it.want(one);
        it.next_prefix().unwrap();
        it.sent(vec![one], Vec::new(), ms(3000));
        let first = it.next_time().unwrap() - ms(3000);
        assert!(ms(120) < first && first < LONGEST);
        it.expire(ms(4000));
        it.sent(vec![one], Vec::new(), ms(4000));
        assert_eq!(it.next_time(), Some(ms(4000) + (2 * first).min(LONGEST)));
    }
}
