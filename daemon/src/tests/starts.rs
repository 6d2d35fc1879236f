//! Which start of a router a datagram is from, is for, or names: what one router makes of datagrams that another one could
//! have said.

use super::lab::{Lab, prefix, seconds};
use super::world::{Handle, address, mac};
use crate::datagram::{self, Address, Arrived, Body, Head, Hello, News, Peer, Record, Says, Start};
use crate::machine::{Machine, drawn};
use revroute::MESSAGE_LENGTH;
use std::collections::BTreeSet;
use std::hash::RandomState;
use std::time::Duration;

const ME: u32 = 0;
const OTHER: u32 = 1;
const DEVICE: u32 = 1;
/// The session of this router, and what it knows of the other one.
const SESSION: u32 = 7;
const KNOWN: Start = Start {
    session: 5,
    process: 50,
};

/// A start, and the two of which one half is another one.
fn halves(it: Start) -> [Start; 2] {
    let (session, process) = (it.session, it.process);
    [
        Start {
            session,
            process: process.wrapping_add(1),
        },
        Start {
            session: session - 1,
            process,
        },
    ]
}

/// A router with a link to another one, which has no machine: the test says what comes from there.
struct Pair {
    lab: Lab,
    number: u64,
}

impl Pair {
    fn new() -> Pair {
        let mut lab = Lab::new(&[(ME, OTHER)], 21);
        lab.start_as(ME, SESSION);
        lab.run(Duration::from_millis(10));
        Pair { lab, number: 0 }
    }

    fn machine(&mut self) -> &mut Machine<Handle> {
        self.lab.machines.get_mut(&ME).unwrap()
    }

    fn me(&mut self) -> Start {
        self.machine().start
    }

    fn head(&mut self, start: Start) -> Head {
        self.number += 1;
        Head {
            from: OTHER,
            start,
            number: self.number,
            hold: seconds(4),
        }
    }

    /// Takes a datagram. Returns whether it is not ignored.
    fn takes(&mut self, data: &[u8]) -> bool {
        let now = self.lab.now;
        let machine = self.machine();
        let ignored = machine.counts.datagrams_ignored;
        machine.take(DEVICE, address(OTHER, 1), data, now);
        machine.counts.datagrams_ignored == ignored
    }

    fn hears(&mut self, from: Start, heard: &[Start], known: &[Peer]) -> bool {
        let (head, mac) = (self.head(from), Some(mac(OTHER, 1)));
        let (heard, known) = (heard.to_vec(), known.to_vec());
        let said = Hello { mac, heard, known };
        self.takes(&datagram::hello(head, &said, &[]))
    }

    fn hears_news(&mut self, from: Start, to: Peer) -> bool {
        self.hears_records(from, to, &[])
    }

    fn hears_records(&mut self, from: Start, to: Peer, records: &[Record<'_>]) -> bool {
        let head = self.head(from);
        let address = Address {
            to,
            arrived: Arrived::default(),
            waited: Duration::ZERO,
            is_complete: true,
            wants_answer: false,
        };
        let mut news = News::new(head, address, &[]);
        for it in records {
            news.push(*it);
        }
        self.takes(&news.sealed(true, &[]))
    }

    fn is_up(&mut self) -> bool {
        self.machine().neighbours[&OTHER].links[&DEVICE].is_up
    }

    fn has_told_all(&mut self) -> bool {
        self.machine().neighbours[&OTHER].has_told_all
    }

    /// The next hello of this router.
    fn says(&mut self) -> Hello {
        self.lab.now += seconds(1);
        let now = self.lab.now;
        let machine = self.machine();
        machine.turn(|| now);
        let said = std::mem::take(&mut machine.outbox);
        let read = said.iter().map(|(_, data)| datagram::read(data, &[]));
        let mut hellos = read.filter_map(|it| match it {
            Some((_, Body::Hello(it))) => Some(it),
            _ => None,
        });
        hellos.next().expect("a hello")
    }
}

#[test]
fn a_link_is_up_only_if_a_hello_names_this_very_process() {
    let mut pair = Pair::new();
    let me = pair.me();
    assert!(pair.hears(KNOWN, &[], &[]) && !pair.is_up());
    assert_eq!(pair.says().heard, [KNOWN]);
    assert!(pair.hears(KNOWN, &halves(me), &[]) && !pair.is_up());
    // What the other router knows is not what it hears.
    let known = Peer {
        router: ME,
        start: me,
    };
    assert!(pair.hears(KNOWN, &[], &[known]) && !pair.is_up());
    assert!(pair.hears(KNOWN, &[KNOWN, me], &[]) && pair.is_up());
    assert!(pair.hears(KNOWN, &halves(me), &[]) && !pair.is_up());
}

#[test]
fn news_are_for_one_process_and_from_one() {
    let mut pair = Pair::new();
    let start = pair.me();
    let me = Peer { router: ME, start };
    assert!(pair.hears(KNOWN, &[start], &[]) && pair.is_up());
    for start in halves(start) {
        assert!(!pair.hears_news(KNOWN, Peer { router: ME, start }));
    }
    let router = OTHER;
    assert!(!pair.hears_news(KNOWN, Peer { router, start }));
    for from in halves(KNOWN) {
        assert!(!pair.hears_news(from, me));
    }
    assert!(!pair.has_told_all());
    assert!(pair.hears_news(KNOWN, me) && pair.has_told_all());
}

/// The datagram is not acknowledged, so the other router says it again.
#[test]
fn a_record_that_is_not_understood_keeps_no_other_one_from_being_taken() {
    let mut pair = Pair::new();
    let (router, start) = (ME, pair.me());
    let me = Peer { router, start };
    assert!(pair.hears(KNOWN, &[start], &[]));
    let [first, last] = ["10.9.1.0/24", "10.9.2.0/24"].map(prefix);
    let records = [
        Record {
            prefix: first,
            says: Says::Message(&[0; MESSAGE_LENGTH], true),
        },
        Record {
            prefix: last,
            says: Says::Name,
        },
    ];
    assert!(!pair.hears_records(KNOWN, me, &records) && !pair.has_told_all());
    assert!(pair.machine().destinations.contains_key(&last));
    assert!(pair.hears_records(KNOWN, me, &records[1..]) && pair.has_told_all());
}

#[test]
fn a_later_start_of_this_number_is_noticed_and_an_earlier_one_is_not() {
    let mut pair = Pair::new();
    let me = pair.me();
    let [double, earlier] = halves(me);
    let later = Start {
        session: SESSION + 1,
        process: 0,
    };
    let not_later = [(ME, me), (ME, earlier), (OTHER, later), (OTHER, double)];
    for (router, start) in not_later {
        assert!(pair.hears(KNOWN, &[later], &[Peer { router, start }]));
        assert_eq!(pair.machine().later_session, None, "{start:?}");
    }
    for start in [double, later] {
        let known = [(OTHER, later), (ME, start)].map(|(router, start)| Peer { router, start });
        assert!(pair.hears(KNOWN, &[], &known));
        assert_eq!(pair.machine().later_session, Some(start.session));
        pair.machine().later_session = None;
    }
}

/// So the other process starts again, also while the one that is known is heard on the same link.
#[test]
fn who_is_known_is_said_once_to_another_process_with_its_number() {
    for other in halves(KNOWN) {
        let mut pair = Pair::new();
        let (router, start) = (ME, pair.me());
        let me = Peer { router, start };
        assert!(pair.hears(KNOWN, &[], &[]));
        assert!(pair.says().known.is_empty());
        let known = Peer {
            router: OTHER,
            start: KNOWN,
        };
        assert!(!pair.hears(other, &[], &[]));
        let said = pair.says();
        assert_eq!((said.heard, said.known), (vec![KNOWN], vec![known]));
        assert!(pair.says().known.is_empty());
        pair.lab.now += seconds(4);
        assert!(!pair.hears_news(other, me));
        let said = pair.says();
        assert_eq!((said.heard, said.known), (vec![], vec![known]));
    }
}

#[test]
fn a_greater_session_takes_the_place_of_the_one_before_for_good() {
    let mut pair = Pair::new();
    let me = pair.me();
    let later = Start {
        session: KNOWN.session + 1,
        process: KNOWN.process,
    };
    assert!(pair.hears(KNOWN, &[me], &[]) && pair.is_up());
    assert!(pair.hears(later, &[], &[]) && !pair.is_up());
    assert!(!pair.hears(KNOWN, &[me], &[]) && !pair.is_up());
    assert!(pair.hears(later, &[me], &[]) && pair.is_up());
}

#[test]
fn each_process_draws_another_number_and_each_router_does() {
    let processes: BTreeSet<u32> = (0..20).map(|_| Pair::new().me().process).collect();
    assert_eq!(processes.len(), 20);
    let keys = RandomState::new();
    let halves = (0..20).map(|router| drawn(router, &keys) as u32);
    assert_eq!(halves.collect::<BTreeSet<u32>>().len(), 20);
}

/// Router 0 hears one of them, and says so to the other one, which takes a greater session. Then it hears that one, and so on.
#[test]
fn two_routers_of_a_lan_with_one_number_learn_of_each_other_in_turn() {
    let mut lab = Lab::with_lans(&[], &[&[0, 1, 2]], 22);
    lab.doubles.insert(2, 1);
    lab.start_all();
    lab.run(seconds(10));
    assert!(lab.sessions[&0] == 1 && lab.sessions[&1] > 2 && lab.sessions[&2] > 2);
    lab.doubles.clear();
    lab.start(2);
    // The others keep its place for the number that it had.
    lab.run(seconds(90));
    lab.expect_all_arrive();
}
