//! Machines in a network in memory, which loses, repeats and reorders datagrams. After each line that is written to a
//! kernel, the tables of all kernels must have no loop.

mod lab;
mod starts;
mod world;

pub use lab::{Dice, settings};

use crate::kernel::Refusal;
use crate::machine::{HOLD, LONGEST_DEAD, Machine, SENDERS};
use crate::view::{neighbours_text, status_text};
use crate::writing::LATER;
use lab::{Lab, STEP, own, prefix, seconds};
use std::cell::Cell;
use std::collections::BTreeSet;
use std::time::Duration;
use world::{Handle, address, mac};

const RING: [(u32, u32); 5] = [(0, 1), (1, 2), (2, 3), (3, 4), (4, 0)];

#[test]
fn routers_of_a_ring_reach_each_other_by_shortest_paths() {
    let mut lab = Lab::new(&RING, 1);
    lab.start_all();
    lab.run(Duration::from_millis(300));
    lab.expect_all_arrive();
    assert_eq!(lab.path(0, own(2).address()), [0, 1, 2]);
    assert_eq!(lab.path(0, own(3).address()), [0, 4, 3]);
}

#[test]
fn nothing_but_hellos_is_said_when_nothing_changes() {
    let mut lab = Lab::new(&RING, 2);
    lab.start_all();
    lab.run(seconds(5));
    let (before, said) = (lab.sent, lab.machines[&0].counts.messages_said);
    lab.run(seconds(10));
    assert!(
        (100..=110).contains(&(lab.sent - before)),
        "{} in 10 s on 10 devices",
        lab.sent - before
    );
    assert_eq!(lab.machines[&0].counts.messages_said, said);
}

#[test]
fn what_comes_in_is_dropped_in_the_turn_that_finds_a_link_down() {
    let mut lab = Lab::new(&[(0, 1)], 101);
    lab.announced.values_mut().for_each(BTreeSet::clear);
    lab.start(0);
    lab.run(Duration::from_millis(300));
    lab.start(1);
    lab.run(seconds(3));
    assert!(lab.world.borrow().tables[&0].hold.is_empty());
    // Router 1 hears nothing, and says so in a hello.
    lab.cut.insert((0, 1));
    while lab.machines[&0].neighbours[&1].is_up {
        assert!(lab.now < seconds(10));
        lab.run(STEP);
    }
    assert!(!lab.world.borrow().tables[&0].hold.is_empty());
}

#[test]
fn a_link_that_loses_its_carrier_is_left_at_once() {
    let mut lab = Lab::new(&RING, 3);
    lab.start_all();
    lab.run(seconds(2));
    lab.set_link(0, false, false);
    lab.run(Duration::from_millis(200));
    lab.expect_all_arrive();
    assert_eq!(lab.path(0, own(1).address()), [0, 4, 3, 2, 1]);
    lab.set_link(0, true, false);
    lab.run(Duration::from_millis(500));
    lab.expect_all_arrive();
    assert_eq!(lab.path(0, own(1).address()), [0, 1]);
}

#[test]
fn a_link_that_loses_all_in_one_direction_is_left() {
    let mut lab = Lab::new(&RING, 4);
    lab.start_all();
    lab.run(seconds(2));
    let one_end = lab.links[0].0;
    lab.cut.insert(one_end);
    lab.run(seconds(5));
    lab.expect_all_arrive();
    assert_eq!(lab.path(0, own(1).address()), [0, 4, 3, 2, 1]);
    assert_eq!(lab.path(1, own(0).address()), [1, 2, 3, 4, 0]);
    lab.cut.remove(&one_end);
    lab.run(seconds(2));
    assert_eq!(lab.path(0, own(1).address()), [0, 1]);
}

/// Router 1 does not hear router 0 any more.
fn deafened(unasked: &[u32]) -> Lab {
    let mut lab = Lab::new(&RING, 4);
    lab.unasked.extend(unasked);
    lab.start_all();
    lab.run(seconds(2));
    lab.cut.insert(lab.links[0].0);
    lab
}

#[test]
fn a_link_that_loses_all_is_left_once_the_kernel_at_its_other_end_does_not_answer() {
    let mut lab = deafened(&[]);
    lab.run(Duration::from_millis(1500));
    assert_eq!(lab.path(0, own(1).address()), [0, 4, 3, 2, 1]);
    let said: Vec<_> = lab.machines[&1].journal.after(0).collect();
    let text = "router 0 is down: its kernel does not answer";
    assert!(said.iter().any(|it| it.text == text));
    lab.expect_all_arrive();
}

#[test]
fn the_silence_of_a_kernel_that_never_answers_means_nothing() {
    let mut lab = deafened(&[0]);
    lab.run(Duration::from_millis(2500));
    assert_eq!(lab.path(0, own(1).address()), [0, 1], "packets are lost");
    lab.run(Duration::from_millis(2500));
    lab.expect_all_arrive();
}

/// The process of router 1 is away for longer than the time between two hellos. Its kernel goes on.
#[test]
fn a_kernel_that_answers_keeps_the_link_until_the_process_is_dead() {
    let mut lab = Lab::new(&RING, 5);
    lab.start_all();
    lab.run(seconds(2));
    lab.machines.remove(&1);
    lab.run(Duration::from_millis(2500));
    assert!(lab.machines[&0].neighbours[&1].is_up);
    assert_eq!(lab.path(0, own(2).address()), [0, 1, 2]);
    lab.run(Duration::from_millis(2500));
    assert!(!lab.machines[&0].neighbours[&1].is_up);
    assert_eq!(lab.path(0, own(2).address()), [0, 4, 3, 2]);
}

#[test]
fn a_process_that_starts_again_is_used_soon() {
    let mut lab = Lab::new(&RING, 5);
    lab.start_all();
    lab.run(seconds(2));
    lab.start(1);
    lab.run(Duration::from_millis(150));
    lab.expect_all_arrive();
}

#[test]
fn a_prefix_can_be_withdrawn_and_come_back_elsewhere() {
    let mut lab = Lab::new(&RING, 6);
    let other = prefix("10.9.0.0/16");
    lab.start_all();
    lab.announce(0, other, true);
    lab.run(seconds(1));
    assert_eq!(lab.path(2, other.address()), [2, 1, 0]);
    lab.announce(0, other, false);
    lab.run(seconds(3));
    let distances: Vec<_> = lab
        .machines
        .values()
        .map(|it| it.destinations[&other].node.distance())
        .collect();
    assert_eq!(distances, [None; 5], "nobody has it");
    lab.announce(3, other, true);
    lab.run(seconds(1));
    assert_eq!(lab.path(1, other.address()), [1, 2, 3]);
    lab.announce(0, other, true);
    lab.run(seconds(1));
    assert_eq!(lab.path(1, other.address()), [1, 0], "the nearest of two");
}

#[test]
fn a_prefix_that_nobody_announces_is_forgotten_and_can_come_back() {
    let mut lab = Lab::new(&RING, 15);
    let (inner, outer) = (prefix("10.9.1.0/24"), prefix("10.9.0.0/16"));
    lab.start_all();
    lab.announce(0, inner, true);
    lab.announce(2, outer, true);
    lab.run(seconds(1));
    assert_eq!(lab.path(3, inner.address()).last(), Some(&0));
    lab.announce(0, inner, false);
    lab.run(seconds(40));
    assert!(
        lab.machines
            .values()
            .all(|it| !it.destinations.contains_key(&inner)),
        "{}",
        lab.known_of(inner)
    );
    assert!(
        lab.world
            .borrow()
            .tables
            .values()
            .all(|it| !it.last.contains(&inner))
    );
    assert_eq!(
        lab.path(0, inner.address()),
        [0, 1, 2],
        "it is a part of the outer prefix again"
    );
    lab.announce(4, inner, true);
    lab.run(seconds(1));
    assert_eq!(lab.path(0, inner.address()), [0, 4]);
}

/// What router 0 says of a prefix is lost. Before it says that again, the kernel refuses to close a gate of the prefix. Nothing
/// has changed of what it has to say, but router 1 waits for that.
#[test]
fn what_was_lost_is_said_again_after_a_refused_write() {
    let mut lab = Lab::new(&[(0, 1), (1, 2), (0, 3)], 17);
    lab.start_all();
    lab.run(seconds(2));
    let to_router_1 = lab.links[0].0;
    lab.set_ends(&[to_router_1], false, true);
    lab.set_cost(1, 2, 3);
    lab.run(Duration::from_millis(20));
    lab.world.borrow_mut().refused_percent = 100;
    lab.set_link(2, false, false);
    lab.run(Duration::from_millis(200));
    lab.world.borrow_mut().refused_percent = 0;
    lab.set_ends(&[to_router_1], true, true);
    lab.run(seconds(2));
    let node = &lab.machines[&1].destinations[&own(2)].node;
    assert_eq!(node.height(), 3, "{}", lab.known_of(own(2)));
}

/// Two neighbours start at once. No other router can tell them of a prefix that both knew, and their default routes lead to
/// each other.
#[test]
fn default_routes_take_nothing_to_what_an_earlier_process_knew() {
    let mut lab = Lab::new(&[(0, 1), (1, 2)], 16);
    let to = own(2).address();
    lab.start_all();
    lab.run(seconds(1));
    assert_eq!(lab.path(0, to), [0, 1, 2]);
    for (router, device) in [(0, 1), (1, 1)] {
        lab.world.borrow_mut().defaults.insert(router, device);
    }
    lab.set_link(1, false, true);
    lab.start(0);
    lab.start(1);
    lab.run(seconds(2));
    assert!(lab.machines[&0].neighbours[&1].is_up);
    assert!(!lab.machines[&0].destinations.contains_key(&own(2)));
    assert_eq!(lab.path(0, to), [0], "it is dropped");
    lab.run(HOLD);
    assert_eq!(lab.path(1, to)[..3], [1, 0, 1], "nobody knows it any more");
    lab.set_link(1, true, true);
    lab.run(seconds(2));
    assert_eq!(lab.path(0, to), [0, 1, 2]);
    lab.start(0);
    lab.run(HOLD + HOLD);
    assert_eq!(lab.path(0, to), [0, 1, 2]);
    assert!(lab.world.borrow().tables[&0].last.contains(&own(2)));
}

/// One router is away while the others leave a prefix.
#[test]
fn a_prefix_is_not_forgotten_while_somebody_may_have_a_way() {
    let (mut lab, inner) = (Lab::new(&RING, 15), prefix("10.9.1.0/24"));
    lab.start_all();
    lab.announce(4, inner, true);
    lab.run(seconds(1));
    lab.announce(4, inner, false);
    lab.set_link(2, false, false);
    lab.set_link(3, false, false);
    lab.run(seconds(40));
    assert!(
        lab.machines[&1].destinations.contains_key(&inner)
            || lab.machines[&2].destinations.contains_key(&inner)
    );
    lab.set_link(2, true, false);
    lab.set_link(3, true, false);
    lab.run(seconds(40));
    assert!(
        lab.machines
            .values()
            .all(|it| !it.destinations.contains_key(&inner)),
        "{}",
        lab.known_of(inner)
    );
}

#[test]
fn two_links_between_two_routers_are_one_way() {
    let mut lab = Lab::new(&[(0, 1), (0, 1), (1, 2)], 7);
    lab.start_all();
    lab.run(seconds(1));
    lab.expect_all_arrive();
    assert_eq!(
        lab.world.borrow().tables[&0].ways.len(),
        4,
        "two routes to each of two routers"
    );
    lab.set_link(0, false, false);
    lab.run(Duration::from_millis(100));
    lab.expect_all_arrive();
    lab.set_link(1, false, true);
    lab.run(seconds(5));
    assert_eq!(lab.path(0, own(2).address()), [0]);
    lab.set_link(1, true, true);
    lab.run(seconds(2));
    lab.expect_all_arrive();
}

/// The link between routers 0 and 1 is dear for router 0 alone. Then it becomes cheaper than the way round the ring, and dear
/// again. No packet is lost meanwhile.
#[test]
fn routes_have_the_least_costs() {
    let mut lab = Lab::new(&RING, 8);
    lab.costs.insert((0, 1), 5);
    lab.start_all();
    lab.run(seconds(1));
    lab.expect_all_arrive();
    assert_eq!(lab.path(0, own(1).address()), [0, 4, 3, 2, 1]);
    assert_eq!(lab.path(0, own(2).address()), [0, 4, 3, 2]);
    assert_eq!(lab.path(1, own(0).address()), [1, 0]);
    for (cost, path) in [(2, &[0, 1][..]), (5, &[0, 4, 3, 2, 1])] {
        lab.set_cost(0, 1, cost);
        let end = lab.now + seconds(1);
        while lab.now < end {
            lab.run(lab::STEP);
            lab.expect_all_arrive();
        }
        assert_eq!(lab.path(0, own(1).address()), path);
    }
}

/// All costs of all routers change again and again, while datagrams are lost and reordered.
#[test]
fn costs_that_change_everywhere_make_no_loop() {
    let links: Vec<(u32, u32)> = (0..9)
        .map(|it| (it, (it + 1) % 9))
        .chain([(0, 3), (1, 5), (2, 7), (4, 8), (3, 6)])
        .collect();
    for seed in 0..storms() / 4 {
        println!("seed {seed}");
        let mut lab = Lab::new(&links, seed);
        (lab.lost_percent, lab.late_percent) = (5, 20);
        lab.start_all();
        lab.run(seconds(2));
        for _ in 0..20 {
            for router in lab.routers() {
                for (_, device) in lab.devices(router) {
                    let cost = 1 + lab.dice.below(5) as u32;
                    lab.set_cost(router, device, cost);
                }
                if lab.dice.chance(50) {
                    lab.run(lab::STEP);
                }
            }
            let time = lab.dice.below(200);
            lab.run(Duration::from_millis(time));
        }
        (lab.lost_percent, lab.late_percent) = (0, 0);
        lab.run(seconds(3));
        lab.expect_all_arrive();
    }
}

/// Routes of two links do not count for router 0, so its height is at the top. Then they count again.
#[test]
fn a_new_ceiling_counts_at_once() {
    let mut lab = Lab::new(&RING, 8);
    lab.start_all();
    lab.run(seconds(1));
    for (ceiling, height) in [(2, u32::MAX.into()), (64, 2)] {
        let mut settings = lab.settings(0);
        settings.ceiling = ceiling;
        let now = lab.now;
        lab.machines.get_mut(&0).unwrap().configure(settings, now);
        lab.run(seconds(1));
        let known = &lab.machines[&0].destinations;
        let heights = [1, 2].map(|it| known[&own(it)].node.height());
        assert_eq!(heights, [1, height]);
    }
}

#[test]
fn status_lists_what_the_kernel_refuses_and_not_what_waits() {
    let mut lab = Lab::new(&RING, 8);
    lab.start_all();
    lab.run(seconds(1));
    let (now, machine) = (lab.now, lab.machines.get_mut(&0).unwrap());
    machine.try_again(own(1), LATER, now);
    machine.try_again(own(2), Refusal(libc::EEXIST), now);
    assert_eq!(machine.status(now).refused, [own(2).to_string()]);
}

/// As after a boot number that has gone back. There is no interface in the list meanwhile.
#[test]
fn status_says_that_no_interface_is_used_for_a_while() {
    let lab = {
        let mut lab = Lab::new(&RING, 8);
        lab.start_all();
        lab
    };
    let mut status = lab.machines[&0].status(lab.now);
    assert!(!status_text(&status).contains("no interface is used"));
    status.pause_seconds = Some(7.5);
    let text =
        "no interface is used for 7.5 s: a neighbour knows another process with the number 0\n";
    assert!(status_text(&status).contains(text));
}

#[test]
fn the_cheapest_of_two_links_counts_while_it_is_up() {
    let mut lab = Lab::new(&[(0, 1), (0, 1), (1, 2)], 16);
    lab.costs.extend([((0, 1), 4), ((0, 2), 3)]);
    lab.start_all();
    lab.run(seconds(1));
    for (is_up, cost) in [(true, 3), (false, 4), (true, 3)] {
        lab.set_link(1, is_up, false);
        lab.run(seconds(1));
        lab.expect_all_arrive();
        let node = &lab.machines[&0].destinations[&own(2)].node;
        assert_eq!(node.distance(), Some(cost + 1));
    }
}

#[test]
fn routers_on_one_lan_reach_each_other_also_over_each_other() {
    let mut lab = Lab::with_lans(&[], &[&[0, 1, 2, 3]], 17);
    lab.start_all();
    lab.run(seconds(1));
    lab.expect_all_arrive();
    assert_eq!(lab.path(0, own(1).address()), [0, 1]);
    // two of them do not hear each other any more, and all they hear comes by one device
    lab.set_apart(0, (0, 1), true);
    lab.run(seconds(6));
    lab.expect_all_arrive();
    assert_eq!(lab.path(0, own(1).address()).len(), 3);
    lab.set_apart(0, (0, 1), false);
    lab.run(seconds(2));
    assert_eq!(lab.path(0, own(1).address()), [0, 1]);
    lab.start(2);
    lab.run(seconds(1));
    lab.expect_all_arrive();
}

#[test]
fn a_hardware_address_may_change_and_is_that_of_one_neighbour() {
    let mut lab = Lab::with_lans(&[], &[&[0, 1, 2]], 18);
    lab.start_all();
    lab.run(seconds(1));
    let (now, device) = (lab.now, lab.lans[0][1].1);
    let name = format!("eth{device}");
    let machine = lab.machines.get_mut(&1).unwrap();
    machine.device_is(device, &name, Some(mac(2, device)), true, now);
    lab.run(seconds(6));
    let text = "router 1 is refused on eth1, where router 2 has the same address";
    let has_said = |it: &Machine<Handle>| it.journal.after(0).any(|it| it.text == text);
    assert!(has_said(&lab.machines[&0]));
    assert!(!lab.arrives(1, 0) && lab.arrives(2, 0));
    let (now, machine) = (lab.now, lab.machines.get_mut(&1).unwrap());
    machine.device_is(device, &name, Some(mac(1, device)), true, now);
    lab.run(seconds(2));
    lab.expect_all_arrive();
}

#[test]
fn what_a_process_left_of_a_lan_is_removed() {
    let mut lab = Lab::with_lans(&[(0, 1)], &[&[0, 1, 2]], 19);
    lab.start_all();
    lab.run(seconds(1));
    let gates = |lab: &Lab| {
        let world = lab.world.borrow();
        let it = &world.tables[&0];
        let rules = it.rules.iter().filter(|it| it.0 > SENDERS).count();
        (it.senders.clone().map(|it| it.len()), rules, it.skips.len())
    };
    assert_eq!(gates(&lab), (Some(2), 4, 4));
    let now = lab.now;
    assert!(lab.machines.get_mut(&0).unwrap().empty(now));
    assert_eq!(gates(&lab).0, None);
    assert!(lab.world.borrow().tables[&0].open.is_empty());
    lab.machines.remove(&0);
    lab.lans[0].remove(0);
    lab.start(0);
    assert_eq!(gates(&lab), (None, 0, 0));
    lab.run(seconds(90));
    assert_eq!(
        lab.world.borrow().tables[&0].rules.len(),
        2,
        "those of the link"
    );
}

#[test]
fn two_routers_with_one_number_make_no_loop_and_say_so() {
    // routers 0 and 4 of the ring run as number 0
    let mut lab = Lab::new(&RING, 8);
    lab.neglects = |it| it.router %= 4;
    lab.start_all();
    lab.run(seconds(20));
    let said: Vec<String> = lab
        .machines
        .values()
        .flat_map(|it| it.journal.after(0).map(|it| it.text.clone()))
        .collect();
    assert!(
        said.iter()
            .any(|it| it.contains("another router with the number 0")),
        "{said:?}"
    );
    assert!(lab.arrives(1, 2) && lab.arrives(2, 1));
}

#[test]
fn two_processes_with_one_number_and_one_session_are_told_apart() {
    let mut lab = Lab::new(&[(0, 1), (0, 3), (1, 2), (2, 3), (3, 4)], 16);
    lab.doubles.insert(3, 1);
    lab.start_all();
    lab.run(seconds(3));
    let said: Vec<String> = lab.machines[&0]
        .journal
        .after(0)
        .map(|it| it.text.clone())
        .collect();
    assert!(
        said.iter()
            .any(|it| it.contains("two routers have this number")),
        "{said:?}"
    );
    lab.doubles.clear();
    lab.start(3);
    // its neighbours keep its place for the number that it had
    lab.run(seconds(90));
    lab.expect_all_arrive();
}

#[test]
fn a_boot_number_that_goes_back_is_noticed() {
    let mut lab = Lab::new(&RING, 9);
    lab.sessions.insert(1, 7);
    lab.start_all();
    lab.run(seconds(1));
    lab.start_as(1, 3);
    // The next hello of its neighbours comes within a second.
    lab.run(Duration::from_millis(1200));
    assert_eq!(
        lab.machines[&1].start.session, 9,
        "greater than what its neighbours know"
    );
    lab.expect_all_arrive();
    // also if it was away for longer than its neighbours wait
    lab.machines.remove(&1);
    lab.run(seconds(10));
    lab.start_as(1, 3);
    lab.run(seconds(3));
    assert_eq!(lab.machines[&1].start.session, 10);
    lab.expect_all_arrive();
}

const LINKS: [(u32, u32); 8] = [
    (0, 1),
    (1, 2),
    (2, 3),
    (3, 4),
    (4, 0),
    (0, 2),
    (1, 3),
    (0, 1),
];
const LANS: [&[u32]; 2] = [&[0, 1, 2, 3, 4], &[1, 3, 4]];

/// One storm: links that are cut and joined and whose costs change, processes that are killed and started again, prefixes
/// that come and go, writes that are refused, while datagrams are lost, repeated and reordered, and each router has a default route.
fn storm(mut lab: Lab) -> u64 {
    lab.has_doubles = lab.dice.chance(50);
    for router in lab.routers() {
        let devices = lab.devices(router);
        let at = lab.dice.below(devices.len() as u64) as usize;
        lab.world
            .borrow_mut()
            .defaults
            .insert(router, devices[at].1);
    }
    lab.start_all();
    (lab.lost_percent, lab.late_percent) = (20, 20);
    lab.world.borrow_mut().refused_percent = 3;
    for _ in 0..40 {
        happen(&mut lab);
        let time = 1 + lab.dice.below(400);
        lab.run(Duration::from_millis(time));
    }
    calm_down(&mut lab);
    lab.world.borrow().checks
}

/// One event of a storm.
fn happen(lab: &mut Lab) {
    let others = ["10.0.0.0/8", "10.0.2.0/25", "0.0.0.0/0", "10.0.1.128/26"].map(prefix);
    let router = lab.dice.below(5) as u32;
    let one = others[lab.dice.below(4) as usize];
    match lab.dice.below(14) {
        0..=6 if !lab.lans.is_empty() && lab.dice.chance(70) => some_of_a_lan(lab),
        what @ 0..=6 if !lab.links.is_empty() => {
            let link = lab.dice.below(lab.links.len() as u64) as usize;
            lab.set_link(link, what > 3, what > 2);
        }
        7 => drop(lab.machines.remove(&router)),
        8 => lab.start(router),
        10..=11 => {
            let devices = lab.devices(router);
            let at = lab.dice.below(devices.len() as u64) as usize;
            let cost = 1 + lab.dice.below(9) as u32;
            lab.set_cost(router, devices[at].1, cost);
        }
        9 if lab.has_doubles => {
            let other = lab.dice.below(5) as u32;
            lab.doubles.insert(router, other);
            // often with the session of the other one
            let session = lab.sessions.get(&other).copied().unwrap_or(1);
            lab.sessions.insert(router, session);
            lab.start_as(router, session);
        }
        _ => {
            let is_announced = lab.dice.chance(60);
            lab.announce(router, one, is_announced);
        }
    }
}

/// On one LAN two routers do not hear each other any more, or a router loses its carrier, or what was lost is there again.
fn some_of_a_lan(lab: &mut Lab) {
    let lan = lab.dice.below(lab.lans.len() as u64) as usize;
    let ends = lab.lans[lan].clone();
    let one_of = |dice: &mut Dice| ends[dice.below(ends.len() as u64) as usize];
    let (u, v, is_up) = (
        one_of(&mut lab.dice),
        one_of(&mut lab.dice),
        lab.dice.chance(40),
    );
    if lab.dice.chance(70) {
        lab.set_apart(lan, (u.0, v.0), !is_up);
    } else {
        lab.set_ends(&[u], is_up, false);
    }
}

/// No more is lost. After some time all routers reach each other. Links that are up stay so, as a new start of a link would
/// repair what is wrong. But a router that had the number of another one gets its place back only after a long time, or
/// once the link was down.
fn calm_down(lab: &mut Lab) {
    (lab.lost_percent, lab.late_percent) = (0, 0);
    lab.world.borrow_mut().refused_percent = 0;
    lab.apart.clear();
    let doubles = std::mem::take(&mut lab.doubles);
    for ends in lab.lans.clone() {
        if ends.iter().any(|it| doubles.contains_key(&it.0)) {
            lab.set_ends(&ends, false, false);
        }
        lab.set_ends(&ends, true, false);
    }
    for at in 0..lab.links.len() {
        let (u, v) = lab.links[at];
        if doubles.contains_key(&u.0) || doubles.contains_key(&v.0) {
            lab.set_link(at, false, false);
        }
        lab.set_link(at, true, false);
    }
    for router in lab.routers() {
        if !lab.machines.contains_key(&router) || doubles.contains_key(&router) {
            lab.start(router);
        }
    }
    lab.run(seconds(15));
    lab.expect_all_arrive();
}

/// How many storms there are. `REVROUTED_STORMS` can say another number.
fn storms() -> u64 {
    std::env::var("REVROUTED_STORMS")
        .ok()
        .and_then(|it| it.parse().ok())
        .unwrap_or(20)
}

#[test]
fn no_storm_makes_a_loop() {
    for seed in 0..storms() {
        println!("seed {seed}");
        let checks = storm(Lab::new(&LINKS, seed));
        assert!(checks > 100, "{checks}");
    }
}

#[test]
fn no_storm_on_lans_makes_a_loop() {
    for seed in 0..storms() {
        println!("seed {seed}");
        let checks = storm(Lab::with_lans(&[(0, 2)], &LANS, seed));
        assert!(checks > 100, "{checks}");
    }
}

/// Each datagram is on its way for 3 ms, and each router writes for 20 ms before it speaks.
#[test]
fn the_round_trip_is_without_the_waits_of_both_ends() {
    let (way, writes) = (Duration::from_millis(3), Duration::from_millis(20));
    let mut lab = Lab::new(&[(0, 1)], 20);
    lab.start_all();
    for router in [0, 1].repeat(30) {
        let (begun, clock) = (lab.now, Cell::new(lab.now));
        let machine = lab.machines.get_mut(&router).unwrap();
        machine.turn(|| clock.replace(begun + writes));
        let said = std::mem::take(&mut machine.outbox);
        lab.now += writes + way;
        for (device, data) in said {
            let other = lab.machines.get_mut(&(1 - router)).unwrap();
            other.take(device, address(router, device), &data, lab.now);
        }
    }
    for machine in lab.machines.values() {
        let views = machine.neighbour_views(lab.now);
        assert_eq!(views[0].round_trip_seconds, Some(0.006));
        assert!(neighbours_text(&views).contains("  6.0 ms  "));
        let line = format!(
            "\nrevrouted_round_trip_seconds{{neighbour=\"{}\"}} 0.006000\n",
            views[0].router
        );
        assert!(machine.metrics(lab.now).contains(&line));
    }
}

/// Whoever hears something new acknowledges it in the same turn, and not when its next hello is due.
#[test]
fn nothing_is_said_twice_where_nothing_is_lost() {
    let (mut lab, other) = (Lab::new(&RING, 21), prefix("10.9.0.0/16"));
    lab.start_all();
    lab.run(seconds(3));
    for is_own in [true, false, true] {
        lab.announce(0, other, is_own);
        lab.run(seconds(3));
    }
    for (router, machine) in &lab.machines {
        assert_eq!(machine.counts.datagrams_unanswered, 0, "{router}");
    }
}

#[test]
fn a_hold_ends() {
    let mut lab = Lab::new(&RING, 10);
    lab.start_all();
    assert!(LONGEST_DEAD < HOLD);
    lab.run(seconds(1));
    assert!(
        lab.world
            .borrow()
            .tables
            .values()
            .all(|it| it.hold.is_empty())
    );
}
