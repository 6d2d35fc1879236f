//! Datagrams and configurations that are wrong: cut, extended, flipped, repeated, sealed by strangers, or heard before.
//!
//! A short run is part of the tests. `REVROUTED_FUZZ` says how many datagrams a run tries, and `REVROUTED_SEED` repeats a
//! run. Memory is counted for each thread: what the tests beside this one take does not matter.

use crate::datagram::{self, Key};
use crate::kernel::{Kernel, Refusal, Write};
use crate::machine::{Counts, LONGEST_DEAD, MOST_NEIGHBOURS, MOST_PREFIXES, Machine, Settings};
use crate::prefix::Prefix;
use crate::tests::{Dice, settings};
use revroute::MESSAGE_LENGTH;
use std::alloc::{GlobalAlloc, Layout, System};
use std::cell::Cell;
use std::collections::BTreeSet;
use std::net::Ipv6Addr;
use std::time::{Duration, SystemTime, UNIX_EPOCH};

const STEP: Duration = Duration::from_millis(20);
const DEVICE: u32 = 1;
const OTHER_DEVICE: u32 = 2;
/// The session of the neighbour that is recorded last.
const SESSION: u32 = 4;
/// So many datagrams come to one pair of routers, and so many at once.
const ROUND: u64 = 4000;
const BURST: u64 = 50;
/// The most memory that the process may take beyond what it took after the first rounds of a long run.
const MOST_GROWTH: u64 = 8 << 20;
const FIRST_ROUNDS: u64 = 200;
const LONG: u64 = 1_000_000;
/// A text takes much longer than a datagram.
const MOST_TEXTS: u64 = 200_000;
/// The parts of a datagram, as datagram.rs has them.
const HELLO: &[u8] = b"RH";
const KEY_AT: usize = 2;
const NUMBER_AT: usize = 17;
const HEAD: usize = 25;
const HELLO_HEAD: usize = 32;
const NEWS_HEAD: usize = 58;
const START: usize = 8;
const SEAL: usize = 16;
/// Where there are numbers, and their lengths.
const NUMBERS: [(usize, usize); 7] = [(9, 4), (13, 4), (17, 8), (29, 4), (33, 4), (37, 8), (45, 8)];

/// Counts what each thread takes.
struct Counting;

thread_local! {
    static TAKEN: Cell<(u64, i64)> = const { Cell::new((0, 0)) };
}

fn count(times: u64, bytes: i64) {
    // A thread that ends has no count any more.
    let _ = TAKEN.try_with(|it| it.set((it.get().0 + times, it.get().1 + bytes)));
}

/// How often this thread has taken memory, and how many bytes it holds.
fn taken() -> (u64, i64) {
    TAKEN.with(Cell::get)
}

// SAFETY: the allocator of the system does all the work.
#[allow(unsafe_code)]
unsafe impl GlobalAlloc for Counting {
    unsafe fn alloc(&self, layout: Layout) -> *mut u8 {
        count(1, layout.size() as i64);
        // SAFETY: the caller keeps the rules of this call, which are the same.
        unsafe { System.alloc(layout) }
    }

    unsafe fn dealloc(&self, at: *mut u8, layout: Layout) {
        count(0, -(layout.size() as i64));
        // SAFETY: as above.
        unsafe { System.dealloc(at, layout) }
    }

    unsafe fn realloc(&self, at: *mut u8, layout: Layout, size: usize) -> *mut u8 {
        count(1, size as i64 - layout.size() as i64);
        // SAFETY: as above.
        unsafe { System.realloc(at, layout, size) }
    }
}

#[global_allocator]
static COUNTING: Counting = Counting;

/// The memory of the whole process, in bytes. The nodes are in the library, whose memory no thread counts.
fn resident() -> u64 {
    let said = std::fs::read_to_string("/proc/self/statm").unwrap_or_default();
    let pages = said.split(' ').nth(1).and_then(|it| it.parse::<u64>().ok());
    pages.unwrap_or(0) * 4096
}

fn said(name: &str) -> Option<u64> {
    std::env::var(name).ok()?.parse().ok()
}

fn datagrams() -> u64 {
    said("REVROUTED_FUZZ").unwrap_or(100_000)
}

/// The dice of a run, whose seed is printed.
fn dice() -> Dice {
    let clock = SystemTime::now().duration_since(UNIX_EPOCH);
    let seed = said("REVROUTED_SEED").unwrap_or(clock.map_or(0, |it| it.as_secs()));
    println!("REVROUTED_SEED={seed}");
    Dice(seed)
}

/// A kernel that does all, and keeps nothing.
struct Willing;

impl Kernel for Willing {
    fn write(&mut self, lines: &[Write]) -> Vec<Result<(), Refusal>> {
        lines.iter().map(|_| Ok(())).collect()
    }

    fn left_behind(&mut self) -> Result<Vec<Write>, Refusal> {
        Ok(Vec::new())
    }
}

fn key(number: u8, secret: &str) -> Key {
    Key {
        number,
        secret: secret.into(),
    }
}

fn keys() -> Vec<Key> {
    vec![key(1, "the first secret"), key(2, "the other secret")]
}

fn address(router: u32) -> Ipv6Addr {
    Ipv6Addr::new(0xfe80, 0, 0, 0, 0, 0, 0, router as u16)
}

fn announced(router: u32, dice: &mut Dice) -> BTreeSet<Prefix> {
    let mut all = BTreeSet::new();
    for it in 0..1 + dice.below(4) {
        let some = [
            format!("10.{router}.{it}.0/24"),
            format!("10.{router}.0.{it}"),
            format!("fd00:{router}:{it}::/48"),
            format!("10.{router}.0.0/16"),
            "::/0".into(),
        ];
        let one = &some[dice.below(some.len() as u64) as usize];
        all.extend(one.parse::<Prefix>());
    }
    all
}

fn settings_of(router: u32, dice: &mut Dice) -> Settings {
    Settings {
        keys: keys(),
        ..settings(router, announced(router, dice), Duration::from_secs(30))
    }
}

/// A router that starts, with its devices.
fn started(router: u32, session: u32, now: Duration, dice: &mut Dice) -> Machine<Willing> {
    let mut it =
        Machine::new(settings_of(router, dice), session, Willing, now).expect("nothing is refused");
    it.device_is(DEVICE, "eth1", None, true, now);
    it.device_is(OTHER_DEVICE, "eth2", None, true, now);
    it
}

/// A router that has a neighbour on one of its devices, and all that this neighbour said in two sessions. The router has
/// heard all of it.
struct Target {
    machine: Machine<Willing>,
    now: Duration,
    past: Vec<Vec<u8>>,
    present: Vec<Vec<u8>>,
    /// The number of the last datagram that an insider made.
    number: u64,
}

impl Target {
    fn new(dice: &mut Dice) -> Target {
        let now = Duration::from_secs(100);
        let mut it = Target {
            machine: started(1, 7, now, dice),
            now,
            past: Vec::new(),
            present: Vec::new(),
            number: 1000,
        };
        for session in [SESSION - 1, SESSION] {
            it.past = std::mem::take(&mut it.present);
            let mut other = started(2, session, it.now, dice);
            for _ in 0..12 {
                it.exchange(&mut other);
                if dice.chance(15) {
                    other.configure(settings_of(2, dice), it.now);
                }
            }
        }
        it.machine.outbox.clear();
        it.machine.counts = Counts::default();
        assert!(it.machine.neighbours[&2].is_up && !it.past.is_empty() && it.present.len() > 4);
        it
    }

    fn exchange(&mut self, other: &mut Machine<Willing>) {
        self.now += STEP;
        other.turn(|| self.now);
        for (device, data) in std::mem::take(&mut other.outbox) {
            if device == DEVICE {
                self.machine.take(DEVICE, address(2), &data, self.now);
                self.present.push(data);
            }
        }
        self.turn();
        for (device, data) in std::mem::take(&mut self.machine.outbox) {
            if device == DEVICE {
                other.take(DEVICE, address(1), &data, self.now);
            }
        }
    }

    fn accepted(&self) -> u64 {
        self.machine.counts.datagrams_received - self.machine.counts.datagrams_ignored
    }

    fn turn(&mut self) {
        self.machine.turn(|| self.now);
        // The daemon would start again. Here the same process goes on.
        self.machine.later_session = None;
    }

    /// What the router knows and wants, apart from counts.
    fn state(&self) -> String {
        let it = &self.machine;
        let mut text = format!(
            "{:?} {} {} {} {:?}",
            it.next_time(),
            it.journal.count(),
            it.changed.len(),
            it.outbox.len(),
            it.later_session
        );
        for (number, it) in &it.neighbours {
            let links = it.links.iter().map(|(device, it)| {
                let said = (it.is_heard, it.hears_me, it.is_up, it.until);
                (*device, it.address, said)
            });
            let links: Vec<_> = links.collect();
            let news = (it.news.pending(), it.news.arrived(), it.news.is_due());
            text += &format!("\n{number} {:?} {links:?} {news:?}", it.start);
        }
        for (prefix, it) in &it.destinations {
            let links: Vec<_> = it.links.iter().map(|it| (it.is_up, it.number)).collect();
            let node = (it.node.height(), it.node.distance(), it.is_written);
            text += &format!("\n{prefix} {node:?} {links:?}");
        }
        text
    }

    /// Whether the session that was recorded is still the one that is known. An insider may begin a later one.
    fn is_present(&self) -> bool {
        self.machine.neighbours[&2].start.session == SESSION
    }

    /// A burst of datagrams, each of which the router has to ignore. It takes memory for none that has a wrong seal, and
    /// keeps none for what was heard before.
    fn bear_strangers(&mut self, dice: &mut Dice) {
        let is_replay = self.is_present() && dice.chance(20);
        let all: Vec<(u32, Ipv6Addr, Vec<u8>)> = (0..BURST)
            .map(|_| self.of_stranger(is_replay, dice))
            .collect();
        let (before, ignored) = (self.state(), self.machine.counts.datagrams_ignored);
        let (times, held) = taken();
        for (device, source, data) in &all {
            self.machine.take(*device, *source, data, self.now);
        }
        assert_eq!(taken().1, held, "a stranger's datagram is kept");
        assert!(
            is_replay || taken().0 == times,
            "a stranger's datagram takes memory"
        );
        assert_eq!(self.machine.counts.datagrams_ignored, ignored + BURST);
        assert_eq!(
            self.state(),
            before,
            "a stranger's datagram changes something"
        );
    }

    /// A datagram that no key of the router has sealed, or that was heard before, from anywhere.
    fn of_stranger(&self, is_replay: bool, dice: &mut Dice) -> (u32, Ipv6Addr, Vec<u8>) {
        let device = [DEVICE, OTHER_DEVICE][dice.below(2) as usize];
        let source = address(2 + dice.below(2) as u32);
        let original = one_of(&self.present, dice);
        if is_replay {
            return (device, source, original.clone());
        }
        let mut data = original[..original.len() - SEAL].to_vec();
        mutate(&mut data, dice);
        match dice.below(4) {
            0 => data = datagram::sealed(data, &[key(1, "the stranger's own")]),
            1 => data.extend_from_slice(&original[original.len() - SEAL..]),
            2 => data.extend((0..SEAL).map(|_| dice.below(256) as u8)),
            _ => (),
        }
        if data == *original {
            data[HEAD - 1] ^= 1;
        }
        (device, source, data)
    }

    /// A burst of datagrams with a right seal. Whatever they say, there is a limit to what they take.
    fn bear_insiders(&mut self, dice: &mut Dice) {
        for _ in 0..BURST {
            let some = if dice.chance(80) {
                &self.present
            } else {
                &self.past
            };
            let original = one_of(some, dice);
            let mut data = original[..original.len() - SEAL].to_vec();
            if dice.chance(80) {
                // otherwise it would be a replay
                self.number += 1 + dice.below(3);
                data[NUMBER_AT..HEAD].copy_from_slice(&self.number.to_be_bytes());
            }
            if dice.chance(80) {
                mutate(&mut data, dice);
            }
            let seal = &keys()[dice.below(2) as usize..];
            if data.len() > KEY_AT {
                data[KEY_AT] = seal[0].number;
            }
            let device = [DEVICE, OTHER_DEVICE][usize::from(dice.chance(5))];
            self.machine
                .take(device, address(2), &datagram::sealed(data, seal), self.now);
        }
        self.now += Duration::from_millis(dice.below(30));
        self.turn();
        self.machine.outbox.clear();
        let it = &self.machine;
        assert!(it.destinations.len() <= MOST_PREFIXES && it.neighbours.len() <= MOST_NEIGHBOURS);
    }
}

fn one_of<'a>(all: &'a [Vec<u8>], dice: &mut Dice) -> &'a Vec<u8> {
    &all[dice.below(all.len() as u64) as usize]
}

/// Where the entries of a datagram are: the routers of a hello, or the records of news.
fn entries(data: &[u8]) -> Vec<std::ops::Range<usize>> {
    let is_hello = data.starts_with(HELLO);
    let (mut all, mut at) = (Vec::new(), if is_hello { HELLO_HEAD } else { NEWS_HEAD });
    while at + 2 <= data.len() {
        let size = if is_hello {
            START
        } else {
            let message = if data[at] & 1 == 1 { MESSAGE_LENGTH } else { 0 };
            2 + usize::from(data[at + 1].div_ceil(8)) + message
        };
        all.push(at..(at + size).min(data.len()));
        at += size;
    }
    all
}

/// Changes some of a datagram: bits, bytes, numbers, lengths, its end, or how often an entry is there.
fn mutate(data: &mut Vec<u8>, dice: &mut Dice) {
    const EXTREMES: [u8; 8] = [0, 1, 32, 33, 127, 128, 129, 255];
    for _ in 0..=dice.below(4).saturating_sub(1) {
        let length = data.len() as u64;
        let at = dice.below(length + 1) as usize;
        let end = (at + dice.below(24) as usize).min(data.len());
        let entries = entries(data);
        match dice.below(8) {
            0 if at < data.len() => data[at] ^= 1 << dice.below(8),
            1 if at < data.len() => data[at] = EXTREMES[dice.below(8) as usize],
            2 => data.truncate(at),
            3 => data.extend((0..dice.below(40)).map(|_| dice.below(256) as u8)),
            4 => drop(data.drain(at..end)),
            5 => {
                let (place, length) = NUMBERS[dice.below(NUMBERS.len() as u64) as usize];
                if let Some(number) = data.get_mut(place..place + length) {
                    let value = [0, 1, u64::MAX, 1 << 63, dice.0][dice.below(5) as usize];
                    number.copy_from_slice(&value.to_be_bytes()[8 - length..]);
                }
            }
            6 if !entries.is_empty() => {
                let it = entries[dice.below(entries.len() as u64) as usize].clone();
                data[it.start + 1] = EXTREMES[dice.below(8) as usize];
            }
            _ if !entries.is_empty() => {
                let it = entries[dice.below(entries.len() as u64) as usize].clone();
                let part = data[it.clone()].repeat(1 + dice.below(60) as usize);
                data.splice(it.start..it.start, part);
            }
            _ => (),
        }
    }
}

#[test]
fn hostile_datagrams_do_no_harm() {
    let (mut dice, mut first, mut accepted) = (dice(), 0, 0);
    let (rounds, begun) = (datagrams().div_ceil(ROUND), std::time::Instant::now());
    for round in 0..rounds {
        let (_, held) = taken();
        let mut target = Target::new(&mut dice);
        for _ in 0..ROUND / BURST {
            if dice.chance(60) {
                target.bear_strangers(&mut dice);
            } else {
                target.bear_insiders(&mut dice);
            }
            if !target.is_present() && dice.chance(50) {
                accepted += target.accepted();
                target = Target::new(&mut dice);
            }
        }
        accepted += target.accepted();
        drop(target);
        assert_eq!(taken().1, held, "memory is not given back");
        if round == FIRST_ROUNDS {
            first = resident();
        }
        if round > FIRST_ROUNDS && datagrams() >= LONG {
            assert!(
                resident() <= first + MOST_GROWTH,
                "from {first} to {} bytes",
                resident()
            );
        }
    }
    // Those with a right seal are often right enough to be taken.
    assert!(accepted > rounds * ROUND / 50, "{accepted}");
    println!(
        "{} datagrams in {} s, {accepted} of them taken; {} KiB",
        rounds * ROUND,
        begun.elapsed().as_secs(),
        resident() / 1024
    );
}

/// A datagram of an earlier session may be from a process that was started with a number that went back. So the next
/// hello has what is known. Nothing else comes of it, however often it is sent.
#[test]
fn what_an_earlier_session_said_changes_nothing() {
    let mut dice = dice();
    for _ in 0..20 {
        let mut target = Target::new(&mut dice);
        let before = target.machine.journal.count();
        let mut held = 0;
        for round in 0..100 {
            let neighbours = target.machine.neighbour_views(target.now).len();
            for it in &target.past {
                target.machine.take(DEVICE, address(2), it, target.now);
            }
            assert_eq!(target.machine.neighbour_views(target.now).len(), neighbours);
            assert!(target.machine.changed.is_empty() && target.machine.outbox.is_empty());
            if round == 0 {
                held = taken().1;
            }
            assert!(taken().1 <= held, "it takes more and more");
        }
        assert_eq!(target.machine.journal.count(), before + 1);
    }
}

/// What one sender sends as fast as it can.
#[derive(Clone, Copy, Debug)]
enum Flood {
    Strangers,
    Replays,
    /// Hellos and news of a neighbour, with right seals and rising numbers.
    Neighbour,
}

/// So many datagrams come between two turns of the router, which is 50,000 in a second, for so many turns, which is 2 seconds.
const FLOOD: usize = 1000;
const TURNS: u64 = 100;
/// What the router may keep of a flood, in bytes.
const MOST_KEPT: i64 = 4096;

impl Target {
    fn flood(&self, kind: Flood, dice: &mut Dice) -> Vec<(u32, Ipv6Addr, Vec<u8>)> {
        let one = |dice: &mut Dice| match kind {
            Flood::Strangers => self.of_stranger(false, dice),
            Flood::Replays => self.of_stranger(true, dice),
            Flood::Neighbour => (DEVICE, address(2), one_of(&self.present, dice).clone()),
        };
        (0..FLOOD).map(|_| one(dice)).collect()
    }
}

/// Gives a datagram another number and the seal that it has to have then.
fn renumber(data: &mut Vec<u8>, number: u64) {
    data.truncate(data.len() - SEAL);
    data[NUMBER_AT..HEAD].copy_from_slice(&number.to_be_bytes());
    *data = datagram::sealed(std::mem::take(data), &keys());
}

/// A router and its neighbour, and what that has said since the link is up. What it said before is not what it says now.
fn recorded_pair(dice: &mut Dice) -> (Target, Machine<Willing>) {
    let mut target = Target::new(dice);
    let mut other = started(2, SESSION + 1, target.now, dice);
    for it in 0..2 * TURNS {
        if it == TURNS {
            target.present.clear();
        }
        if it % 20 == 10 {
            other.configure(settings_of(2, dice), target.now);
        }
        target.exchange(&mut other);
    }
    (target, other)
}

/// Whether a router is up at its neighbour, whose last hello came in time.
fn expect_in_time(it: &Machine<Willing>, neighbour: u32, now: Duration, kind: Flood) {
    let (link, settings) = (&it.neighbours[&neighbour].links[&DEVICE], &it.settings);
    let since = now + settings.dead - link.until;
    let is_in_time = since <= settings.hello + 2 * STEP;
    assert!(link.is_up && is_in_time, "{kind:?}: {since:?}");
}

/// Between the datagrams of the flood, the neighbour says what it always says. It stays up at both ends, and the hellos of
/// both come in time.
fn bear_flood(kind: Flood, dice: &mut Dice) {
    let (mut target, mut other) = recorded_pair(dice);
    let recorded = target.present.len();
    target.present.reserve(FLOOD);
    let mut flood = target.flood(kind, dice);
    let (held, events, mut number) = (taken().1, target.machine.journal.count(), 1 << 40);
    for _ in 0..TURNS {
        for (device, source, data) in &mut flood {
            if matches!(kind, Flood::Neighbour) {
                number += 1;
                renumber(data, number);
            }
            target.machine.take(*device, *source, data, target.now);
        }
        target.exchange(&mut other);
        target.present.truncate(recorded);
        expect_in_time(&target.machine, 2, target.now, kind);
        expect_in_time(&other, 1, target.now, kind);
    }
    let (kept, counts) = (taken().1 - held, target.machine.counts);
    assert!(kept <= MOST_KEPT, "{kind:?}: {kept} bytes are kept");
    assert_eq!(target.machine.journal.count(), events, "{kind:?}");
    let is_ignored = counts.datagrams_ignored >= FLOOD as u64 * TURNS;
    assert!(is_ignored || matches!(kind, Flood::Neighbour), "{kind:?}");
}

#[test]
fn a_flood_takes_no_memory_and_holds_up_no_hello() {
    let mut dice = dice();
    for kind in [Flood::Strangers, Flood::Replays, Flood::Neighbour] {
        bear_flood(kind, &mut dice);
    }
}

#[test]
fn hostile_configurations_are_read_or_refused() {
    let text = "router = 3\ninterfaces = [\"eth*\"]\nannounce = [\"10.0.3.0/24\", \"fd00::/48\"]\nhello = 1.0\ndead = 4.0\n\
                forget = 60.0\nceiling = 64\ntable = 254\n[[key]]\nnumber = 1\nsecret = \"0123456789abcdef\"\n\
                [interface.eth1]\ncost = 3\n";
    let (mut dice, mut refused, mut read) = (dice(), 0, 0);
    for _ in 0..(datagrams() / 20).min(MOST_TEXTS) {
        let (_, held) = taken();
        let mut data = text.as_bytes().to_vec();
        mutate(&mut data, &mut dice);
        match crate::config::read(&String::from_utf8_lossy(&data)) {
            Ok((_, it)) => {
                assert!(it.hello >= Duration::from_millis(20) && it.dead <= LONGEST_DEAD);
                assert!(it.dead >= it.hello * 2);
                read += 1;
            }
            Err(_) => refused += 1,
        }
        drop(data);
        assert_eq!(taken().1, held, "memory is not given back");
    }
    println!("{read} configurations read, {refused} refused");
    assert!(refused > 0 && read > 0);
}
