//! The form of datagrams.
//!
//! Numbers have their highest byte first.
//!
//! ```text
//! all      0 to 1    the letters RH (52 48) of a hello, or RN (52 4e) of news
//!          2         the number of the key with which it is sealed; 0 without a key
//!          3 to 4    the hold time in units of 10 milliseconds: a sender that is silent for so long is gone
//!          5 to 8    the router that sends it
//!          9 to 12   its session, a number that grows at each start
//!          13 to 16  a random number of its process
//!          17 to 24  the number of the datagram: of hellos on one device, with a random number of that device in the
//!                    upper half; or of news to one neighbour
//! hello    25 to 30  the hardware address of the sender's device, by which its packets are known; 0 if it has none
//!          31        how many routers the sender hears on this link
//!          32..      for each of them: its session (4) and the random number of its process (4). A router knows itself by
//!                    these two, so its number is not there.
//!                    Then, for each router that the sender knows by a number with which another process says something
//!                    on this link: that number (4), the session (4) and the random number (4) of the router that is known
//! news     25 to 28  the router that it is for
//!          29 to 36  the session and the random number of that router
//!          37 to 44  the greatest number of its news that arrived
//!          45 to 52  which of the 64 numbers before that one arrived, the highest number in the lowest bit
//!          53 to 56  for how many microseconds the sender has had the greatest number
//!          57        flags: 1 if the list of the sender's prefixes has arrived, 2 if it has to be acknowledged
//!          58..      records: flags (1), the length of a prefix (1), as many of its bytes as the length needs, and
//!                    the message of a node if the flag 1 is set. The flag 2 is set for IPv6, 4 if the sender has left
//!                    the prefix, and 8 if it knows a router that announces it
//! the end            16 bytes of HMAC-SHA256 over all before them, if the number of the key is not 0
//! ```
//!
//! Datagrams of an earlier form begin with RRD. They are ignored, as those of strangers are.

use crate::prefix::Prefix;
use hmac::{Hmac, Mac as _};
use revroute::MESSAGE_LENGTH;
use sha2::Sha256;
use std::net::{IpAddr, Ipv4Addr, Ipv6Addr};
use std::time::Duration;

/// What fits into one packet on each link that IPv6 runs on (1,280 bytes), beside the headers of IPv6 and UDP.
pub const MOST_BYTES: usize = 1232;
const HELLO: [u8; 2] = *b"RH";
const NEWS: [u8; 2] = *b"RN";
const KEY_AT: usize = 2;
const HEAD: usize = 25;
const HELLO_HEAD: usize = 32;
const FLAGS_AT: usize = 57;
const NEWS_HEAD: usize = 58;
const START: usize = 8;
const PEER: usize = 12;
const SEAL: usize = 16;
const IS_COMPLETE: u8 = 1;
const WANTS_ANSWER: u8 = 2;
const HAS_MESSAGE: u8 = 1;
const IS_IPV6: u8 = 2;
const HAS_LEFT: u8 = 4;
const IS_ALIVE: u8 = 8;
const HOLD_UNIT: u64 = 10;
/// The most routers that a hello lists as heard, and the most that it lists as known. No link has more.
pub const MOST_HEARD: usize = 59;
const _: () = assert!(HELLO_HEAD + MOST_HEARD * (START + PEER) + SEAL <= MOST_BYTES);

/// A hardware address of Ethernet.
pub type Mac = [u8; 6];

/// A key, by which routers know that a datagram is from one of them.
#[derive(Clone, PartialEq, Eq)]
pub struct Key {
    /// Not 0.
    pub number: u8,
    pub secret: Vec<u8>,
}

/// The keys of a router. It seals by the first one, and takes what is sealed by any of them. Without keys it takes only
/// what is not sealed.
pub type Keys = [Key];

/// One start of a router.
#[derive(Clone, Copy, Debug, PartialEq, Eq)]
pub struct Start {
    /// Greater than that of each earlier start of the router.
    pub session: u32,
    /// A random number, by which two processes are told apart that have one number and one session by mistake.
    pub process: u32,
}

/// A router, and its start that is known.
#[derive(Clone, Copy, Debug, PartialEq, Eq)]
pub struct Peer {
    pub router: u32,
    pub start: Start,
}

/// What each datagram begins with.
#[derive(Clone, Copy, Debug, PartialEq, Eq)]
pub struct Head {
    pub from: u32,
    pub start: Start,
    pub number: u64,
    pub hold: Duration,
}

/// What arrived at the sender of news.
#[derive(Clone, Copy, Debug, Default, PartialEq, Eq)]
pub struct Arrived {
    /// The greatest number, or 0.
    pub greatest: u64,
    /// The numbers before it: bit i is the number `greatest - 1 - i`.
    pub before: u64,
}

/// What news are about, beside their records.
#[derive(Clone, Copy, Debug, PartialEq, Eq)]
pub struct Address {
    pub to: Peer,
    pub arrived: Arrived,
    /// For how long the sender has had the greatest number that arrived.
    pub waited: Duration,
    /// Whether the list of the prefixes that the sender knew has arrived at the receiver.
    pub is_complete: bool,
    /// Whether it has to be acknowledged.
    pub wants_answer: bool,
}

/// A record of news: a prefix, and what the sender says of it.
#[derive(Clone, Copy, Debug, PartialEq, Eq)]
pub struct Record<'a> {
    pub prefix: Prefix,
    pub says: Says<'a>,
}

#[derive(Clone, Copy, Debug, PartialEq, Eq)]
pub enum Says<'a> {
    /// It knows that there is the prefix.
    Name,
    /// What its node says, and whether it knows a router that announces the prefix.
    Message(&'a [u8], bool),
    /// It has no ways to the prefix, and will forget it.
    Left,
}

/// What a hello has besides its head.
#[derive(Debug, PartialEq, Eq)]
pub struct Hello {
    pub mac: Option<Mac>,
    /// The starts of the routers that are heard.
    pub heard: Vec<Start>,
    /// Routers that are known by numbers with which other processes say something.
    pub known: Vec<Peer>,
}

#[derive(Debug, PartialEq, Eq)]
pub enum Body<'a> {
    Hello(Hello),
    News(Address, Vec<Record<'a>>),
}

/// Whom a datagram is for, before its seal is looked at: `None` for all.
pub fn receiver(data: &[u8]) -> Option<u32> {
    data.starts_with(&NEWS).then(|| number(data, HEAD))?
}

/// Reads a datagram that was sealed by one of the keys. `None` if anything is wrong with it. It takes memory only after
/// the seal was right.
pub fn read<'a>(data: &'a [u8], keys: &Keys) -> Option<(Head, Body<'a>)> {
    let letters = array(data, 0)?;
    if ![HELLO, NEWS].contains(&letters) {
        return None;
    }
    let data = unsealed(data, keys)?;
    let hold = u16::from_be_bytes(array(data, 3)?);
    let head = Head {
        from: number(data, 5)?,
        start: start(data, 9)?,
        number: u64::from_be_bytes(array(data, 17)?),
        hold: Duration::from_millis(u64::from(hold) * HOLD_UNIT),
    };
    let body = if letters == HELLO {
        Body::Hello(hello_in(data)?)
    } else {
        Body::News(address_in(data)?, records_in(data.get(NEWS_HEAD..)?)?)
    };
    Some((head, body))
}

/// The bytes before the seal, if that is right.
fn unsealed<'a>(data: &'a [u8], keys: &Keys) -> Option<&'a [u8]> {
    if data.len() > MOST_BYTES || data.len() < HEAD {
        return None;
    }
    let number = data[KEY_AT];
    if keys.is_empty() || number == 0 {
        return (keys.is_empty() && number == 0).then_some(data);
    }
    let key = keys.iter().find(|it| it.number == number)?;
    let (content, seal) = data.split_at(data.len().checked_sub(SEAL)?);
    made_seal(key, content)?.verify_truncated_left(seal).ok()?;
    Some(content)
}

fn made_seal(key: &Key, content: &[u8]) -> Option<Hmac<Sha256>> {
    let mut made = Hmac::<Sha256>::new_from_slice(&key.secret).ok()?;
    made.update(content);
    Some(made)
}

fn array<const N: usize>(data: &[u8], at: usize) -> Option<[u8; N]> {
    data.get(at..at + N)?.try_into().ok()
}

fn number(data: &[u8], at: usize) -> Option<u32> {
    Some(u32::from_be_bytes(array(data, at)?))
}

fn start(data: &[u8], at: usize) -> Option<Start> {
    Some(Start {
        session: number(data, at)?,
        process: number(data, at + 4)?,
    })
}

fn peer(data: &[u8], at: usize) -> Option<Peer> {
    Some(Peer {
        router: number(data, at)?,
        start: start(data, at + 4)?,
    })
}

fn hello_in(data: &[u8]) -> Option<Hello> {
    let mac = Some(array(data, HEAD)?).filter(|it| *it != Mac::default());
    let count = usize::from(*data.get(HELLO_HEAD - 1)?);
    let (heard, known) = split(data.get(HELLO_HEAD..)?, count * START)?;
    // If the end of the list is cut, its last entry cannot be read.
    let heard = heard.chunks(START).map(|it| start(it, 0));
    let known = known.chunks(PEER).map(|it| peer(it, 0));
    Some(Hello {
        mac,
        heard: heard.collect::<Option<_>>()?,
        known: known.collect::<Option<_>>()?,
    })
}

fn address_in(data: &[u8]) -> Option<Address> {
    let flags = *data.get(FLAGS_AT)?;
    Some(Address {
        to: peer(data, HEAD)?,
        arrived: Arrived {
            greatest: u64::from_be_bytes(array(data, 37)?),
            before: u64::from_be_bytes(array(data, 45)?),
        },
        waited: Duration::from_micros(number(data, 53)?.into()),
        is_complete: flags & IS_COMPLETE != 0,
        wants_answer: flags & WANTS_ANSWER != 0,
    })
}

fn records_in(mut data: &[u8]) -> Option<Vec<Record<'_>>> {
    let mut found = Vec::new();
    while !data.is_empty() {
        let (record, rest) = record_in(data)?;
        found.push(record);
        data = rest;
    }
    Some(found)
}

fn record_in(data: &[u8]) -> Option<(Record<'_>, &[u8])> {
    let (flags, length) = (*data.first()?, *data.get(1)?);
    if flags & !(HAS_MESSAGE | IS_IPV6 | HAS_LEFT | IS_ALIVE) != 0 {
        return None;
    }
    let (bytes, rest) = split(&data[2..], usize::from(length.div_ceil(8)))?;
    let prefix = Prefix::new(address_of(bytes, flags & IS_IPV6 != 0)?, length)?;
    let is_alive = flags & IS_ALIVE != 0;
    let (says, rest) = match flags & (HAS_MESSAGE | HAS_LEFT) {
        0 if !is_alive => (Says::Name, rest),
        HAS_LEFT if !is_alive => (Says::Left, rest),
        HAS_MESSAGE => {
            let (message, rest) = split(rest, MESSAGE_LENGTH)?;
            (Says::Message(message, is_alive), rest)
        }
        _ => return None,
    };
    prefix
        .is_routable()
        .then_some((Record { prefix, says }, rest))
}

fn split(data: &[u8], at: usize) -> Option<(&[u8], &[u8])> {
    (at <= data.len()).then(|| data.split_at(at))
}

/// The address that begins with these bytes.
fn address_of(bytes: &[u8], is_ipv6: bool) -> Option<IpAddr> {
    let mut all = [0; 16];
    all.get_mut(..bytes.len())?.copy_from_slice(bytes);
    if is_ipv6 {
        return Some(Ipv6Addr::from(all).into());
    }
    let [a, b, c, d, ..] = all;
    (bytes.len() <= 4).then(|| Ipv4Addr::new(a, b, c, d).into())
}

/// A hello, as bytes.
pub fn hello(head: Head, said: &Hello, keys: &Keys) -> Vec<u8> {
    let heard = &said.heard[..said.heard.len().min(MOST_HEARD)];
    let mut data = begun(HELLO, head, keys);
    data.extend_from_slice(&said.mac.unwrap_or_default());
    data.push(heard.len() as u8);
    for it in heard {
        push_start(&mut data, *it);
    }
    for it in said.known.iter().take(MOST_HEARD) {
        push_peer(&mut data, *it);
    }
    sealed(data, keys)
}

fn push_start(data: &mut Vec<u8>, it: Start) {
    data.extend_from_slice(&it.session.to_be_bytes());
    data.extend_from_slice(&it.process.to_be_bytes());
}

fn push_peer(data: &mut Vec<u8>, it: Peer) {
    data.extend_from_slice(&it.router.to_be_bytes());
    push_start(data, it.start);
}

/// News, to which records are added as long as there is space for them.
pub struct News {
    data: Vec<u8>,
}

impl News {
    pub fn new(head: Head, address: Address, keys: &Keys) -> News {
        let mut data = begun(NEWS, head, keys);
        push_peer(&mut data, address.to);
        data.extend_from_slice(&address.arrived.greatest.to_be_bytes());
        data.extend_from_slice(&address.arrived.before.to_be_bytes());
        let waited = u32::try_from(address.waited.as_micros()).unwrap_or(u32::MAX);
        data.extend_from_slice(&waited.to_be_bytes());
        data.push(if address.is_complete { IS_COMPLETE } else { 0 });
        News { data }
    }

    /// Whether there is space for one record more.
    pub fn has_space(&self) -> bool {
        self.data.len() + 2 + 16 + MESSAGE_LENGTH + SEAL <= MOST_BYTES
    }

    pub fn push(&mut self, record: Record<'_>) {
        let flags = match record.says {
            Says::Name => 0,
            Says::Left => HAS_LEFT,
            Says::Message(_, false) => HAS_MESSAGE,
            Says::Message(_, true) => HAS_MESSAGE | IS_ALIVE,
        };
        let length = record.prefix.length();
        let bytes = usize::from(length.div_ceil(8));
        match record.prefix.address() {
            IpAddr::V4(it) => {
                self.data.extend_from_slice(&[flags, length]);
                self.data.extend_from_slice(&it.octets()[..bytes]);
            }
            IpAddr::V6(it) => {
                self.data.extend_from_slice(&[flags | IS_IPV6, length]);
                self.data.extend_from_slice(&it.octets()[..bytes]);
            }
        }
        if let Says::Message(it, _) = record.says {
            self.data.extend_from_slice(it);
        }
    }

    /// The bytes. Only now it is known whether they have to be acknowledged.
    pub fn sealed(mut self, wants_answer: bool, keys: &Keys) -> Vec<u8> {
        if wants_answer {
            self.data[FLAGS_AT] |= WANTS_ANSWER;
        }
        sealed(self.data, keys)
    }
}

fn begun(letters: [u8; 2], head: Head, keys: &Keys) -> Vec<u8> {
    let key = keys.first().map_or(0, |it| it.number);
    let units = head.hold.as_millis() / u128::from(HOLD_UNIT);
    let hold = u16::try_from(units).unwrap_or(u16::MAX);
    let mut data = Vec::with_capacity(MOST_BYTES);
    data.extend_from_slice(&letters);
    data.push(key);
    data.extend_from_slice(&hold.to_be_bytes());
    data.extend_from_slice(&head.from.to_be_bytes());
    push_start(&mut data, head.start);
    data.extend_from_slice(&head.number.to_be_bytes());
    data
}

pub fn sealed(mut data: Vec<u8>, keys: &Keys) -> Vec<u8> {
    if let Some(made) = keys.first().and_then(|it| made_seal(it, &data)) {
        data.extend_from_slice(&made.finalize().into_bytes()[..SEAL]);
    }
    data
}

impl Arrived {
    /// Whether a number is among those that arrived.
    pub fn has(&self, number: u64) -> bool {
        match self.greatest.checked_sub(number) {
            None => false,
            Some(0) => number > 0,
            Some(by) => by <= 64 && self.before >> (by - 1) & 1 == 1,
        }
    }

    /// Whether a number is so low that it is not known whether it arrived.
    pub fn is_past(&self, number: u64) -> bool {
        number == 0 || self.greatest.saturating_sub(number) > 64
    }

    /// Notes that a number arrived that is not past.
    pub fn add(&mut self, number: u64) {
        if let Some(by) = number.checked_sub(self.greatest).filter(|it| *it > 0) {
            let moved = self
                .before
                .checked_shl(u32::try_from(by).unwrap_or(u32::MAX))
                .unwrap_or(0);
            let own = if self.greatest > 0 && by <= 64 {
                1 << (by - 1)
            } else {
                0
            };
            self.before = moved | own;
            self.greatest = number;
        } else if let Some(by) = self
            .greatest
            .checked_sub(number)
            .filter(|it| (1..=64).contains(it))
        {
            self.before |= 1 << (by - 1);
        }
    }
}

#[cfg(test)]
mod tests;
