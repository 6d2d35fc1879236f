//! The messages by which the daemon asks the kernel for something, byte by byte.

use crate::kernel::Write;
use crate::machine::SENDERS;
use crate::prefix::Prefix;
use std::net::{IpAddr, Ipv4Addr, Ipv6Addr};

/// The kernel marks by this number what the daemon has made. 76 is that of the example daemon for one destination, whose
/// routes this one leaves alone.
pub const PROTOCOL: u8 = 77;
/// The metric of a way at place 0. Routes of other daemons have 20, 100 or 1024, so they are not in the way of the ways.
pub const WAYS: u32 = 40;
/// The metric of the last route of a prefix, in the table of the ways and in those of gates.
pub const LAST: u32 = 4_000_000;
/// The metric of an open gate.
pub const OPEN: u32 = 1;
/// The metric of the route that drops all while the lists of neighbours have not come.
pub const HELD: u32 = 4_100_000;
/// The preference of the rules for gates: before all but the table of local addresses, unless somebody chose less.
const RULE: u32 = 77;
/// Those for senders come before them: to look up in the table of a sender, and then to go past the rule of its device.
const SENDER_RULE: u32 = 75;
const SKIP_RULE: u32 = 76;
const END_RULE: u32 = 78;

const REQUEST: u16 = 1;
pub const ACK: u16 = 4;
const REPLACE: u16 = 0x100;
pub const EXCLUSIVE: u16 = 0x200;
pub const CREATE: u16 = 0x400;
/// Something that must not be there yet.
const FRESH: u16 = CREATE | EXCLUSIVE;
pub const DUMP: u16 = 0x300;
const TO_TABLE: u8 = 1;
pub const GO_TO: u8 = 2;
pub const DO_NOTHING: u8 = 3;
pub const NHA_ID: u16 = 1;
const NHA_OIF: u16 = 5;
const NHA_GATEWAY: u16 = 6;
const RTM_NEWNEXTHOP: u16 = 104;
const RTM_DELNEXTHOP: u16 = 105;
pub const RTM_GETNEXTHOP: u16 = 106;
const RTA_NH_ID: u16 = 30;
pub const FRA_IIFNAME: u16 = 3;
const FRA_GOTO: u16 = 4;
const FRA_PRIORITY: u16 = 6;
pub const FRA_FWMARK: u16 = 10;
pub const FRA_TABLE: u16 = 15;
const FRA_FWMASK: u16 = 16;
pub const FRA_PROTOCOL: u16 = 21;

/// A message that is being written.
pub struct Message(Vec<u8>);

pub fn push_attribute(data: &mut Vec<u8>, kind: u16, value: &[u8]) {
    data.extend_from_slice(&(4 + value.len() as u16).to_ne_bytes());
    data.extend_from_slice(&kind.to_ne_bytes());
    data.extend_from_slice(value);
    data.resize(data.len().next_multiple_of(4), 0);
}

impl Message {
    pub fn new(kind: u16, flags: u16, number: u32) -> Message {
        let mut data = Vec::with_capacity(128);
        data.extend_from_slice(&[0; 4]);
        data.extend_from_slice(&kind.to_ne_bytes());
        data.extend_from_slice(&(flags | REQUEST).to_ne_bytes());
        data.extend_from_slice(&number.to_ne_bytes());
        data.extend_from_slice(&[0; 4]);
        Message(data)
    }

    pub fn bytes(mut self, bytes: &[u8]) -> Message {
        self.0.extend_from_slice(bytes);
        self
    }

    fn attribute(mut self, kind: u16, value: &[u8]) -> Message {
        push_attribute(&mut self.0, kind, value);
        self
    }

    fn word(self, kind: u16, value: u32) -> Message {
        self.attribute(kind, &value.to_ne_bytes())
    }

    pub fn ended(mut self) -> Vec<u8> {
        let length = self.0.len() as u32;
        self.0[..4].copy_from_slice(&length.to_ne_bytes());
        self.0
    }
}

pub fn family(is_ipv6: bool) -> u8 {
    if is_ipv6 {
        libc::AF_INET6 as u8
    } else {
        libc::AF_INET as u8
    }
}

/// A route to be made or deleted. The kind is one of the numbers RTN_ of the kernel.
#[derive(Clone, Copy)]
struct Route {
    table: u32,
    prefix: Prefix,
    kind: u8,
    metric: u32,
    hop: Option<u32>,
}

impl Route {
    fn message(&self, flags: u16, is_new: bool, number: u32) -> Vec<u8> {
        let (kind, flags) = if is_new {
            (libc::RTM_NEWROUTE, flags)
        } else {
            (libc::RTM_DELROUTE, 0)
        };
        let scope = if is_new {
            libc::RT_SCOPE_UNIVERSE
        } else {
            libc::RT_SCOPE_NOWHERE
        };
        let head = [
            family(self.prefix.is_ipv6()),
            self.prefix.length(),
            0,
            0,
            0,
            PROTOCOL,
            scope,
            self.kind,
            0,
            0,
            0,
            0,
        ];
        let message = Message::new(kind, flags | ACK, number)
            .bytes(&head)
            .word(libc::RTA_TABLE, self.table);
        let message = match self.prefix.address() {
            IpAddr::V4(it) => message.attribute(libc::RTA_DST, &it.octets()),
            IpAddr::V6(it) => message.attribute(libc::RTA_DST, &it.octets()),
        };
        let message = message.word(libc::RTA_PRIORITY, self.metric);
        match self.hop {
            Some(it) => message.word(RTA_NH_ID, it).ended(),
            None => message.ended(),
        }
    }
}

/// What a rule does.
enum Rule<'a> {
    /// Looks up in a table what comes in by a device, if it has the mark of this table and that is one of a sender.
    Gates(u32, &'a str),
    /// Goes past the rule of the device, if that is what the table of the sender lets in.
    Skip(u32, &'a str),
    End,
}

impl Rule<'_> {
    fn action(&self) -> u8 {
        match self {
            Rule::Gates(..) => TO_TABLE,
            Rule::Skip(..) => GO_TO,
            Rule::End => DO_NOTHING,
        }
    }

    fn message(&self, is_ipv6: bool, is_new: bool, number: u32) -> Vec<u8> {
        let (kind, flags) = if is_new {
            (libc::RTM_NEWRULE, CREATE | EXCLUSIVE)
        } else {
            (libc::RTM_DELRULE, 0)
        };
        let mut head = [0; 12];
        (head[0], head[7]) = (family(is_ipv6), self.action());
        let mut it = Message::new(kind, flags | ACK, number).bytes(&head);
        it = match *self {
            Rule::Gates(table, _) if table > SENDERS => {
                it.word(FRA_TABLE, table).word(FRA_PRIORITY, SENDER_RULE)
            }
            Rule::Gates(table, _) => it.word(FRA_TABLE, table).word(FRA_PRIORITY, RULE),
            Rule::Skip(..) => it.word(FRA_GOTO, END_RULE).word(FRA_PRIORITY, SKIP_RULE),
            Rule::End => it.word(FRA_PRIORITY, END_RULE),
        };
        if let Rule::Gates(table, device) | Rule::Skip(table, device) = *self {
            let mut name = device.as_bytes().to_vec();
            name.push(0);
            it = it.attribute(FRA_IIFNAME, &name);
            if table > SENDERS {
                it = it.word(FRA_FWMARK, table).word(FRA_FWMASK, u32::MAX);
            }
        }
        it.attribute(FRA_PROTOCOL, &[PROTOCOL]).ended()
    }
}

pub fn all(is_ipv6: bool) -> Option<Prefix> {
    let address = if is_ipv6 {
        IpAddr::from(Ipv6Addr::UNSPECIFIED)
    } else {
        Ipv4Addr::UNSPECIFIED.into()
    };
    Prefix::new(address, 0)
}

/// The message of a line. None for a line of the map of senders.
pub fn message(line: &Write, number: u32) -> Option<Vec<u8>> {
    if let Some((route, flags, is_new)) = route(line) {
        return Some(route.message(flags, is_new, number));
    }
    if let Some((rule, is_ipv6, is_new)) = rule(line) {
        return Some(rule.message(is_ipv6, is_new, number));
    }
    match *line {
        Write::AddHop {
            hop,
            device,
            address,
        } => {
            let message = Message::new(RTM_NEWNEXTHOP, ACK | FRESH, number)
                .bytes(&[family(true), 0, PROTOCOL, 0, 0, 0, 0, 0])
                .word(NHA_ID, hop)
                .word(NHA_OIF, device);
            Some(message.attribute(NHA_GATEWAY, &address.octets()).ended())
        }
        Write::RemoveHop { hop } => {
            let message = Message::new(RTM_DELNEXTHOP, ACK, number).bytes(&[0; 8]);
            Some(message.word(NHA_ID, hop).ended())
        }
        _ => None,
    }
}

fn drops(table: u32, prefix: Prefix) -> Route {
    Route {
        table,
        prefix,
        kind: libc::RTN_UNREACHABLE,
        metric: LAST,
        hop: None,
    }
}

fn gate(table: u32, prefix: Prefix) -> Route {
    Route {
        kind: libc::RTN_THROW,
        metric: OPEN,
        ..drops(table, prefix)
    }
}

fn hold(table: u32, is_ipv6: bool) -> Option<Route> {
    all(is_ipv6).map(|it| Route {
        metric: HELD,
        ..drops(table, it)
    })
}

fn way(table: u32, prefix: Prefix, place: u32, hop: Option<u32>) -> Route {
    Route {
        kind: libc::RTN_UNICAST,
        metric: WAYS.saturating_add(place),
        hop,
        ..drops(table, prefix)
    }
}

/// The route of a line, the flags with which it is made, and whether it is made or deleted.
fn route(line: &Write) -> Option<(Route, u16, bool)> {
    let made = |route: Route, flags: u16| (route, flags, true);
    let deleted = |route: Route| (route, 0, false);
    Some(match *line {
        Write::AddLast { table, prefix } => made(drops(table, prefix), CREATE | REPLACE),
        Write::Shut { table, prefix } => made(drops(table, prefix), FRESH),
        Write::RemoveLast { table, prefix } | Write::RemoveShut { table, prefix } => {
            deleted(drops(table, prefix))
        }
        Write::Open { table, prefix } => made(gate(table, prefix), FRESH),
        Write::Close { table, prefix } => deleted(gate(table, prefix)),
        Write::Hold { table, is_ipv6 } => made(hold(table, is_ipv6)?, FRESH),
        Write::Release { table, is_ipv6 } => deleted(hold(table, is_ipv6)?),
        Write::AddWay {
            table,
            prefix,
            place,
            hop,
            replaces,
        } => {
            let flags = if replaces { CREATE | REPLACE } else { FRESH };
            made(way(table, prefix, place, Some(hop)), flags)
        }
        Write::RemoveWay {
            table,
            prefix,
            place,
        } => deleted(way(table, prefix, place, None)),
        _ => return None,
    })
}

/// The rule of a line, its family, and whether it is made or deleted.
fn rule(line: &Write) -> Option<(Rule<'_>, bool, bool)> {
    let is_new = matches!(
        line,
        Write::AddRule { .. } | Write::AddSkip { .. } | Write::AddEnd { .. }
    );
    match line {
        Write::AddRule {
            table,
            device,
            is_ipv6,
        }
        | Write::RemoveRule {
            table,
            device,
            is_ipv6,
        } => Some((Rule::Gates(*table, device), *is_ipv6, is_new)),
        Write::AddSkip {
            table,
            device,
            is_ipv6,
        }
        | Write::RemoveSkip {
            table,
            device,
            is_ipv6,
        } => Some((Rule::Skip(*table, device), *is_ipv6, is_new)),
        Write::AddEnd { is_ipv6 } | Write::RemoveEnd { is_ipv6 } => {
            Some((Rule::End, *is_ipv6, is_new))
        }
        _ => None,
    }
}
