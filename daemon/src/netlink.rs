//! The Linux kernel, by netlink. Many lines go out in one datagram, and the kernel acknowledges each.
//!
//! The messages are written here, byte by byte: the crates of Debian know no nexthop objects, and refuse what later
//! kernels add to the lists that are read here.

mod devices;
mod parts;
mod requests;

pub use devices::{DeviceNews, DeviceReader};
pub use requests::{ACK, CREATE, EXCLUSIVE, Message, push_attribute};

use crate::kernel::{Kernel, Refusal, Write};
use crate::machine::GATES;
use crate::prefix::Prefix;
use crate::senders;
use devices::device_in;
use netlink_sys::{Socket, SocketAddr};
use parts::{Attributes, BUFFER, Parts, number_at};
use requests::{
    DO_NOTHING, DUMP, FRA_FWMARK, FRA_IIFNAME, FRA_PROTOCOL, FRA_TABLE, GO_TO, HELD, LAST, NHA_ID,
    OPEN, PROTOCOL, RTM_GETNEXTHOP, WAYS, all, family, message,
};
use socket2::SockRef;
use std::collections::BTreeSet;
use std::net::{Ipv4Addr, Ipv6Addr};
use std::time::Duration;

/// How many lines go out in one datagram, so that their acknowledgements fit into the buffer of the socket.
const MOST_LINES: usize = 64;
const LONGEST_WAIT: Duration = Duration::from_secs(10);

pub struct Netlink {
    socket: Socket,
    /// To netfilter, once it is needed.
    filter: Option<Socket>,
    number: u32,
    buffer: Vec<u8>,
}

fn refusal(error: &std::io::Error) -> Refusal {
    Refusal(error.raw_os_error().unwrap_or(libc::EIO))
}

fn opened(protocol: isize) -> std::io::Result<Socket> {
    let mut socket = Socket::new(protocol)?;
    socket.bind(&SocketAddr::new(0, 0))?;
    // Acknowledgements without the request in them are shorter. An old kernel sends long ones.
    let _ = socket.set_cap_ack(true);
    // An acknowledgement that does not come is a refusal of all that was sent.
    SockRef::from(&socket).set_read_timeout(Some(LONGEST_WAIT))?;
    Ok(socket)
}

fn receive(socket: &Socket, buffer: &mut Vec<u8>) -> std::io::Result<()> {
    buffer.clear();
    loop {
        match socket.recv(buffer, 0) {
            Err(error) if error.kind() == std::io::ErrorKind::Interrupted => (),
            other => return other.map(drop),
        }
    }
}

impl Netlink {
    pub fn new() -> std::io::Result<Netlink> {
        Ok(Netlink {
            socket: opened(libc::NETLINK_ROUTE as isize)?,
            filter: None,
            number: 0,
            buffer: Vec::with_capacity(BUFFER),
        })
    }

    /// Sends these messages, and returns the error of each. Their numbers begin with `first`.
    fn send_all(&mut self, messages: &[Vec<u8>], first: u32) -> std::io::Result<Vec<i32>> {
        self.socket.send(&messages.concat(), 0)?;
        let (mut errors, mut left) = (vec![None; messages.len()], messages.len());
        while left > 0 {
            receive(&self.socket, &mut self.buffer)?;
            for (kind, number, body) in Parts(&self.buffer) {
                let place = errors.get_mut(number.wrapping_sub(first) as usize);
                if let (true, Some(place @ None)) = (kind == libc::NLMSG_ERROR as u16, place) {
                    *place = Some(-number_at(body));
                    left -= 1;
                }
            }
        }
        Ok(errors
            .into_iter()
            .map(|it| it.unwrap_or(libc::EIO))
            .collect())
    }

    /// Sends messages about the map of senders, and returns the first error, or 0 once the last message is acknowledged.
    fn filtered(&mut self, data: &[u8], last: u32) -> std::io::Result<i32> {
        if self.filter.is_none() {
            self.filter = Some(opened(libc::NETLINK_NETFILTER as isize)?);
        }
        let Some(socket) = &self.filter else {
            return Ok(libc::EIO);
        };
        let first = self.number;
        self.number = last.wrapping_add(1);
        socket.send(data, 0)?;
        loop {
            receive(socket, &mut self.buffer)?;
            for (kind, number, body) in Parts(&self.buffer) {
                let is_one = number.wrapping_sub(first) <= last.wrapping_sub(first);
                let error = -number_at(body);
                if kind == libc::NLMSG_ERROR as u16 && is_one && (error != 0 || number == last) {
                    return Ok(error);
                }
            }
        }
    }

    /// Whether there is a map of senders.
    fn has_senders(&mut self) -> bool {
        let number = self.number.wrapping_add(1);
        self.number = number;
        self.filtered(&senders::question(number), number)
            .is_ok_and(|it| it == 0)
    }

    fn write_sender(&mut self, line: &Write) -> Result<(), Refusal> {
        self.number = self.number.wrapping_add(1);
        let (data, last) = senders::batch(line, self.number).ok_or(Refusal(libc::EINVAL))?;
        match self.filtered(&data, last) {
            Ok(error) if error == 0 || line.is_done_by(error) => Ok(()),
            Ok(error) => Err(Refusal(error)),
            Err(error) => Err(refusal(&error)),
        }
    }

    fn write_routes(&mut self, lines: &[Write]) -> Vec<Result<(), Refusal>> {
        let first = self.number.wrapping_add(1);
        self.number = self.number.wrapping_add(lines.len() as u32);
        let number = |at: usize| first.wrapping_add(at as u32);
        let messages: Vec<Vec<u8>> = lines
            .iter()
            .enumerate()
            .map(|(at, it)| message(it, number(at)).unwrap_or_default())
            .collect();
        match self.send_all(&messages, first) {
            Ok(errors) => {
                let results = lines.iter().zip(errors).map(|(line, error)| {
                    if error == 0 || line.is_done_by(error) {
                        Ok(())
                    } else {
                        Err(Refusal(error))
                    }
                });
                results.collect()
            }
            // Nothing is known of what was done.
            Err(error) => lines.iter().map(|_| Err(refusal(&error))).collect(),
        }
    }

    /// The bodies of all things of a kind.
    fn listed(
        &mut self,
        kind: u16,
        head: &[u8],
        mut each: impl FnMut(&[u8]),
    ) -> std::io::Result<()> {
        self.number = self.number.wrapping_add(1);
        let number = self.number;
        self.socket
            .send(&Message::new(kind, DUMP, number).bytes(head).ended(), 0)?;
        loop {
            receive(&self.socket, &mut self.buffer)?;
            for (kind, count, body) in Parts(&self.buffer) {
                if count != number {
                    continue;
                }
                match i32::from(kind) {
                    libc::NLMSG_DONE => return Ok(()),
                    libc::NLMSG_ERROR => {
                        let error = number_at(body);
                        return if error == 0 {
                            Ok(())
                        } else {
                            Err(std::io::Error::from_raw_os_error(-error))
                        };
                    }
                    _ => each(body),
                }
            }
        }
    }

    fn routes_left(&mut self, is_ipv6: bool, left: &mut Vec<Write>) -> std::io::Result<()> {
        let mut head = [0; 12];
        head[0] = family(is_ipv6);
        self.listed(libc::RTM_GETROUTE, &head, |body| {
            left.extend(route_left(body, is_ipv6))
        })
    }

    /// Asks for all devices. The answers come to a reader of news.
    pub fn devices(&mut self) -> std::io::Result<Vec<DeviceNews>> {
        let mut found = Vec::new();
        self.listed(libc::RTM_GETLINK, &[0; 16], |body| {
            found.extend(device_in(body, false))
        })?;
        Ok(found)
    }
}

impl Kernel for Netlink {
    fn write(&mut self, lines: &[Write]) -> Vec<Result<(), Refusal>> {
        let mut results = Vec::with_capacity(lines.len());
        for some in lines.chunk_by(|one, next| one.is_of_senders() == next.is_of_senders()) {
            if some[0].is_of_senders() {
                results.extend(some.iter().map(|it| self.write_sender(it)));
            } else {
                for part in some.chunks(MOST_LINES) {
                    results.extend(self.write_routes(part));
                }
            }
        }
        results
    }

    fn left_behind(&mut self) -> Result<Vec<Write>, Refusal> {
        let mut left = Vec::new();
        for is_ipv6 in [false, true] {
            self.routes_left(is_ipv6, &mut left)
                .map_err(|it| refusal(&it))?;
            let mut head = [0; 12];
            head[0] = family(is_ipv6);
            self.listed(libc::RTM_GETRULE, &head, |body| {
                left.extend(rule_left(body, is_ipv6))
            })
            .map_err(|it| refusal(&it))?;
        }
        let mut hops = BTreeSet::new();
        self.listed(RTM_GETNEXTHOP, &[0; 8], |body| hops.extend(hop_left(body)))
            .map_err(|it| refusal(&it))?;
        left.extend(hops.into_iter().map(|hop| Write::RemoveHop { hop }));
        if self.has_senders() {
            left.push(Write::RemoveSenders);
        }
        Ok(left)
    }
}

/// The line that removes a route of the daemon's.
fn route_left(body: &[u8], is_ipv6: bool) -> Option<Write> {
    let (length, protocol, kind) = (*body.get(1)?, *body.get(5)?, *body.get(7)?);
    if protocol != PROTOCOL {
        return None;
    }
    let parts = Attributes(body.get(12..)?);
    let table = parts.word(libc::RTA_TABLE).unwrap_or(u32::from(body[4]));
    let metric = parts.word(libc::RTA_PRIORITY).unwrap_or(0);
    let address = match (parts.value(libc::RTA_DST), is_ipv6) {
        (None, _) => all(is_ipv6)?.address(),
        (Some(it), false) => Ipv4Addr::from(<[u8; 4]>::try_from(it).ok()?).into(),
        (Some(it), true) => Ipv6Addr::from(<[u8; 16]>::try_from(it).ok()?).into(),
    };
    let prefix = Prefix::new(address, length)?;
    match (kind, metric) {
        (libc::RTN_THROW, OPEN) => Some(Write::Close { table, prefix }),
        (libc::RTN_UNREACHABLE, HELD) => Some(Write::Release { table, is_ipv6 }),
        (libc::RTN_UNREACHABLE, LAST) if table >= GATES => {
            Some(Write::RemoveShut { table, prefix })
        }
        (libc::RTN_UNREACHABLE, LAST) => Some(Write::RemoveLast { table, prefix }),
        (libc::RTN_UNICAST, it) => Some(Write::RemoveWay {
            table,
            prefix,
            place: it.checked_sub(WAYS)?,
        }),
        _ => None,
    }
}

fn rule_left(body: &[u8], is_ipv6: bool) -> Option<Write> {
    let parts = Attributes(body.get(12..)?);
    if parts.value(FRA_PROTOCOL)? != [PROTOCOL] {
        return None;
    }
    let action = *body.get(7)?;
    if action == DO_NOTHING {
        return Some(Write::RemoveEnd { is_ipv6 });
    }
    let name = parts.value(FRA_IIFNAME)?;
    let device = String::from_utf8_lossy(name.strip_suffix(&[0]).unwrap_or(name)).into_owned();
    if action == GO_TO {
        return Some(Write::RemoveSkip {
            table: parts.word(FRA_FWMARK)?,
            device,
            is_ipv6,
        });
    }
    let table = parts.word(FRA_TABLE).filter(|it| *it >= GATES)?;
    Some(Write::RemoveRule {
        table,
        device,
        is_ipv6,
    })
}

fn hop_left(body: &[u8]) -> Option<u32> {
    (*body.get(2)? == PROTOCOL).then(|| Attributes(body.get(8..)?).word(NHA_ID))?
}

#[cfg(test)]
mod tests {
    use super::*;

    /// What a daemon writes for a prefix is found later, by another one, as the line that removes it.
    #[test]
    fn what_was_written_is_found_as_what_removes_it() {
        for text in ["10.1.2.0/24", "fd00::/64", "0.0.0.0/0"] {
            let prefix: Prefix = text.parse().expect("a prefix");
            let (table, place, hop, replaces) = (254, 2, 7, true);
            let way = Write::AddWay {
                table,
                prefix,
                place,
                hop,
                replaces,
            };
            let removes = Write::RemoveWay {
                table,
                prefix,
                place,
            };
            let last = Write::AddLast { table, prefix };
            expect_found(last, Write::RemoveLast { table, prefix });
            expect_found(way, removes);
            let (table, is_ipv6) = (GATES + 3, prefix.is_ipv6());
            let shut = Write::Shut { table, prefix };
            expect_found(shut, Write::RemoveShut { table, prefix });
            let open = Write::Open { table, prefix };
            expect_found(open, Write::Close { table, prefix });
            let hold = Write::Hold { table, is_ipv6 };
            expect_found(hold, Write::Release { table, is_ipv6 });
        }
    }

    fn expect_found(made: Write, removes: Write) {
        let data = requests::message(&made, 1).expect("a line for a route");
        let is_ipv6 = |body: &[u8]| i32::from(body[0]) == libc::AF_INET6;
        let found = Parts(&data).find_map(|(_, _, it)| route_left(it, is_ipv6(it)));
        assert_eq!(found, Some(removes));
    }
}
