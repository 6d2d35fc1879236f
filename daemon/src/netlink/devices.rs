//! Which devices there are, and what changes about them.

use super::parts::{Attributes, BUFFER, Parts, word_at};
use crate::datagram::Mac;
use netlink_sys::{Socket, SocketAddr};
use socket2::SockRef;
use std::os::fd::AsRawFd;

/// A device of the system.
#[derive(Clone, Debug, PartialEq, Eq)]
pub struct DeviceNews {
    pub index: u32,
    pub name: String,
    pub has_carrier: bool,
    pub is_gone: bool,
    /// Its hardware address, if it is one of Ethernet.
    pub mac: Option<Mac>,
}

pub fn device_in(body: &[u8], is_gone: bool) -> Option<DeviceNews> {
    let (index, flags) = (word_at(body, 4)?, word_at(body, 8)?);
    let name = Attributes(body.get(16..)?).value(libc::IFLA_IFNAME)?;
    let name = String::from_utf8_lossy(name.strip_suffix(&[0]).unwrap_or(name)).into_owned();
    let is_ethernet = body.get(2..4)? == libc::ARPHRD_ETHER.to_ne_bytes();
    let mac = Attributes(body.get(16..)?)
        .value(libc::IFLA_ADDRESS)
        .filter(|_| is_ethernet)
        .and_then(|it| it.try_into().ok());
    let has_carrier = flags & libc::IFF_RUNNING as u32 != 0 && flags & libc::IFF_UP as u32 != 0;
    Some(DeviceNews {
        index,
        name,
        has_carrier: has_carrier && !is_gone,
        is_gone,
        mac,
    })
}

/// Says which devices there are, and each change.
pub struct DeviceReader {
    socket: Socket,
    buffer: Vec<u8>,
}

impl DeviceReader {
    pub fn new() -> std::io::Result<DeviceReader> {
        let mut socket = Socket::new(libc::NETLINK_ROUTE as isize)?;
        socket.bind(&SocketAddr::new(0, libc::RTMGRP_LINK as u32))?;
        socket.set_non_blocking(true)?;
        // The system may allow less.
        let _ = SockRef::from(&socket).set_recv_buffer_size(1 << 20);
        Ok(DeviceReader {
            socket,
            buffer: Vec::with_capacity(BUFFER),
        })
    }

    pub fn descriptor(&self) -> i32 {
        self.socket.as_raw_fd()
    }

    /// What has changed, in its order. `None` if there was too much to keep: then anything may have changed.
    pub fn read(&mut self) -> Option<Vec<DeviceNews>> {
        let mut found = Vec::new();
        loop {
            self.buffer.clear();
            match self.socket.recv(&mut self.buffer, 0) {
                Ok(_) => (),
                Err(error) if error.kind() == std::io::ErrorKind::WouldBlock => return Some(found),
                Err(error) if error.kind() == std::io::ErrorKind::Interrupted => continue,
                Err(_) => return None,
            }
            for (kind, _, body) in Parts(&self.buffer) {
                match kind {
                    libc::RTM_NEWLINK => found.extend(device_in(body, false)),
                    // A bridge also says by this that a port has left it.
                    libc::RTM_DELLINK if body.first() == Some(&0) => {
                        found.extend(device_in(body, true))
                    }
                    _ => (),
                }
            }
        }
    }
}
