//! The echo requests of ICMPv6 to the kernels of neighbours, and their answers.

use crate::system;
use socket2::{Domain, Protocol, Socket, Type};
use std::io;
use std::net::{Ipv6Addr, SocketAddrV6};
use std::os::fd::{AsRawFd, RawFd};

const REQUEST: u8 = 128;
const ANSWER: u8 = 129;
/// A head of four bytes, two numbers of two bytes, and the mark.
const LENGTH: usize = 16;
const MARK: usize = 8;

/// What waits at a socket.
pub enum Answer {
    /// An answer to a request of this process.
    From(Ipv6Addr),
    Other,
    Nothing,
}

pub struct Echo {
    socket: Socket,
    index: u32,
    /// A random number of this process, which its requests carry. An answer has the same.
    mark: u64,
    count: u16,
}

impl Echo {
    pub fn open(name: &str, index: u32, mark: u64) -> io::Result<Echo> {
        let socket = Socket::new(Domain::IPV6, Type::RAW, Some(Protocol::ICMPV6))?;
        system::want_only(&socket, ANSWER)?;
        socket.bind_device(Some(name.as_bytes()))?;
        system::set_class(&socket)?;
        socket.set_nonblocking(true)?;
        Ok(Echo {
            socket,
            index,
            mark,
            count: 0,
        })
    }

    pub fn descriptor(&self) -> RawFd {
        self.socket.as_raw_fd()
    }

    /// Sends a request to a link-local address. One that is refused is lost.
    pub fn ask(&mut self, to: Ipv6Addr) {
        self.count = self.count.wrapping_add(1);
        let mut data = [0; LENGTH];
        // The kernel writes the checksum.
        data[0] = REQUEST;
        data[4..6].copy_from_slice(&(self.index as u16).to_be_bytes());
        data[6..8].copy_from_slice(&self.count.to_be_bytes());
        data[MARK..].copy_from_slice(&self.mark.to_be_bytes());
        let _ = self
            .socket
            .send_to(&data, &SocketAddrV6::new(to, 0, 0, self.index).into());
    }

    /// Takes a message that waits.
    pub fn receive(&self) -> Answer {
        let mut data = [0; LENGTH + 1];
        match system::receive(&self.socket, &mut data) {
            Ok(it) => {
                let is_answer = it.length == LENGTH
                    && data[0] == ANSWER
                    && data[MARK..LENGTH] == self.mark.to_be_bytes();
                if is_answer {
                    Answer::From(it.source)
                } else {
                    Answer::Other
                }
            }
            Err(error) if error.kind() == io::ErrorKind::Interrupted => Answer::Other,
            Err(_) => Answer::Nothing,
        }
    }
}
