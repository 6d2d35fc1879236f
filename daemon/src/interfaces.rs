//! The sockets of links: datagrams of UDP to a multicast group of the link, with a hop limit of 255, which no router has
//! forwarded; and echo requests to the kernels of neighbours.

use crate::datagram::MOST_BYTES;
use crate::echo::Echo;
use crate::system;
use socket2::{Domain, Protocol, SockAddr, Socket, Type};
use std::io;
use std::net::{Ipv6Addr, SocketAddrV6};
use std::os::fd::{AsRawFd, RawFd};

/// A group of the link that no other protocol has: its address is not assigned for good.
const GROUP: Ipv6Addr = Ipv6Addr::new(0xff12, 0, 0, 0, 0, 0, 0x7276, 0x7274);
const PORT: u16 = 6465;
const HOP_LIMIT: i32 = 255;

pub struct Port {
    socket: Socket,
    /// `None` if the kernel refused the socket.
    pub echo: Option<Echo>,
    index: u32,
}

/// What waits at a socket.
pub enum Waiting {
    Datagram(Ipv6Addr, usize),
    /// One that is not from a router on the link, or too long.
    Stranger,
    Nothing,
}

impl Port {
    pub fn open(name: &str, index: u32) -> io::Result<Port> {
        let socket = Socket::new(Domain::IPV6, Type::DGRAM, Some(Protocol::UDP))?;
        socket.set_only_v6(true)?;
        socket.bind_device(Some(name.as_bytes()))?;
        socket.set_multicast_if_v6(index)?;
        socket.set_multicast_hops_v6(HOP_LIMIT as u32)?;
        // It must not hear what it has sent itself.
        socket.set_multicast_loop_v6(false)?;
        system::want_hop_limits(&socket)?;
        system::set_class(&socket)?;
        socket.join_multicast_v6(&GROUP, index)?;
        socket.bind(&address(index))?;
        socket.set_nonblocking(true)?;
        // The system may allow less.
        let _ = socket.set_recv_buffer_size(1 << 20);
        Ok(Port {
            socket,
            echo: None,
            index,
        })
    }

    pub fn descriptor(&self) -> RawFd {
        self.socket.as_raw_fd()
    }

    pub fn receive(&self, buffer: &mut [u8; MOST_BYTES + 1]) -> Waiting {
        match system::receive(&self.socket, buffer) {
            Ok(it)
                if it.hop_limit == Some(HOP_LIMIT)
                    && it.source.segments()[0] & 0xffc0 == 0xfe80
                    && !it.is_cut =>
            {
                Waiting::Datagram(it.source, it.length)
            }
            Ok(_) => Waiting::Stranger,
            Err(error) if error.kind() == io::ErrorKind::Interrupted => Waiting::Stranger,
            // No more wait, or the device is down.
            Err(_) => Waiting::Nothing,
        }
    }

    /// Sends a datagram. One that is refused is lost, as one that is lost on the link.
    pub fn send(&self, data: &[u8]) {
        let _ = self.socket.send_to(data, &address(self.index));
    }
}

fn address(index: u32) -> SockAddr {
    SocketAddrV6::new(GROUP, PORT, 0, index).into()
}
