//! Calls of the system that no crate of Debian has: the hop limit with which a datagram came, and a filter of ICMPv6.

#![allow(unsafe_code)]

use std::io;
use std::mem::{size_of, zeroed};
use std::net::Ipv6Addr;
use std::os::fd::AsRawFd;

/// The length of a control message of one number, with its head, is below this.
const CONTROL: usize = 64;

/// The option by which a raw socket says what it does not want (`linux/icmpv6.h`).
const ICMP6_FILTER: i32 = 1;

fn set_option<T: Copy>(socket: &impl AsRawFd, level: i32, option: i32, value: T) -> io::Result<()> {
    let size = size_of::<T>() as libc::socklen_t;
    // SAFETY: the value has that size, and the call keeps no pointer.
    let result = unsafe {
        libc::setsockopt(
            socket.as_raw_fd(),
            level,
            option,
            (&raw const value).cast(),
            size,
        )
    };
    if result == 0 {
        Ok(())
    } else {
        Err(io::Error::last_os_error())
    }
}

/// Has the system say with which hop limit each datagram came.
pub fn want_hop_limits(socket: &impl AsRawFd) -> io::Result<()> {
    set_option(socket, libc::IPPROTO_IPV6, libc::IPV6_RECVHOPLIMIT, 1)
}

/// Marks datagrams as those of the network's control (class CS6).
pub fn set_class(socket: &impl AsRawFd) -> io::Result<()> {
    set_option(socket, libc::IPPROTO_IPV6, libc::IPV6_TCLASS, 0xc0)
}

/// Has a raw socket of ICMPv6 take only messages of one kind.
pub fn want_only(socket: &impl AsRawFd, kind: u8) -> io::Result<()> {
    // A bit that is set keeps messages of its kind away.
    let mut kinds = [u32::MAX; 8];
    kinds[usize::from(kind / 32)] &= !(1 << (kind % 32));
    set_option(socket, libc::IPPROTO_ICMPV6, ICMP6_FILTER, kinds)
}

/// A datagram that came in.
pub struct Received {
    pub length: usize,
    pub source: Ipv6Addr,
    pub hop_limit: Option<i32>,
    /// Whether the buffer was too short for it.
    pub is_cut: bool,
}

#[repr(align(8))]
struct Control([u8; CONTROL]);

/// Receives a datagram by a socket that does not wait.
pub fn receive(socket: &impl AsRawFd, buffer: &mut [u8]) -> io::Result<Received> {
    let mut control = Control([0; CONTROL]);
    let mut part = libc::iovec {
        iov_base: buffer.as_mut_ptr().cast(),
        iov_len: buffer.len(),
    };
    // SAFETY: both are structures of numbers and pointers, for which zero is a value.
    let (mut source, mut message): (libc::sockaddr_in6, libc::msghdr) =
        unsafe { (zeroed(), zeroed()) };
    message.msg_name = (&raw mut source).cast();
    message.msg_namelen = size_of::<libc::sockaddr_in6>() as libc::socklen_t;
    message.msg_iov = &raw mut part;
    message.msg_iovlen = 1;
    message.msg_control = control.0.as_mut_ptr().cast();
    message.msg_controllen = CONTROL;
    // SAFETY: all parts of the message are alive, and their lengths are right.
    let length = unsafe { libc::recvmsg(socket.as_raw_fd(), &raw mut message, libc::MSG_DONTWAIT) };
    let Ok(length) = usize::try_from(length) else {
        return Err(io::Error::last_os_error());
    };
    Ok(Received {
        length,
        source: source.sin6_addr.s6_addr.into(),
        hop_limit: hop_limit_in(&message),
        is_cut: message.msg_flags & libc::MSG_TRUNC != 0,
    })
}

fn hop_limit_in(message: &libc::msghdr) -> Option<i32> {
    // SAFETY: the system has written the control messages, and the macros stay within their length.
    unsafe {
        let mut at = libc::CMSG_FIRSTHDR(message);
        while !at.is_null() {
            if (*at).cmsg_level == libc::IPPROTO_IPV6 && (*at).cmsg_type == libc::IPV6_HOPLIMIT {
                return Some(libc::CMSG_DATA(at).cast::<i32>().read_unaligned());
            }
            at = libc::CMSG_NXTHDR(message, at);
        }
    }
    None
}
