//! Prefixes of addresses, which are the destinations.

use std::fmt;
use std::net::{IpAddr, Ipv4Addr, Ipv6Addr};
use std::str::FromStr;

/// An IPv4 or IPv6 prefix. All bits of the address after the length are 0.
#[derive(Clone, Copy, PartialEq, Eq, PartialOrd, Ord, Hash)]
pub struct Prefix {
    address: IpAddr,
    length: u8,
}

impl Prefix {
    /// `None` if the length is too great, or if a bit after it is set.
    pub fn new(address: IpAddr, length: u8) -> Option<Prefix> {
        let is_whole = match address {
            IpAddr::V4(it) => length <= 32 && (u32::from(it) as u64) << length & 0xffff_ffff == 0,
            IpAddr::V6(it) => {
                length <= 128 && u128::from(it).checked_shl(length.into()).unwrap_or(0) == 0
            }
        };
        is_whole.then_some(Prefix { address, length })
    }

    pub fn address(&self) -> IpAddr {
        self.address
    }

    pub fn length(&self) -> u8 {
        self.length
    }

    pub fn is_ipv6(&self) -> bool {
        self.address.is_ipv6()
    }

    /// Whether routers may route packets to it: not to loopback, multicast or link-local addresses.
    pub fn is_routable(&self) -> bool {
        match self.address {
            IpAddr::V4(it) => self.is_all() || is_routable_ipv4(it),
            IpAddr::V6(it) => self.is_all() || is_routable_ipv6(it),
        }
    }

    /// Whether another prefix is a part of this one.
    pub fn has_within(&self, other: &Prefix) -> bool {
        let shift = |all: u8| u32::from(all - self.length);
        let is_same = match (self.address, other.address) {
            (IpAddr::V4(it), IpAddr::V4(inner)) => {
                (u32::from(it) ^ u32::from(inner))
                    .checked_shr(shift(32))
                    .unwrap_or(0)
                    == 0
            }
            (IpAddr::V6(it), IpAddr::V6(inner)) => {
                (u128::from(it) ^ u128::from(inner))
                    .checked_shr(shift(128))
                    .unwrap_or(0)
                    == 0
            }
            _ => false,
        };
        is_same && other.length > self.length
    }

    /// Whether it is the prefix of all addresses, as a default route has it.
    fn is_all(&self) -> bool {
        self.length == 0
    }
}

fn is_routable_ipv4(it: Ipv4Addr) -> bool {
    let first = it.octets()[0];
    first != 0 && first != 127 && first < 224 && !it.is_link_local()
}

fn is_routable_ipv6(it: Ipv6Addr) -> bool {
    let first = it.segments()[0];
    first != 0 && first & 0xff00 != 0xff00 && first & 0xffc0 != 0xfe80
}

/// Why a text is not a prefix.
#[derive(Debug, PartialEq, Eq)]
pub struct NotAPrefix(String);

impl fmt::Display for NotAPrefix {
    fn fmt(&self, f: &mut fmt::Formatter<'_>) -> fmt::Result {
        f.write_str(&self.0)
    }
}

impl FromStr for Prefix {
    type Err = NotAPrefix;

    fn from_str(text: &str) -> Result<Prefix, NotAPrefix> {
        let example = "such as 10.1.0.0/16, 10.1.2.3 or 2001:db8::/32";
        let (at, length) = text
            .split_once('/')
            .map_or((text, None), |(at, it)| (at, Some(it)));
        let not = || NotAPrefix(format!("`{text}` is not an address or a prefix, {example}"));
        let address: IpAddr = at.parse().map_err(|_| not())?;
        let all = if address.is_ipv4() { 32 } else { 128 };
        let length = match length {
            None => all,
            Some(it) => it.parse().ok().filter(|it| *it <= all).ok_or_else(not)?,
        };
        let found = Prefix::new(address, length)
            .ok_or_else(|| NotAPrefix(format!("`{text}` has bits after its length of {length}")))?;
        if found.is_routable() {
            Ok(found)
        } else {
            Err(NotAPrefix(format!(
                "`{text}` is not routed between routers"
            )))
        }
    }
}

impl fmt::Display for Prefix {
    fn fmt(&self, f: &mut fmt::Formatter<'_>) -> fmt::Result {
        write!(f, "{}/{}", self.address, self.length)
    }
}

impl fmt::Debug for Prefix {
    fn fmt(&self, f: &mut fmt::Formatter<'_>) -> fmt::Result {
        fmt::Display::fmt(self, f)
    }
}

#[cfg(test)]
mod tests {
    use super::*;

    #[test]
    fn texts_that_are_prefixes() {
        for (text, shown) in [
            ("10.1.0.0/16", "10.1.0.0/16"),
            ("10.1.2.3", "10.1.2.3/32"),
            ("0.0.0.0/0", "0.0.0.0/0"),
            ("2001:db8::/32", "2001:db8::/32"),
            ("::/0", "::/0"),
            ("fd00::1", "fd00::1/128"),
        ] {
            assert_eq!(
                text.parse::<Prefix>().map(|it| it.to_string()),
                Ok(shown.into())
            );
        }
    }

    #[test]
    fn texts_that_are_not() {
        for text in [
            "",
            "/",
            "10.1.0.0/33",
            "10.1.0.1/16",
            "10.1.0.0/-1",
            "10.1.0/16",
            "fd00::/129",
            "fd00::1/64",
            "127.0.0.0/8",
            "224.0.0.0/4",
            "fe80::/64",
            "ff02::1",
            "::1",
            "0.0.0.0",
            "169.254.0.0/16",
        ] {
            assert!(text.parse::<Prefix>().is_err(), "{text}");
        }
    }
}
