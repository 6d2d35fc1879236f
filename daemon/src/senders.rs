//! The map of senders in nftables, by netlink: which table of gates is for what a hardware address sends over a device.
//!
//! A chain before the routing decision marks each packet by the map. Each change of it is one batch, which the kernel does
//! as a whole or not at all. As nft shows it:
//!
//! ```text
//! table inet revrouted {
//!     map senders { type iface_index . ether_addr : mark }
//!     chain mark {
//!         type filter hook prerouting priority mangle
//!         meta mark set iif . ether saddr map @senders
//!     }
//! }
//! ```

use crate::datagram::Mac;
use crate::kernel::Write;
use crate::netlink::{ACK, CREATE, EXCLUSIVE, Message, push_attribute};

const NAME: &[u8] = b"revrouted\0";
const MAP: &[u8] = b"senders\0";
const CHAIN: &[u8] = b"mark\0";
/// The number of nftables among the parts of netfilter.
const NFTABLES: u8 = 10;
const INET: u8 = 1;
const BATCH_BEGIN: u16 = 16;
const BATCH_END: u16 = 17;
const NEW_TABLE: u16 = 0;
const GET_TABLE: u16 = 1;
const REMOVE_TABLE: u16 = 2;
const NEW_CHAIN: u16 = 3;
const NEW_RULE: u16 = 6;
const NEW_SET: u16 = 9;
const NEW_ELEMENT: u16 = 12;
const REMOVE_ELEMENT: u16 = 14;
const NESTED: u16 = 0x8000;
const APPEND: u16 = 0x800;
/// Where chains of this priority are: `mangle`, before the routing decision.
const PREROUTING: u32 = 0;
const MANGLE: i32 = -150;
const IS_MAP: u32 = 8;
/// How nft shows the map: an index of a device and a hardware address together, and a mark.
const KEY_TYPE: u32 = 20 << 6 | 9;
const MARK_TYPE: u32 = 19;
const KEY_LENGTH: u32 = 12;
const MARK_LENGTH: u32 = 4;
/// Registers of four bytes each. The hardware address takes the second and the third one.
const FIRST: u32 = 8;
const SECOND: u32 = 9;
const META_MARK: u32 = 3;
const META_INTERFACE: u32 = 4;
const LINK_HEADER: u32 = 0;
const SOURCE_AT: u32 = 6;
const SOURCE_LENGTH: u32 = 6;

/// Attributes that lie in another one.
#[derive(Default)]
struct Nest(Vec<u8>);

impl Nest {
    fn value(mut self, kind: u16, value: &[u8]) -> Nest {
        push_attribute(&mut self.0, kind, value);
        self
    }

    fn number(self, kind: u16, value: u32) -> Nest {
        self.value(kind, &value.to_be_bytes())
    }

    fn nest(self, kind: u16, inner: Nest) -> Nest {
        self.value(kind | NESTED, &inner.0)
    }
}

fn part(kind: u16, flags: u16, number: u32, content: Nest) -> Vec<u8> {
    Message::new(u16::from(NFTABLES) << 8 | kind, flags, number)
        .bytes(&[INET, 0, 0, 0])
        .bytes(&content.0)
        .ended()
}

fn border(kind: u16, number: u32) -> Vec<u8> {
    Message::new(kind, 0, number)
        .bytes(&[0, 0, 0, NFTABLES])
        .ended()
}

/// Asks whether there is the table. The answer is an acknowledgement, or the error that it is not there.
pub fn question(number: u32) -> Vec<u8> {
    part(GET_TABLE, ACK, number, Nest::default().value(1, NAME))
}

/// The parts of a line's batch: what each is, its flags and its content.
fn parts(line: &Write) -> Option<Vec<(u16, u16, Nest)>> {
    let table = || Nest::default().value(1, NAME);
    Some(match line {
        Write::AddSenders => vec![
            // To delete a table that is not there is an error, so it is made first.
            (NEW_TABLE, CREATE, table()),
            (REMOVE_TABLE, 0, table()),
            (NEW_TABLE, CREATE, table()),
            (NEW_SET, CREATE, map()),
            (NEW_CHAIN, CREATE, chain()),
            (NEW_RULE, CREATE | APPEND, rule()),
        ],
        Write::RemoveSenders => vec![(REMOVE_TABLE, 0, table())],
        Write::AddSender { table, device, mac } => {
            let mark = Nest::default().value(1, &table.to_ne_bytes());
            let it = Nest::default().nest(1, key(*device, mac)).nest(2, mark);
            vec![(NEW_ELEMENT, CREATE | EXCLUSIVE, elements(it))]
        }
        Write::RemoveSender { device, mac } => {
            let it = Nest::default().nest(1, key(*device, mac));
            vec![(REMOVE_ELEMENT, 0, elements(it))]
        }
        _ => return None,
    })
}

/// The batch of a line, and the number of its last message. The others have the numbers before it, from `first` on.
pub fn batch(line: &Write, first: u32) -> Option<(Vec<u8>, u32)> {
    let parts = parts(line)?;
    let last = first.wrapping_add(parts.len() as u32);
    let mut data = border(BATCH_BEGIN, first);
    for (at, (kind, flags, content)) in parts.into_iter().enumerate() {
        let number = first.wrapping_add(1 + at as u32);
        // All is done or nothing, so the acknowledgement of the last one says enough.
        let ack = if number == last { ACK } else { 0 };
        data.extend(part(kind, flags | ack, number, content));
    }
    data.extend(border(BATCH_END, last.wrapping_add(1)));
    Some((data, last))
}

fn map() -> Nest {
    Nest::default()
        .value(1, NAME)
        .value(2, MAP)
        .number(3, IS_MAP)
        .number(4, KEY_TYPE)
        .number(5, KEY_LENGTH)
        .number(6, MARK_TYPE)
        .number(7, MARK_LENGTH)
        .number(10, 1)
}

fn chain() -> Nest {
    let hook = Nest::default()
        .number(1, PREROUTING)
        .value(2, &MANGLE.to_be_bytes());
    Nest::default()
        .value(1, NAME)
        .value(3, CHAIN)
        .nest(4, hook)
        .value(7, b"filter\0")
}

fn rule() -> Nest {
    let expression = |name: &[u8], content: Nest| {
        let it = Nest::default().value(1, name).nest(2, content);
        Nest::default().nest(1, it).0
    };
    let load = Nest::default().number(1, FIRST).number(2, META_INTERFACE);
    let source = Nest::default()
        .number(1, SECOND)
        .number(2, LINK_HEADER)
        .number(3, SOURCE_AT)
        .number(4, SOURCE_LENGTH);
    let lookup = Nest::default()
        .value(1, MAP)
        .number(2, FIRST)
        .number(3, FIRST);
    let mark = Nest::default().number(2, META_MARK).number(3, FIRST);
    let all = [
        expression(b"meta\0", load),
        expression(b"payload\0", source),
        expression(b"lookup\0", lookup),
        expression(b"meta\0", mark),
    ];
    Nest::default()
        .value(1, NAME)
        .value(2, CHAIN)
        .nest(4, Nest(all.concat()))
}

fn key(device: u32, mac: &Mac) -> Nest {
    let mut value = device.to_ne_bytes().to_vec();
    value.extend_from_slice(mac);
    value.resize(KEY_LENGTH as usize, 0);
    Nest::default().value(1, &value)
}

fn elements(one: Nest) -> Nest {
    Nest::default()
        .value(1, NAME)
        .value(2, MAP)
        .nest(3, Nest::default().nest(1, one))
}
