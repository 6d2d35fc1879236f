//! What the kernel says: messages in a datagram, and attributes in a message.

/// The length of the head of a message.
const HEADER: usize = 16;
/// What a datagram of the kernel may take.
pub const BUFFER: usize = 1 << 17;

pub fn word_at(data: &[u8], at: usize) -> Option<u32> {
    Some(u32::from_ne_bytes(data.get(at..at + 4)?.try_into().ok()?))
}

/// The number that an acknowledgement begins with: 0, or an error of the system below 0.
pub fn number_at(body: &[u8]) -> i32 {
    word_at(body, 0).unwrap_or(0) as i32
}

/// The messages in what the kernel says: kind, number and body.
pub struct Parts<'a>(pub &'a [u8]);

impl<'a> Iterator for Parts<'a> {
    type Item = (u16, u32, &'a [u8]);

    fn next(&mut self) -> Option<Self::Item> {
        let length = word_at(self.0, 0)? as usize;
        let kind = u16::from_ne_bytes(self.0.get(4..6)?.try_into().ok()?);
        let number = word_at(self.0, 8)?;
        let body = self.0.get(HEADER..length)?;
        self.0 = self.0.get(length.next_multiple_of(4)..).unwrap_or_default();
        Some((kind, number, body))
    }
}

/// The attributes of a message: kind and value.
#[derive(Clone, Copy)]
pub struct Attributes<'a>(pub &'a [u8]);

impl<'a> Attributes<'a> {
    pub fn value(self, kind: u16) -> Option<&'a [u8]> {
        self.into_iter().find(|it| it.0 == kind).map(|it| it.1)
    }

    pub fn word(self, kind: u16) -> Option<u32> {
        word_at(self.value(kind)?, 0)
    }
}

impl<'a> Iterator for Attributes<'a> {
    type Item = (u16, &'a [u8]);

    fn next(&mut self) -> Option<Self::Item> {
        let length = usize::from(u16::from_ne_bytes(self.0.get(..2)?.try_into().ok()?));
        let kind = u16::from_ne_bytes(self.0.get(2..4)?.try_into().ok()?);
        let value = self.0.get(4..length)?;
        self.0 = self.0.get(length.next_multiple_of(4)..).unwrap_or_default();
        Some((
            kind & !(libc::NLA_F_NESTED | libc::NLA_F_NET_BYTEORDER) as u16,
            value,
        ))
    }
}
