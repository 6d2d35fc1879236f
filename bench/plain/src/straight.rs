//! Reads requests directly from their bytes, if they are written as most callers write them. All other lines are left
//! to `serde_json`.

use crate::edit::Edit;
use crate::request::Request;

/// The request of a line. `None` if a word has an escape, if a number is not whole, or if the line is not a request.
pub fn request(line: &[u8]) -> Option<Request> {
    let mut from = Bytes(line);
    from.mark(b'[')?;
    let word = from.word()?;
    let request = match word {
        b"net" => Request::Network {
            nodes: from.next_number()?,
            dest: from.next_number()?,
            links: from.next_list(Bytes::link)?,
        },
        b"batch" => Request::Batch {
            edits: from.next_list(Bytes::edit)?,
        },
        b"dest" => Request::Destination {
            dest: from.next_number()?,
        },
        b"walk" => Request::Walk {
            x: from.next_number()?,
        },
        b"links" => Request::Links,
        b"counts" => Request::Counts,
        b"hops" => Request::Hops,
        _ => Request::Edit(from.ends(word)?),
    };
    from.mark(b']')?;
    from.skip_space();
    from.0.is_empty().then_some(request)
}

/// The unread bytes of a line.
struct Bytes<'a>(&'a [u8]);

impl<'a> Bytes<'a> {
    fn skip_space(&mut self) {
        while let [b' ' | b'\t' | b'\r', rest @ ..] = self.0 {
            self.0 = rest;
        }
    }

    fn mark(&mut self, mark: u8) -> Option<()> {
        self.skip_space();
        let (first, rest) = self.0.split_first()?;
        self.0 = rest;
        (*first == mark).then_some(())
    }

    /// Reads the next byte if it is this one, and returns whether it was.
    fn has(&mut self, mark: u8) -> bool {
        self.skip_space();
        let found = self.0.first() == Some(&mark);
        self.0 = &self.0[usize::from(found)..];
        found
    }

    fn word(&mut self) -> Option<&'a [u8]> {
        self.mark(b'"')?;
        let letters = self.0.iter().take_while(|it| it.is_ascii_lowercase()).count();
        let (word, rest) = self.0.split_at(letters);
        self.0 = rest;
        self.0 = self.0.strip_prefix(b"\"")?;
        Some(word)
    }

    /// A whole number as in JSON. If a fraction or an exponent follows, the next mark will not match.
    fn number(&mut self) -> Option<u32> {
        self.skip_space();
        let mut number = 0u32;
        let mut digits = 0;
        while let [digit @ b'0'..=b'9', rest @ ..] = self.0 {
            if digits > 0 && number == 0 {
                return None;
            }
            number = number.checked_mul(10)?.checked_add(u32::from(digit - b'0'))?;
            digits += 1;
            self.0 = rest;
        }
        (digits > 0).then_some(number)
    }

    fn next_number(&mut self) -> Option<u32> {
        self.mark(b',')?;
        self.number()
    }

    fn next_list<T>(&mut self, item: impl Fn(&mut Self) -> Option<T>) -> Option<Vec<T>> {
        self.mark(b',')?;
        self.mark(b'[')?;
        let mut items = Vec::new();
        if self.has(b']') {
            return Some(items);
        }
        loop {
            items.push(item(self)?);
            if !self.has(b',') {
                self.mark(b']')?;
                return Some(items);
            }
        }
    }

    fn link(&mut self) -> Option<(u32, u32)> {
        self.mark(b'[')?;
        let link = (self.number()?, self.next_number()?);
        self.mark(b']')?;
        Some(link)
    }

    fn edit(&mut self) -> Option<Edit> {
        self.mark(b'[')?;
        let word = self.word()?;
        let edit = self.ends(word)?;
        self.mark(b']')?;
        Some(edit)
    }

    /// The rest of the edit that begins with this word.
    fn ends(&mut self, word: &[u8]) -> Option<Edit> {
        let (u, v) = (self.next_number()?, self.next_number()?);
        match word {
            b"cut" => Some(Edit::Cut { u, v }),
            b"add" => Some(Edit::Add { u, v }),
            b"join" => Some(Edit::Join { u, v }),
            _ => None,
        }
    }
}
