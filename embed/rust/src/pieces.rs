//! Lines that arrive in pieces, cut anywhere, as from a socket.

use crate::session::make_room;
use crate::{NoMemory, Session, sys, text_of};
use std::fmt;

/// Why a piece was not taken. Nothing has changed, neither the session nor the piece.
#[derive(Debug, Clone, Copy, PartialEq, Eq)]
#[non_exhaustive]
pub enum TakeFault {
    /// Memory ran out. You can pass the same piece again.
    NoMemory,
    /// The line has more than 16,777,216 bytes.
    TooLong,
}

impl fmt::Display for TakeFault {
    fn fmt(&self, f: &mut fmt::Formatter<'_>) -> fmt::Result {
        f.write_str(match self {
            TakeFault::NoMemory => "no memory",
            TakeFault::TooLong => "input too long",
        })
    }
}

impl std::error::Error for TakeFault {}

impl From<NoMemory> for TakeFault {
    fn from(_: NoMemory) -> TakeFault {
        TakeFault::NoMemory
    }
}

impl Session {
    /// Takes bytes from the front of a piece, up to and including its first newline, and answers the line that ends
    /// there. The line begins with the bytes that were kept before. If the piece has no newline, the session takes
    /// all of it and keeps it.
    ///
    /// Returns `None` if no line has ended, or if the line is blank. Call it until the piece is empty. `O(b)` for b
    /// bytes taken, and at a newline the cost of [`answer`](Session::answer).
    ///
    /// ```
    /// let (mut session, mut answers) = (revroute::Session::new(), Vec::new());
    /// for mut piece in [&b"[\"net\",3,0,[[0,1],[1,2]]]\n[\"wa"[..], b"lk\",2]\n[\"links\"]"] {
    ///     while !piece.is_empty() {
    ///         answers.extend(session.take(&mut piece)?.map(String::from));
    ///     }
    /// }
    /// assert_eq!(answers, ["turned 3 cut 0", "walk 2 1 0"]);
    /// assert_eq!(session.finish()?, Some("links 1>0 2>1"));
    /// # Ok::<(), revroute::TakeFault>(())
    /// ```
    ///
    /// [`answer`](Session::answer) neither reads nor changes the bytes that are kept.
    ///
    /// # Errors
    ///
    /// [`TakeFault`]. Then nothing of the piece was taken.
    pub fn take(&mut self, piece: &mut &[u8]) -> Result<Option<&str>, TakeFault> {
        loop {
            let (mut length, mut taken) = (0, 0);
            // SAFETY: the handle is new or the library's own, the piece and the buffer are slices, and none of the
            // five overlap.
            let status = unsafe {
                sys::revroute_take(
                    self.engine.handle(),
                    piece.as_ptr(),
                    piece.len(),
                    self.buffer.as_mut_ptr(),
                    self.buffer.len(),
                    &mut length,
                    &mut taken,
                )
            };
            *piece = &piece[taken..];
            match status {
                sys::ANSWERED => return Ok(Some(text_of(&self.buffer[..length]))),
                sys::BLANK | sys::BEGUN => return Ok(None),
                sys::TOO_SHORT => make_room(&mut self.buffer, length)?,
                sys::NO_MEMORY => return Err(TakeFault::NoMemory),
                sys::TOO_LONG => return Err(TakeFault::TooLong),
                _ => unreachable!("a piece has six ends"),
            }
        }
    }

    /// Call this at the end of the input. It answers the line that has begun, at the cost of
    /// [`answer`](Session::answer). Returns `None` if none has begun, or if it is blank.
    ///
    /// # Errors
    ///
    /// If memory runs out. The line is kept, and you can call again.
    pub fn finish(&mut self) -> Result<Option<&str>, NoMemory> {
        loop {
            let mut length = 0;
            // SAFETY: the handle is new or the library's own, the buffer is a slice, and none of the three overlap.
            let status = unsafe {
                sys::revroute_finish(
                    self.engine.handle(),
                    self.buffer.as_mut_ptr(),
                    self.buffer.len(),
                    &mut length,
                )
            };
            match status {
                sys::ANSWERED => return Ok(Some(text_of(&self.buffer[..length]))),
                sys::BLANK => return Ok(None),
                sys::TOO_SHORT => make_room(&mut self.buffer, length)?,
                sys::NO_MEMORY => return Err(NoMemory),
                _ => unreachable!("an end has four ends"),
            }
        }
    }
}
