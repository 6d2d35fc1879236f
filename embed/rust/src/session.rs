//! A session that answers lines: a line has a request in JSON, and its answer is a line of text.

use crate::engine::Engine;
use crate::{NoMemory, sys, text_of};
use std::fmt;

/// The size of a session's first buffer for answers. The buffer grows when an answer is longer.
const FIRST_ROOM: usize = 4096;

/// Answers lines as the program `revroute run` does. A session holds the network that the lines so far have made. It
/// begins without a network.
///
/// ```
/// let mut session = revroute::Session::new();
/// assert_eq!(session.answer(r#"["net",4,0,[[0,1],[1,2],[2,3]]]"#)?, Some("turned 6 cut 0"));
/// assert_eq!(session.answer(r#"["walk",3]"#)?, Some("walk 3 2 1 0"));
/// # Ok::<(), revroute::NoMemory>(())
/// ```
///
/// A session can be sent to another thread, and each thread can have its own:
///
/// ```
/// let mut session = revroute::Session::new();
/// session.answer(r#"["net",2,0,[[0,1]]]"#)?;
/// let walk = std::thread::spawn(move || session.answer(r#"["walk",1]"#).map(|it| it.map(String::from)));
/// assert_eq!(walk.join().unwrap()?.as_deref(), Some("walk 1 0"));
/// # Ok::<(), revroute::NoMemory>(())
/// ```
///
/// Threads cannot share a session:
///
/// ```compile_fail,E0277
/// fn is_shared<T: Sync>() {}
/// is_shared::<revroute::Session>();
/// ```
pub struct Session {
    pub(crate) engine: Engine,
    pub(crate) buffer: Vec<u8>,
}

impl Session {
    /// A session without a network. It holds no memory. `O(1)`.
    pub const fn new() -> Session {
        Session {
            engine: Engine::new(),
            buffer: Vec::new(),
        }
    }

    /// Answers a line. A refused request has an answer too. Returns `None` for a blank line, which has only spaces,
    /// tabs and carriage returns.
    ///
    /// The line may end with one newline, so you can pass lines as you read them. The answer has no newline. `O(b)`
    /// for b bytes of line and answer, and the cost of the same call of [`Network`](crate::Network).
    ///
    /// ```
    /// let mut session = revroute::Session::new();
    /// assert_eq!(session.answer("[\"walk\",3]\n")?, Some("refused 3"));
    /// assert_eq!(session.answer(" ")?, None);
    /// # Ok::<(), revroute::NoMemory>(())
    /// ```
    ///
    /// # Errors
    ///
    /// If memory for the answer or its buffer runs out. Then the session is unchanged, and you can ask again.
    pub fn answer(&mut self, line: impl AsRef<[u8]>) -> Result<Option<&str>, NoMemory> {
        let line = line.as_ref();
        self.answer_bytes(line.strip_suffix(b"\n").unwrap_or(line))
    }

    fn answer_bytes(&mut self, line: &[u8]) -> Result<Option<&str>, NoMemory> {
        loop {
            let mut length = 0;
            // SAFETY: the handle is new or the library's own, the line and the buffer are slices, and none of the
            // four overlap.
            let status = unsafe {
                sys::revroute_answer(
                    self.engine.handle(),
                    line.as_ptr(),
                    line.len(),
                    self.buffer.as_mut_ptr(),
                    self.buffer.len(),
                    &mut length,
                )
            };
            match status {
                sys::ANSWERED => return Ok(Some(text_of(&self.buffer[..length]))),
                sys::BLANK => return Ok(None),
                sys::TOO_SHORT => make_room(&mut self.buffer, length)?,
                sys::NO_MEMORY => return Err(NoMemory),
                _ => unreachable!("a call has four ends"),
            }
        }
    }
}

impl Default for Session {
    fn default() -> Session {
        Session::new()
    }
}

impl fmt::Debug for Session {
    fn fmt(&self, f: &mut fmt::Formatter<'_>) -> fmt::Result {
        f.debug_struct("Session").finish_non_exhaustive()
    }
}

/// Makes the buffer at least `wanted` bytes long, and at least twice as long as before.
pub(crate) fn make_room(buffer: &mut Vec<u8>, wanted: usize) -> Result<(), NoMemory> {
    let room = wanted.max(2 * buffer.len()).max(FIRST_ROOM);
    buffer
        .try_reserve_exact(room - buffer.len())
        .map_err(|_| NoMemory)?;
    buffer.resize(room, 0);
    Ok(())
}
