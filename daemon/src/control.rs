//! The socket by which commands ask the daemon, and the side of the commands.
//!
//! A client sends one line: `status`, `routes`, `neighbours`, `metrics`, or `events N` for all events after the number N.
//! The answer is JSON, or text for `metrics`, and then the socket is closed. `events` goes on, with one event a line.

use crate::journal::Journal;
use mio::net::{UnixListener, UnixStream};
use mio::{Interest, Registry, Token};
use std::collections::BTreeMap;
use std::fs::{self, Permissions};
use std::io::{self, BufRead, BufReader, Read, Write};
use std::os::unix::fs::PermissionsExt;
use std::path::{Path, PathBuf};

/// Clients beyond this number have to wait.
const MOST_CLIENTS: usize = 16;
const LONGEST_LINE: usize = 64;
/// A client that follows events and does not read them is left.
const MOST_WAITING: usize = 1 << 20;

struct Client {
    stream: UnixStream,
    asked: Vec<u8>,
    answer: Vec<u8>,
    at: usize,
    /// The number of the last event that it was told, if it follows events.
    follows: Option<u64>,
    is_answered: bool,
}

pub struct Control {
    listener: UnixListener,
    path: PathBuf,
    clients: BTreeMap<usize, Client>,
    first: usize,
}

impl Control {
    /// Opens the socket. Tokens from `first` on are those of clients.
    pub fn open(
        path: &Path,
        registry: &Registry,
        token: Token,
        first: usize,
    ) -> io::Result<Control> {
        if let Some(folder) = path.parent().filter(|it| !it.exists()) {
            fs::create_dir(folder)?;
        }
        // No other process runs in this network, as the lock says. But one of another network may answer here.
        if std::os::unix::net::UnixStream::connect(path).is_ok() {
            let why = "another process answers there already";
            return Err(io::Error::new(io::ErrorKind::AddrInUse, why));
        }
        match fs::remove_file(path) {
            Err(error) if error.kind() != io::ErrorKind::NotFound => return Err(error),
            _ => (),
        }
        let mut listener = UnixListener::bind(path)?;
        fs::set_permissions(path, Permissions::from_mode(0o660))?;
        registry.register(&mut listener, token, Interest::READABLE)?;
        Ok(Control {
            listener,
            path: path.into(),
            clients: BTreeMap::new(),
            first,
        })
    }

    /// Takes up clients that wait.
    pub fn accept(&mut self, registry: &Registry) {
        while let Ok((mut stream, _)) = self.listener.accept() {
            let Some(token) =
                (self.first..self.first + MOST_CLIENTS).find(|it| !self.clients.contains_key(it))
            else {
                continue;
            };
            let both = Interest::READABLE | Interest::WRITABLE;
            if registry.register(&mut stream, Token(token), both).is_ok() {
                let client = Client {
                    stream,
                    asked: Vec::new(),
                    answer: Vec::new(),
                    at: 0,
                    follows: None,
                    is_answered: false,
                };
                self.clients.insert(token, client);
            }
        }
    }

    /// Whether a token is that of a client.
    pub fn has(&self, token: usize) -> bool {
        self.clients.contains_key(&token)
    }

    /// A client has said something, or can be written to.
    pub fn serve(&mut self, token: usize, mut answer: impl FnMut(&str) -> Vec<u8>) {
        let Some(client) = self.clients.get_mut(&token) else {
            return;
        };
        let is_open = client.read();
        if let (false, Some(line)) = (client.is_answered, client.line()) {
            client.is_answered = true;
            match line.strip_prefix("events ").and_then(|it| it.parse().ok()) {
                Some(number) => client.follows = Some(number),
                None => client.answer = answer(&line),
            }
        }
        if !is_open && !client.is_answered || !client.write() {
            self.clients.remove(&token);
        }
    }

    /// Tells new events to those that follow them.
    pub fn tell(&mut self, journal: &Journal) {
        let mut over = Vec::new();
        for (token, client) in &mut self.clients {
            let Some(number) = client.follows.filter(|it| *it < journal.count()) else {
                continue;
            };
            for entry in journal.after(number) {
                // An entry is text and numbers, which can be written.
                client
                    .answer
                    .extend(serde_json::to_vec(entry).unwrap_or_default());
                client.answer.push(b'\n');
            }
            client.follows = Some(journal.count());
            if client.answer.len() > MOST_WAITING || !client.write() {
                over.push(*token);
            }
        }
        for it in over {
            self.clients.remove(&it);
        }
    }
}

impl Drop for Control {
    fn drop(&mut self) {
        let _ = fs::remove_file(&self.path);
    }
}

impl Client {
    /// Reads what has come. Returns whether more may come.
    fn read(&mut self) -> bool {
        let mut data = [0; LONGEST_LINE];
        loop {
            match self.stream.read(&mut data) {
                Ok(0) => return false,
                // What comes after the line is not kept.
                Ok(count) if self.asked.len() < LONGEST_LINE => {
                    self.asked.extend_from_slice(&data[..count])
                }
                Ok(_) => (),
                Err(error) if error.kind() == io::ErrorKind::Interrupted => (),
                Err(error) => return error.kind() == io::ErrorKind::WouldBlock,
            }
        }
    }

    fn line(&self) -> Option<String> {
        let end = self.asked.iter().position(|it| *it == b'\n')?;
        Some(String::from_utf8_lossy(&self.asked[..end]).into_owned())
    }

    /// Writes what is left of the answer. Returns whether the client stays.
    fn write(&mut self) -> bool {
        while self.at < self.answer.len() {
            match self.stream.write(&self.answer[self.at..]) {
                Ok(count) => self.at += count,
                Err(error) if error.kind() == io::ErrorKind::Interrupted => (),
                Err(error) => return error.kind() == io::ErrorKind::WouldBlock,
            }
        }
        if self.follows.is_some() {
            self.answer.clear();
            self.at = 0;
        }
        self.follows.is_some() || !self.is_answered
    }
}

/// Asks the daemon, and returns its answer.
pub fn ask(path: &Path, line: &str) -> io::Result<Vec<u8>> {
    let mut stream = asked(path, line)?;
    let mut answer = Vec::new();
    stream.read_to_end(&mut answer)?;
    Ok(answer)
}

fn asked(path: &Path, line: &str) -> io::Result<std::os::unix::net::UnixStream> {
    let mut stream = std::os::unix::net::UnixStream::connect(path)?;
    stream.write_all(format!("{line}\n").as_bytes())?;
    Ok(stream)
}

/// Follows the events of the daemon, from all that it still has, until it ends.
pub fn follow(path: &Path, mut each: impl FnMut(&str) -> io::Result<()>) -> io::Result<()> {
    for line in BufReader::new(asked(path, "events 0")?).lines() {
        each(&line?)?;
    }
    Ok(())
}
