//! The daemon: sockets, signals and time around the machine.

use crate::boot::next_session;
use crate::config::{self, Config};
use crate::control::Control;
use crate::datagram::MOST_BYTES;
use crate::echo::{Answer, Echo};
use crate::interfaces::{Port, Waiting};
use crate::kernel::{Kernel, Write};
use crate::machine::{HOPS, Machine, Settings, drawn};
use crate::netlink::{DeviceNews, DeviceReader, Netlink};
use crate::view::Status;
use mio::unix::SourceFd;
use mio::{Events, Interest, Poll, Token};
use signal_hook::consts::{SIGHUP, SIGINT, SIGTERM};
use std::collections::{BTreeMap, BTreeSet};
use std::hash::RandomState;
use std::io::Read;
use std::os::linux::net::SocketAddrExt;
use std::os::unix::net::{SocketAddr, UnixDatagram};
use std::path::{Path, PathBuf};
use std::time::{Duration, Instant};

const DEVICES: Token = Token(0);
const END: Token = Token(1);
const RELOAD: Token = Token(2);
const LISTENER: Token = Token(3);
const CLIENTS: usize = 16;
const PORTS: usize = 1024;
/// Beyond the port of any device.
const ECHOES: usize = PORTS + (1 << 32);
/// How many datagrams of one device are taken before a write.
const MOST_AT_ONCE: usize = 64;
/// After this time something is tried again that the system has refused.
const RETRY: Duration = Duration::from_secs(1);
/// A process that a later start of its number has put out waits so long before it starts again, and twice as long each
/// time, up to the last one: there may be two routers with this number.
const FIRST_PAUSE: Duration = Duration::from_secs(1);
const LAST_PAUSE: Duration = Duration::from_secs(64);
/// How often the daemon tries to empty the tables at its end.
const MOST_TRIES: usize = 50;

pub struct Daemon {
    file: PathBuf,
    config: Config,
    machine: Machine<Netlink>,
    begun: Instant,
    poll: Poll,
    reader: DeviceReader,
    /// All devices of the system by their index.
    devices: BTreeMap<u32, DeviceNews>,
    ports: BTreeMap<u32, Port>,
    /// The mark of this process in its echo requests.
    mark: u64,
    /// Ports at which datagrams may wait, and those at which answers to echo requests may wait.
    ready: BTreeSet<u32>,
    answered: BTreeSet<u32>,
    control: Control,
    _ends: signal_hook_pipe::Pipe,
    reloads: signal_hook_pipe::Pipe,
    /// When a port is opened again whose opening was refused.
    retry: Duration,
    /// Until then no device is used.
    quiet: Duration,
    pause: Duration,
    _lock: UnixDatagram,
}

/// Signals that come by a pipe.
mod signal_hook_pipe {
    use std::io;
    use std::os::unix::net::UnixStream;

    pub type Pipe = UnixStream;

    pub fn of(signals: &[i32]) -> io::Result<Pipe> {
        let (reader, writer) = UnixStream::pair()?;
        reader.set_nonblocking(true)?;
        for it in signals {
            signal_hook::low_level::pipe::register(*it, writer.try_clone()?)?;
        }
        Ok(reader)
    }
}

/// A socket whose name only one process in a network namespace can have. The name is free again when the process ends.
fn lock() -> Result<UnixDatagram, String> {
    SocketAddr::from_abstract_name("revrouted")
        .and_then(|it| UnixDatagram::bind_addr(&it))
        .map_err(|_| "another revrouted runs on this router".into())
}

/// A connection to the kernel, if that lets this process change routes.
fn kernel() -> Result<Netlink, String> {
    let mut kernel = Netlink::new().map_err(|it| format!("netlink: {it}"))?;
    // This nexthop object is never there. So the kernel only says whether this process might delete it.
    match kernel.write(&[Write::RemoveHop { hop: HOPS }]).first() {
        Some(Err(it)) if it.0 == libc::EPERM => {
            Err("this process may not change routes: it needs CAP_NET_ADMIN".into())
        }
        Some(Err(it)) if it.0 == libc::EOPNOTSUPP => {
            Err("this kernel has no nexthop objects: it needs Linux 5.3".into())
        }
        Some(Err(it)) => Err(format!(
            "the kernel refuses to delete a nexthop object: {it}"
        )),
        _ => Ok(kernel),
    }
}

/// Puts what an error of the system is about before it.
fn fails(what: &str) -> impl FnOnce(std::io::Error) -> String {
    move |it| format!("{what}: {it}")
}

/// Has the loop wake up once something can be read.
fn follow(poll: &Poll, descriptor: i32, token: Token) -> std::io::Result<()> {
    let mut source = SourceFd(&descriptor);
    poll.registry()
        .register(&mut source, token, Interest::READABLE)
}

/// The machine of a process that starts.
fn machine(settings: Settings, session: u32, kernel: Netlink) -> Result<Machine<Netlink>, String> {
    let why = "the kernel does not let go what an earlier process has left";
    let mut machine = Machine::new(settings, session, kernel, Duration::ZERO)
        .map_err(|it| format!("{why}: {it}"))?;
    machine.journal.is_printed = true;
    machine.journal.add(format!(
        "router {} starts with boot number {session}",
        machine.settings.router
    ));
    Ok(machine)
}

/// Reads a file of the configuration. The error has its line and cause.
pub fn read_config(file: &Path) -> Result<(Config, Settings), String> {
    let name = file.display();
    let text = std::fs::read_to_string(file).map_err(|it| format!("{name}: {it}"))?;
    config::read(&text).map_err(|it| match it.line {
        Some(line) => format!("{name}:{line}: {}", it.why),
        None => format!("{name}: {}", it.why),
    })
}

impl Daemon {
    /// Starts. The error says why it does not.
    pub fn start(file: &Path) -> Result<Daemon, String> {
        let begun = Instant::now();
        let (config, settings) = read_config(file)?;
        let lock = lock()?;
        let kernel = kernel()?;
        let session = next_session(&config.state, 0)?;
        let poll = Poll::new().map_err(fails("poll"))?;
        let control = Control::open(&config.control, poll.registry(), LISTENER, CLIENTS)
            .map_err(fails(&config.control.display().to_string()))?;
        let reader = DeviceReader::new().map_err(fails("netlink"))?;
        let ends = signal_hook_pipe::of(&[SIGTERM, SIGINT]).map_err(fails("signals"))?;
        let reloads = signal_hook_pipe::of(&[SIGHUP]).map_err(fails("signals"))?;
        let all = [
            (reader.descriptor(), DEVICES),
            (fd(&ends), END),
            (fd(&reloads), RELOAD),
        ];
        for (descriptor, token) in all {
            follow(&poll, descriptor, token).map_err(fails("poll"))?;
        }
        let mark = drawn(settings.router, &RandomState::new());
        let mut daemon = Daemon {
            file: file.into(),
            config,
            machine: machine(settings, session, kernel)?,
            begun,
            poll,
            reader,
            devices: BTreeMap::new(),
            ports: BTreeMap::new(),
            mark,
            ready: BTreeSet::new(),
            answered: BTreeSet::new(),
            control,
            _ends: ends,
            reloads,
            retry: Duration::ZERO,
            quiet: Duration::ZERO,
            pause: FIRST_PAUSE,
            _lock: lock,
        };
        daemon.look_at_system();
        daemon.list_devices();
        daemon.look_at_interfaces();
        Ok(daemon)
    }

    fn now(&self) -> Duration {
        self.begun.elapsed()
    }

    /// Says what the system does not have that a router needs.
    fn look_at_system(&mut self) {
        let wrong = [
            (
                "ipv4/ip_forward",
                "net.ipv4.ip_forward is 0: this router forwards no IPv4",
            ),
            (
                "ipv6/conf/all/forwarding",
                "net.ipv6.conf.all.forwarding is 0: this router forwards no IPv6",
            ),
        ];
        for (name, text) in wrong {
            if setting(name) == Some(0) {
                self.machine.journal.add(text.into());
            }
        }
    }

    /// The interfaces of the configuration that are not there.
    fn missing_interfaces(&self) -> Vec<String> {
        let names = self.devices.values().map(|it| it.name.as_str());
        self.config.without_device(names)
    }

    fn look_at_interfaces(&mut self) {
        for it in self.missing_interfaces() {
            self.machine
                .journal
                .add(format!("there is no interface {it} yet"));
        }
    }

    /// Says if the kernel drops packets that come in by this device and would go by another one. Of the setting of the
    /// device and that of all, the greater one counts.
    fn look_at_filter(&mut self, device: &str) {
        let filter = |it: &str| setting(&format!("ipv4/conf/{it}/rp_filter"));
        if filter("all").max(filter(device)) == Some(1) {
            self.machine.journal.add(format!(
                "rp_filter is 1 for {device}: packets that come in there, but would go by another link, are dropped. \
                 Set net.ipv4.conf.{device}.rp_filter to 2"
            ));
        }
    }

    /// Learns of all devices.
    fn list_devices(&mut self) {
        let all = match self.machine.kernel.devices() {
            Ok(it) => it,
            Err(error) => {
                return self.machine.journal.add_rarely(
                    format!("the devices cannot be listed: {error}"),
                    self.begun.elapsed(),
                );
            }
        };
        let gone: Vec<u32> = self
            .devices
            .keys()
            .copied()
            .filter(|it| !all.iter().any(|new| new.index == *it))
            .collect();
        for index in gone {
            self.drop_device(index);
        }
        for it in all {
            self.follow_device(it);
        }
    }

    fn drop_device(&mut self, index: u32) {
        self.devices.remove(&index);
        self.ports.remove(&index);
        self.ready.remove(&index);
        self.answered.remove(&index);
        let now = self.now();
        if self.machine.devices.contains_key(&index) {
            self.machine.device_is_gone(index, now);
        }
    }

    fn follow_device(&mut self, it: DeviceNews) {
        if it.is_gone {
            return self.drop_device(it.index);
        }
        self.use_device(&it);
        self.devices.insert(it.index, it);
    }

    /// Tells the machine of a device that is to be used, and opens its port.
    fn use_device(&mut self, it: &DeviceNews) {
        let now = self.now();
        if !self.config.has_device(&it.name) || now < self.quiet {
            if self.machine.devices.contains_key(&it.index) {
                self.drop_device(it.index);
            }
            return;
        }
        if !self.ports.contains_key(&it.index) {
            self.open_port(it);
        }
        self.machine
            .device_is(it.index, &it.name, it.mac, it.has_carrier, now);
    }

    fn open_port(&mut self, it: &DeviceNews) {
        let now = self.now();
        let opened = Port::open(&it.name, it.index).and_then(|port| {
            let token = Token(PORTS + it.index as usize);
            follow(&self.poll, port.descriptor(), token)?;
            Ok(port)
        });
        match opened {
            Ok(mut port) => {
                port.echo = self.open_echo(it);
                self.ports.insert(it.index, port);
                self.look_at_filter(&it.name);
            }
            Err(error) => {
                self.machine.journal.add_rarely(
                    format!("{}: its socket cannot be opened: {error}", it.name),
                    now,
                );
                self.retry = now + RETRY;
            }
        }
    }

    /// The socket for echo requests. Without it the daemon notices later that a link carries nothing.
    fn open_echo(&mut self, it: &DeviceNews) -> Option<Echo> {
        let opened = Echo::open(&it.name, it.index, self.mark).and_then(|echo| {
            let token = Token(ECHOES + it.index as usize);
            follow(&self.poll, echo.descriptor(), token)?;
            Ok(echo)
        });
        opened
            .map_err(|error| {
                let text = format!("{}: it can send no echo requests: {error}", it.name);
                self.machine.journal.add_rarely(text, self.begun.elapsed());
            })
            .ok()
    }

    /// Opens ports again, and uses devices after a pause.
    fn try_again(&mut self) {
        let now = self.now();
        let is_due = |at: Duration| !at.is_zero() && at <= now;
        if is_due(self.retry) || is_due(self.quiet) {
            (self.retry, self.quiet) = (Duration::ZERO, Duration::ZERO);
            let all: Vec<DeviceNews> = self.devices.values().cloned().collect();
            for it in all {
                self.use_device(&it);
            }
        }
    }

    /// Runs until TERM or INT. Returns whether the kernel has removed all ways and closed all gates.
    pub fn run(mut self) -> bool {
        let mut events = Events::with_capacity(256);
        loop {
            if let Err(error) = self.poll.poll(&mut events, Some(self.patience())) {
                if error.kind() != std::io::ErrorKind::Interrupted {
                    self.machine.journal.add(format!("poll: {error}"));
                    return self.end();
                }
            }
            for it in &events {
                match it.token() {
                    DEVICES => self.follow_devices(),
                    END => return self.end(),
                    RELOAD => self.reload(),
                    LISTENER => self.control.accept(self.poll.registry()),
                    Token(it) if self.control.has(it) => self.serve(it),
                    Token(it) if it >= ECHOES => drop(self.answered.insert((it - ECHOES) as u32)),
                    Token(it) if it >= PORTS => drop(self.ready.insert((it - PORTS) as u32)),
                    _ => (),
                }
            }
            self.turn();
        }
    }

    fn patience(&self) -> Duration {
        if !self.ready.is_empty() || !self.answered.is_empty() {
            return Duration::ZERO;
        }
        let times = [self.retry, self.quiet]
            .into_iter()
            .filter(|it| !it.is_zero());
        let next = times
            .chain([self.machine.next_time()])
            .min()
            .unwrap_or(Duration::MAX);
        // Time is counted in milliseconds there, and a wake-up before it is due would be in vain.
        next.saturating_sub(self.now())
            .min(Duration::from_secs(3600))
            + Duration::from_micros(500)
    }

    fn turn(&mut self) {
        if self.machine.later_session.is_none() {
            // What has come is taken before silence counts: this process itself may have been stopped.
            self.listen();
            self.try_again();
            self.machine.turn(|| self.begun.elapsed());
            self.send();
        }
        self.control.tell(&self.machine.journal);
        let later = self.machine.later_session;
        if let Some(later) = later.filter(|_| self.retry <= self.begun.elapsed()) {
            self.start_again(later);
        }
    }

    fn listen(&mut self) {
        let mut buffer = [0; MOST_BYTES + 1];
        for index in std::mem::take(&mut self.ready) {
            let Some(port) = self.ports.get(&index) else {
                continue;
            };
            let mut count = 0;
            loop {
                match port.receive(&mut buffer) {
                    Waiting::Nothing => break,
                    Waiting::Stranger => self.machine.counts.datagrams_ignored += 1,
                    Waiting::Datagram(source, length) => {
                        self.machine
                            .take(index, source, &buffer[..length], self.begun.elapsed());
                    }
                }
                count += 1;
                if count == MOST_AT_ONCE {
                    self.ready.insert(index);
                    break;
                }
            }
        }
        for index in std::mem::take(&mut self.answered) {
            self.take_answers(index);
        }
    }

    /// Takes the answers to echo requests that wait at a port.
    fn take_answers(&mut self, index: u32) {
        let Some(echo) = self.ports.get(&index).and_then(|it| it.echo.as_ref()) else {
            return;
        };
        for _ in 0..MOST_AT_ONCE {
            match echo.receive() {
                Answer::Nothing => return,
                Answer::Other => (),
                Answer::From(source) => {
                    let now = self.begun.elapsed();
                    self.machine.kernel_answers(index, source, now);
                }
            }
        }
        self.answered.insert(index);
    }

    fn send(&mut self) {
        for (device, data) in std::mem::take(&mut self.machine.outbox) {
            if let Some(port) = self.ports.get(&device) {
                port.send(&data);
            }
        }
        for (device, address) in std::mem::take(&mut self.machine.asks) {
            let port = self.ports.get_mut(&device);
            if let Some(echo) = port.and_then(|it| it.echo.as_mut()) {
                echo.ask(address);
            }
        }
    }

    fn follow_devices(&mut self) {
        match self.reader.read() {
            Some(all) => {
                for it in all {
                    self.follow_device(it);
                }
            }
            None => {
                // There was too much news to keep, so each carrier may have been lost for a moment.
                let now = self.now();
                let used: Vec<_> = self
                    .machine
                    .devices
                    .iter()
                    .map(|(index, it)| (*index, it.name.clone(), it.mac))
                    .collect();
                for (index, name, mac) in used {
                    self.machine.device_is(index, &name, mac, false, now);
                }
                self.list_devices();
            }
        }
    }

    fn serve(&mut self, token: usize) {
        let missing = self.missing_interfaces();
        let (machine, now) = (&self.machine, self.begun.elapsed());
        let pause = self.quiet.saturating_sub(now);
        let status = || Status {
            missing: missing.clone(),
            pause_seconds: (!pause.is_zero()).then_some(pause.as_secs_f64()),
            ..machine.status(now)
        };
        // The answers are text and numbers, which can be written.
        self.control.serve(token, |line| match line {
            "status" => serde_json::to_vec(&status()).unwrap_or_default(),
            "routes" => serde_json::to_vec(&machine.routes(now)).unwrap_or_default(),
            "neighbours" => serde_json::to_vec(&machine.neighbour_views(now)).unwrap_or_default(),
            "metrics" => machine.metrics(now).into_bytes(),
            _ => Vec::new(),
        });
        self.control.tell(&self.machine.journal);
    }

    fn reload(&mut self) {
        while self.reloads.read(&mut [0; 64]).is_ok_and(|it| it > 0) {}
        let (config, settings) = match read_config(&self.file) {
            Ok(it) => it,
            Err(why) => return self.machine.journal.add(format!("not reloaded: {why}")),
        };
        let now = &self.machine.settings;
        let changed = [
            ("router", settings.router != now.router),
            ("table", settings.table != now.table),
            ("state", config.state != self.config.state),
            ("control", config.control != self.config.control),
        ];
        if let Some((key, _)) = changed.iter().find(|it| it.1) {
            let why = format!("not reloaded: `{key}` changes only by a new start");
            return self.machine.journal.add(why);
        }
        self.config = config;
        self.machine.configure(settings, self.begun.elapsed());
        self.machine
            .journal
            .add("the configuration is reloaded".into());
        let all: Vec<DeviceNews> = self.devices.values().cloned().collect();
        for it in all {
            self.use_device(&it);
        }
        self.look_at_interfaces();
    }

    /// A neighbour knows a later start of this router. Empties the tables, and starts again with a greater number.
    fn start_again(&mut self, later: u32) {
        let (now, router) = (self.now(), self.machine.settings.router);
        let why = format!(
            "a neighbour knows a process with the number {router} and the boot number {later}, which this one, with {}, has not \
             surpassed. Either the boot number has gone back, or another router has this number. Trying again in {} s",
            self.machine.start.session,
            self.pause.as_secs()
        );
        self.machine.journal.add(why);
        self.machine.empty(now);
        let fresh = next_session(&self.config.state, later)
            .and_then(|session| Ok((session, kernel()?)))
            .and_then(|(session, kernel)| {
                Machine::new(self.machine.settings.clone(), session, kernel, now)
                    .map_err(|it| it.to_string())
            });
        match fresh {
            Ok(mut machine) => {
                machine.journal = std::mem::take(&mut self.machine.journal);
                machine.counts = self.machine.counts;
                self.machine = machine;
                self.quiet = now + self.pause;
                self.pause = (self.pause * 2).min(LAST_PAUSE);
            }
            // Nothing is said, and it tries again.
            Err(why) => {
                self.machine.journal.add_rarely(why, now);
                self.retry = now + RETRY;
            }
        }
    }

    /// Closes all gates, then removes all ways, and tells the neighbours.
    fn end(mut self) -> bool {
        for _ in 0..MOST_TRIES {
            if self.machine.empty(self.begun.elapsed()) {
                self.machine.say_goodbye();
                self.send();
                self.machine
                    .journal
                    .add("ended: all gates are closed, and the ways are removed".into());
                self.control.tell(&self.machine.journal);
                return true;
            }
            std::thread::sleep(Duration::from_millis(100));
        }
        self.machine
            .journal
            .add("ended, but the kernel refuses to close gates or to remove ways".into());
        false
    }
}

/// A number to which the kernel's networks are set.
fn setting(name: &str) -> Option<u32> {
    let text = std::fs::read_to_string(format!("/proc/sys/net/{name}")).ok()?;
    text.trim().parse().ok()
}

fn fd(it: &impl std::os::fd::AsRawFd) -> i32 {
    it.as_raw_fd()
}
