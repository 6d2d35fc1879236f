//! `revrouted`: routes between all routers of a network, without a loop whatever is lost and whoever restarts.

mod asking;
mod boot;
mod config;
mod control;
mod daemon;
mod datagram;
mod destination;
mod echo;
mod former;
mod gates;
mod hearing;
#[cfg(test)]
mod hostile;
mod interfaces;
mod journal;
mod kernel;
mod leaving;
mod machine;
mod neighbour;
mod netlink;
mod news;
mod prefix;
mod round_trip;
mod senders;
mod speaking;
mod system;
#[cfg(test)]
mod tests;
mod view;
mod writing;

use clap::{Parser, Subcommand};
use serde::de::DeserializeOwned;
use std::io::{self, Write};
use std::path::{Path, PathBuf};
use std::process::ExitCode;

const CONFIG: &str = "/etc/revrouted.toml";
/// The status if the daemon does not start, or a command is wrong.
const NOT_STARTED: u8 = 2;

/// Routes IPv4 and IPv6 between all routers of a network, without loops.
#[derive(Parser)]
#[command(version, about)]
struct Words {
    #[command(subcommand)]
    command: Command,
}

#[derive(Subcommand)]
enum Command {
    /// Run the daemon, until TERM or INT. HUP reloads the configuration
    Run {
        /// The configuration
        #[arg(long, value_name = "FILE", default_value = CONFIG)]
        config: PathBuf,
    },
    /// Say what is wrong with a configuration
    Check {
        #[arg(value_name = "FILE", default_value = CONFIG)]
        file: PathBuf,
    },
    /// Show interfaces, neighbours and counts
    Status(Asked),
    /// Show prefixes with their ways and gates
    Routes(Asked),
    /// Show neighbours and the links to them
    Neighbours(Asked),
    /// Show what has happened, and follow what happens
    Events(Asked),
    /// Show counters in the text form of Prometheus
    Metrics(Socket),
}

#[derive(clap::Args)]
struct Asked {
    /// Print JSON
    #[arg(long)]
    json: bool,
    #[command(flatten)]
    socket: Socket,
}

#[derive(clap::Args)]
struct Socket {
    /// The socket of the daemon
    #[arg(long, value_name = "SOCKET", default_value_os_t = config::default_control())]
    control: PathBuf,
}

fn main() -> ExitCode {
    let done = match Words::parse().command {
        Command::Run { config } => return run(&config),
        Command::Check { file } => daemon::read_config(&file).map(drop),
        Command::Status(it) => show(&it, "status", |it: &view::Status| view::status_text(it)),
        Command::Routes(it) => show(&it, "routes", |it: &Vec<view::Route>| view::routes_text(it)),
        Command::Neighbours(it) => show(&it, "neighbours", |it: &Vec<view::NeighbourView>| {
            view::neighbours_text(it)
        }),
        Command::Events(it) => events(&it),
        Command::Metrics(it) => asked(&it.control, "metrics").and_then(|it| print(&it)),
    };
    match done {
        Ok(()) => ExitCode::SUCCESS,
        Err(why) => {
            eprintln!("revrouted: {why}");
            ExitCode::from(NOT_STARTED)
        }
    }
}

fn run(config: &Path) -> ExitCode {
    match daemon::Daemon::start(config) {
        Ok(it) => ExitCode::from(u8::from(!it.run())),
        Err(why) => {
            eprintln!("revrouted: {why}");
            ExitCode::from(NOT_STARTED)
        }
    }
}

fn asked(control: &Path, line: &str) -> Result<Vec<u8>, String> {
    control::ask(control, line).map_err(|it| {
        let hint = match it.kind() {
            io::ErrorKind::PermissionDenied => "Only its user and its group may ask the daemon",
            _ => "Does the daemon run?",
        };
        format!("{}: {it}. {hint}", control.display())
    })
}

fn print(text: &[u8]) -> Result<(), String> {
    match io::stdout().lock().write_all(text) {
        // The reader has seen enough.
        Err(error) if error.kind() == io::ErrorKind::BrokenPipe => Ok(()),
        other => other.map_err(|it| it.to_string()),
    }
}

fn show<T: DeserializeOwned>(
    words: &Asked,
    line: &str,
    text: impl Fn(&T) -> String,
) -> Result<(), String> {
    let mut answer = asked(&words.socket.control, line)?;
    if words.json {
        answer.push(b'\n');
        return print(&answer);
    }
    let it = serde_json::from_slice(&answer)
        .map_err(|it| format!("the daemon is of another version: {it}"))?;
    print(text(&it).as_bytes())
}

fn events(words: &Asked) -> Result<(), String> {
    let each = |line: &str| {
        if words.json {
            return writeln!(io::stdout(), "{line}");
        }
        match serde_json::from_str::<journal::Entry>(line) {
            Ok(it) => writeln!(io::stdout(), "{} {}", clock(it.time), it.text),
            Err(_) => writeln!(io::stdout(), "{line}"),
        }
    };
    let control = &words.socket.control;
    match control::follow(control, each) {
        Err(error) if error.kind() == io::ErrorKind::BrokenPipe => Ok(()),
        other => other.map_err(|it| format!("{}: {it}", control.display())),
    }
}

/// The time of the day, in UTC.
fn clock(seconds: f64) -> String {
    let whole = seconds as u64 % 86_400;
    format!(
        "{:02}:{:02}:{:06.3}",
        whole / 3600,
        whole / 60 % 60,
        (whole % 60) as f64 + seconds.fract()
    )
}
