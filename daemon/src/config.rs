//! The file of the configuration, in TOML.

use crate::datagram::Key;
use crate::machine::{LONGEST_DEAD, MAIN, Settings};
use crate::prefix::Prefix;
use serde::Deserialize;
use serde::de::{Deserializer, Error as _};
use std::collections::{BTreeMap, BTreeSet};
use std::path::{Path, PathBuf};
use std::time::Duration;

const SHORTEST_HELLO: f64 = 0.02;
const SHORTEST_SECRET: usize = 16;

/// What the file says.
#[derive(Deserialize)]
#[serde(deny_unknown_fields)]
pub struct Config {
    router: u32,
    interfaces: Vec<String>,
    #[serde(default)]
    announce: Vec<Prefix>,
    #[serde(default = "default_hello")]
    hello: f64,
    #[serde(default = "default_dead")]
    dead: f64,
    #[serde(default = "default_forget")]
    forget: f64,
    #[serde(default = "default_ceiling")]
    ceiling: u32,
    #[serde(default = "default_table")]
    table: u32,
    #[serde(default = "default_state")]
    pub state: PathBuf,
    #[serde(default = "default_control")]
    pub control: PathBuf,
    #[serde(default)]
    key: Vec<KeyConfig>,
    #[serde(default)]
    interface: BTreeMap<String, InterfaceConfig>,
}

#[derive(Deserialize)]
#[serde(deny_unknown_fields)]
struct KeyConfig {
    number: u8,
    secret: Option<String>,
    file: Option<PathBuf>,
}

#[derive(Deserialize)]
#[serde(deny_unknown_fields)]
struct InterfaceConfig {
    #[serde(default = "default_cost")]
    cost: u32,
    #[serde(default)]
    lan: bool,
}

fn default_cost() -> u32 {
    1
}

fn default_hello() -> f64 {
    1.0
}

fn default_dead() -> f64 {
    4.0
}

fn default_forget() -> f64 {
    60.0
}

fn default_ceiling() -> u32 {
    64
}

fn default_table() -> u32 {
    MAIN
}

fn default_state() -> PathBuf {
    "/var/lib/revrouted".into()
}

pub fn default_control() -> PathBuf {
    "/run/revrouted/control".into()
}

impl<'de> Deserialize<'de> for Prefix {
    fn deserialize<D: Deserializer<'de>>(from: D) -> Result<Prefix, D::Error> {
        String::deserialize(from)?.parse().map_err(D::Error::custom)
    }
}

/// A key of the file, and what is wrong with it.
type WrongKey = (&'static str, String);

/// What is wrong with a file: the line, counted from 1, if one is, and why.
#[derive(Debug, PartialEq, Eq)]
pub struct Fault {
    pub line: Option<usize>,
    pub why: String,
}

/// Reads a configuration, and what the machine has to know of it.
pub fn read(text: &str) -> Result<(Config, Settings), Fault> {
    let config: Config = toml::from_str(text).map_err(|it| Fault {
        line: line_of(text, &it),
        why: why_of(&it),
    })?;
    let settings = config.settings().map_err(|(key, why)| Fault {
        // A `dead` that is not there has a usual value, which `hello` does not fit.
        line: line_with(text, key).or_else(|| line_with(text, "hello")),
        why,
    })?;
    Ok((config, settings))
}

/// The line of a fault. Where the crate names the place of a table instead, that of a key that is not known or is there twice,
/// or of a prefix. A key that is missing has no line.
fn line_of(text: &str, error: &toml::de::Error) -> Option<usize> {
    let said = error.to_string();
    let after = |part: &str| Some(said.split_once(part)?.1.split_once('`')?.0.to_string());
    if said.starts_with("missing field") {
        return None;
    }
    if let Some(prefix) = said.strip_prefix('`').and_then(|it| it.split_once('`')) {
        let quoted = ['"', '\''].map(|quote| format!("{quote}{}{quote}", prefix.0));
        let has_it = |line: &str| quoted.iter().any(|it| line.contains(it));
        return text.lines().position(has_it).map(|it| it + 1);
    }
    if let Some(key) = after("duplicate field `").or_else(|| after("duplicate key: `")) {
        return text
            .lines()
            .collect::<Vec<_>>()
            .iter()
            .rposition(|it| sets(it, &key))
            .map(|it| it + 1);
    }
    let unknown = after("unknown field `").and_then(|it| line_with(text, &it));
    unknown.or(error.line_col().map(|(line, _)| line + 1))
}

/// Whether a line sets a key, or begins its table.
fn sets(line: &str, key: &str) -> bool {
    let rest = line.trim_start().trim_start_matches('[').strip_prefix(key);
    rest.is_some_and(|it| it.trim_start().starts_with(['=', ']', '.']))
}

/// What the crate expects, in its words and in those of a reader.
const EXPECTED: [(&str, &str); 4] = [
    (
        "expected u32",
        "expected a whole number from 0 to 4294967295",
    ),
    ("expected u8", "expected a whole number from 1 to 255"),
    ("expected f64", "expected a number"),
    ("expected a sequence", "expected a list"),
];

/// The text of an error without its place, which is printed before it.
fn why_of(error: &toml::de::Error) -> String {
    let text = error.to_string();
    let why = text.rsplit_once(" at line ").map_or(&*text, |it| it.0);
    let words = EXPECTED.iter();
    words.fold(why.into(), |why, (said, read)| why.replace(said, read))
}

/// The first line that sets this key.
fn line_with(text: &str, key: &str) -> Option<usize> {
    text.lines().position(|it| sets(it, key)).map(|it| it + 1)
}

impl Config {
    /// The interfaces of the configuration that none of these devices fits.
    pub fn without_device<'a>(&self, names: impl Iterator<Item = &'a str> + Clone) -> Vec<String> {
        let fits = |pattern: &str| {
            names
                .clone()
                .any(|it| matches(pattern.as_bytes(), it.as_bytes()))
        };
        let some = self.interfaces.iter().filter(|it| !fits(it));
        some.cloned().collect()
    }

    /// Whether a device is one of those over which there may be neighbours.
    pub fn has_device(&self, name: &str) -> bool {
        name != "lo"
            && self
                .interfaces
                .iter()
                .any(|it| matches(it.as_bytes(), name.as_bytes()))
    }

    /// The settings, or a key of the file and what is wrong with it.
    fn settings(&self) -> Result<Settings, WrongKey> {
        if self.interfaces.is_empty() {
            let why = "no interface is named, so there are no neighbours";
            return Err(("interfaces", why.into()));
        }
        self.look_at_timers()?;
        self.look_at_routes()?;
        let costs = self.interface.iter();
        let lans = self.interface.iter().filter(|(_, it)| it.lan);
        Ok(Settings {
            router: self.router,
            hello: Duration::from_secs_f64(self.hello),
            dead: Duration::from_secs_f64(self.dead),
            forget: Duration::from_secs_f64(self.forget),
            ceiling: self.ceiling,
            table: self.table,
            keys: self.keys().map_err(|why| ("key", why))?,
            announce: self.announce.iter().copied().collect(),
            costs: costs.map(|(name, it)| (name.clone(), it.cost)).collect(),
            lans: lans.map(|(name, _)| name.clone()).collect(),
        })
    }

    fn look_at_timers(&self) -> Result<(), WrongKey> {
        if !(SHORTEST_HELLO..=10.0).contains(&self.hello) {
            return Err((
                "hello",
                format!("`hello` is from {SHORTEST_HELLO} to 10 seconds"),
            ));
        }
        let most = LONGEST_DEAD.as_secs_f64();
        if !(self.hello * 2.0..=most).contains(&self.dead) {
            return Err((
                "dead",
                format!(
                    "`dead` is at least twice `hello`, and at most {most} seconds: here it is {}, and `hello` {}",
                    self.dead, self.hello
                ),
            ));
        }
        if !(1.0..=86_400.0).contains(&self.forget) {
            return Err(("forget", "`forget` is from 1 to 86400 seconds".into()));
        }
        Ok(())
    }

    fn look_at_routes(&self) -> Result<(), WrongKey> {
        if self.ceiling == 0 {
            return Err(("ceiling", "`ceiling` is at least 1".into()));
        }
        if self.table == 0 || self.table == 255 || self.table >= crate::machine::GATES {
            return Err((
                "table",
                format!(
                    "{} is not a table for ways, such as 254, the main table",
                    self.table
                ),
            ));
        }
        let different: BTreeSet<Prefix> = self.announce.iter().copied().collect();
        if different.len() < self.announce.len() {
            return Err(("announce", "a prefix is announced twice".into()));
        }
        let is_wrong = |it: &InterfaceConfig| !(1..self.ceiling.max(2)).contains(&it.cost);
        if let Some((name, it)) = self.interface.iter().find(|it| is_wrong(it.1)) {
            let (cost, ceiling) = (it.cost, self.ceiling);
            let why = format!(
                "the cost of {name} is {cost}, and has to be at least 1 and below `ceiling`, which is {ceiling}"
            );
            return Err(("interface", why));
        }
        Ok(())
    }

    fn keys(&self) -> Result<Vec<Key>, String> {
        let (mut keys, mut numbers) = (Vec::new(), BTreeSet::new());
        for it in &self.key {
            if it.number == 0 {
                return Err("the number of a key is from 1 to 255, and here it is 0".into());
            }
            if !numbers.insert(it.number) {
                return Err(format!("there are two keys with the number {}", it.number));
            }
            let secret = match (&it.secret, &it.file) {
                (Some(text), None) => text.clone().into_bytes(),
                (None, Some(file)) => secret_in(file)?,
                _ => {
                    return Err(format!(
                        "key {} has either a `secret` or a `file`",
                        it.number
                    ));
                }
            };
            if secret.len() < SHORTEST_SECRET {
                return Err(format!(
                    "the secret of key {} has less than {SHORTEST_SECRET} bytes",
                    it.number
                ));
            }
            keys.push(Key {
                number: it.number,
                secret,
            });
        }
        Ok(keys)
    }
}

fn secret_in(file: &Path) -> Result<Vec<u8>, String> {
    let mut bytes = std::fs::read(file).map_err(|it| format!("{}: {it}", file.display()))?;
    while bytes.last().is_some_and(u8::is_ascii_whitespace) {
        bytes.pop();
    }
    Ok(bytes)
}

/// Whether a name fits a pattern, in which `*` stands for any text.
fn matches(pattern: &[u8], name: &[u8]) -> bool {
    let Some(star) = pattern.iter().position(|it| *it == b'*') else {
        return pattern == name;
    };
    let (first, rest) = (&pattern[..star], &pattern[star + 1..]);
    name.strip_prefix(first)
        .is_some_and(|left| (0..=left.len()).any(|at| matches(rest, &left[at..])))
}

#[cfg(test)]
mod tests {
    use super::*;

    const FIRST: &str = "router = 3\ninterfaces = [\"eth*\", \"wg0\"]\nannounce = [\"10.0.3.0/24\", \"fd00:3::/48\"]\n";

    #[test]
    fn a_short_file_is_enough() {
        let (config, settings) = read(FIRST).unwrap_or_else(|it| panic!("{it:?}"));
        assert_eq!(
            (settings.router, settings.table, settings.ceiling),
            (3, 254, 64)
        );
        assert_eq!(
            (settings.hello, settings.dead),
            (Duration::from_secs(1), Duration::from_secs(4))
        );
        assert_eq!(settings.announce.len(), 2);
        for (name, is_used) in [
            ("eth0", true),
            ("eth", true),
            ("wg0", true),
            ("wg1", false),
            ("lo", false),
            ("xeth0", false),
        ] {
            assert_eq!(config.has_device(name), is_used, "{name}");
        }
    }

    /// The configurations that README and DAEMON show are taken as they are.
    #[test]
    fn what_the_pages_show_is_taken() {
        let top = Path::new(env!("CARGO_MANIFEST_DIR")).join("..");
        for page in ["README.md", "docs/DAEMON.md"] {
            let text = std::fs::read_to_string(top.join(page)).unwrap();
            let shown: Vec<&str> = text
                .split("```toml\n")
                .skip(1)
                .filter_map(|it| it.split("```").next())
                .collect();
            assert!(!shown.is_empty(), "{page}");
            for it in shown {
                assert!(read(it).is_ok(), "{page}: {:?}", read(it).err());
            }
        }
    }

    #[test]
    fn patterns() {
        for (pattern, name, fits) in [
            ("*", "", true),
            ("*", "eth0", true),
            ("e*0", "eth0", true),
            ("e*0", "eth1", false),
            ("a*b*c", "abbc", true),
            ("a*b*c", "acb", false),
            ("", "", true),
            ("", "a", false),
            ("a**", "a", true),
        ] {
            assert_eq!(
                matches(pattern.as_bytes(), name.as_bytes()),
                fits,
                "{pattern} {name}"
            );
        }
    }

    /// What is wrong with a first file and one line after it.
    #[track_caller]
    fn fault(line: &str) -> (Option<usize>, String) {
        match read(&format!("{FIRST}{line}\n")) {
            Ok(_) => panic!("{line} is taken"),
            Err(it) => (it.line, it.why),
        }
    }

    #[test]
    fn faults_have_their_line_and_cause() {
        for (line, part) in [
            ("hello = 0.001", "`hello` is from"),
            ("hello = 1e300", "`hello` is from"),
            ("hello = nan", "`hello` is from"),
            ("dead = 1.5", "`dead` is at least twice"),
            ("dead = 31.0", "at most 30"),
            ("forget = 0.5", "`forget` is from 1"),
            ("ceiling = 0", "`ceiling` is at least 1"),
            ("table = 255", "not a table for ways"),
            ("helo = 1.0", "unknown field `helo`"),
            ("hello = \"1\"", "expected a number"),
            ("ceiling = 0.5", "expected a whole number from 0"),
            ("ceiling = 4294967296", "from 0 to 4294967295"),
            ("[[key]]\nnumber = 256", "from 1 to 255"),
            ("router = 4", "duplicate"),
            ("= 3", "expected"),
            ("[[key]]\nnumber = 1", "either a `secret` or a `file`"),
            (
                "[[key]]\nnumber = 0\nsecret = \"0123456789abcdef\"",
                "from 1 to 255",
            ),
            (
                "[[key]]\nnumber = 1\nsecret = \"short\"",
                "less than 16 bytes",
            ),
            (
                "[[key]]\nnumber = 1\nfile = \"/nonexistent\"",
                "/nonexistent: No such file",
            ),
            (
                "[[key]]\nnumber = 1\nsecret = \"0123456789abcdef\"\n[[key]]\nnumber = 1\nsecret = \"0123456789abcdef\"",
                "two keys with the number 1",
            ),
            ("[interface.eth0]\ncost = 0", "at least 1"),
            (
                "[interface.eth0]\ncost = 64",
                "below `ceiling`, which is 64",
            ),
        ] {
            let (at, why) = fault(line);
            assert!(why.contains(part), "{line}: {why}");
            assert!(at.is_some_and(|it| it >= 4), "{line}: {at:?}");
        }
    }

    #[test]
    fn a_wrong_prefix_is_at_its_line() {
        let it = read("router = 1\ninterfaces = [\"e\"]\nannounce = [\n  \"10.0.0.0/8\",\n  \"10.0.0.1/8\",\n]\n").err();
        let it = it.unwrap_or_else(|| panic!("taken"));
        assert!(
            it.why.contains("10.0.0.1/8") && it.line == Some(5),
            "{it:?}"
        );
        assert!(read("router = 4294967296\ninterfaces = [\"e\"]\n").is_err());
        assert!(
            read("interfaces = [\"e\"]\n")
                .err()
                .is_some_and(|it| it.why.contains("router") && it.line.is_none())
        );
        assert!(
            read("router = 1\ninterfaces = []\n")
                .err()
                .is_some_and(|it| it.line == Some(2))
        );
    }
}
