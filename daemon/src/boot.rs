//! The number of the session: a counter in a file. It is on the disk before the first datagram leaves.

use std::fs::{self, File};
use std::io::{self, Write as _};
use std::path::Path;
use std::time::{SystemTime, UNIX_EPOCH};

const FILE: &str = "boot";
/// A session that is greater than all before it, and than `above`. A first start takes the seconds of the clock, so that a
/// folder that is lost does little harm. A session has 32 bits, since it and the number of a node in it are one number of 64
/// bits.
///
/// The error is the text for the operator: without a number that grows the daemon must not start.
pub fn next_session(folder: &Path, above: u32) -> Result<u32, String> {
    let file = folder.join(FILE);
    let fails = |error: io::Error| {
        format!(
            "the boot number cannot be kept in {}: {error}",
            file.display()
        )
    };
    let before = match fs::read_to_string(&file) {
        Ok(text) => number_in(&text).ok_or_else(|| {
            format!(
                "{} does not have a boot number. See RESTORE in revrouted(8)",
                file.display()
            )
        })?,
        Err(error) if error.kind() == io::ErrorKind::NotFound => seconds(),
        Err(error) => return Err(fails(error)),
    };
    let before = before.max(above);
    let session = before.checked_add(1).ok_or_else(|| {
        format!(
            "the boot number {before} in {} is too great",
            file.display()
        )
    })?;
    keep(folder, &file, session).map_err(fails)?;
    Ok(session)
}

fn number_in(text: &str) -> Option<u32> {
    text.strip_suffix('\n')?.parse().ok()
}

fn seconds() -> u32 {
    let clock = SystemTime::now()
        .duration_since(UNIX_EPOCH)
        .map_or(0, |it| it.as_secs());
    u32::try_from(clock).unwrap_or(u32::MAX)
}

/// Replaces the file. After this, a loss of power brings back no earlier number.
fn keep(folder: &Path, file: &Path, session: u32) -> io::Result<()> {
    let new = folder.join("boot.new");
    let mut made = File::create(&new)?;
    made.write_all(format!("{session}\n").as_bytes())?;
    made.sync_all()?;
    fs::rename(&new, file)?;
    File::open(folder)?.sync_all()
}

#[cfg(test)]
mod tests {
    use super::*;

    /// A folder of this test alone.
    fn folder(name: &str) -> std::path::PathBuf {
        let it = std::env::temp_dir().join(format!("revrouted-{}-{name}", std::process::id()));
        let _ = fs::remove_dir_all(&it);
        fs::create_dir(&it).unwrap();
        it
    }

    #[test]
    fn the_number_grows_at_each_start() {
        let it = folder("grows");
        let first = next_session(&it, 0).unwrap();
        assert!(first > 1_700_000_000, "the clock of a first start");
        assert_eq!(next_session(&it, 0), Ok(first + 1));
        assert_eq!(next_session(&it, first + 7), Ok(first + 8));
        assert_eq!(
            fs::read_to_string(it.join(FILE)).unwrap(),
            format!("{}\n", first + 8)
        );
        fs::remove_dir_all(it).unwrap();
    }

    #[test]
    fn a_file_without_a_number_is_refused_and_stays() {
        let it = folder("refused");
        for text in [
            "",
            "5",
            "five\n",
            "-1\n",
            "5\n6\n",
            "99999999999999999999\n",
            "18446744073709551615\n",
            "4294967296\n",
            "4294967295\n",
        ] {
            fs::write(it.join(FILE), text).unwrap();
            assert!(next_session(&it, 0).is_err(), "{text:?}");
            assert_eq!(fs::read_to_string(it.join(FILE)).unwrap(), text);
        }
        fs::remove_dir_all(&it).unwrap();
        assert!(
            next_session(&it, 0).unwrap_err().contains("cannot be kept"),
            "no folder"
        );
    }
}
