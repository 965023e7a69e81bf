//! What the command leaves behind: files that are whole, and progress on a terminal.

use std::fs::{self, Permissions};
use std::io::{self, Write};
use std::os::unix::fs::PermissionsExt;
use std::path::{Path, PathBuf};

use anyhow::{Result, anyhow, ensure};
use indicatif::{ProgressBar, ProgressStyle};
use tempfile::{Builder, NamedTempFile};

/// Progress on stderr, shown only where that is a terminal.
pub fn progress_bar(len: u64) -> ProgressBar {
    let style = ProgressStyle::with_template("{bar:40} {pos} of {len}, {eta} left");
    ProgressBar::new(len).with_style(style.unwrap_or_else(|_| ProgressStyle::default_bar()))
}

/// Writes a file whole or not at all: under another name beside it, then renamed. `way_out` is for where it can't.
pub fn write(path: &Path, bytes: &[u8], way_out: &str) -> Result<()> {
    Staged::new(path, bytes, way_out)?.put(way_out)
}

/// A file that is whole, under another name beside its place. One that isn't put in place goes away.
pub struct Staged {
    file: NamedTempFile,
    target: PathBuf,
}

impl Staged {
    pub fn new(path: &Path, bytes: &[u8], way_out: &str) -> Result<Staged> {
        // A rename replaces a link, or a device, by the file.
        let target = fs::canonicalize(path).unwrap_or_else(|_| path.to_owned());
        ensure!(!target.exists() || target.is_file(), "not a file, expected one to write; {way_out}");
        ensure!(target.file_name().is_some(), "no file name, expected one; {way_out}");
        let file = stage(&target, bytes).map_err(|error| unwritten(&error, way_out))?;
        Ok(Staged { file, target })
    }

    pub fn put(self, way_out: &str) -> Result<()> {
        self.file.persist(&self.target).map(|_| ()).map_err(|error| unwritten(&error.error, way_out))
    }
}

fn stage(target: &Path, bytes: &[u8]) -> io::Result<NamedTempFile> {
    let folder = target.parent().unwrap_or(Path::new(""));
    let file = Builder::new().prefix(".ashlarkin-").suffix(".tmp").tempfile_in(folder)?;
    file.as_file().write_all(bytes)?;
    // A temporary file is its owner's alone; this becomes an ordinary one.
    file.as_file().set_permissions(Permissions::from_mode(0o666 & !umask()))?;
    Ok(file)
}

fn unwritten(error: &io::Error, way_out: &str) -> anyhow::Error {
    let error = error.to_string();
    // The temporary name, which tempfile adds, says nothing to people.
    let cause = error.split(" at path ").next().unwrap_or_default();
    anyhow!("can't be written: {cause}; {way_out}")
}

/// The rights that a new file of this process doesn't get. Only Linux says them without a change.
fn umask() -> u32 {
    let status = fs::read_to_string("/proc/self/status").unwrap_or_default();
    let mask = status.lines().find_map(|line| line.strip_prefix("Umask:"));
    mask.and_then(|mask| u32::from_str_radix(mask.trim(), 8).ok()).unwrap_or(0o022)
}
