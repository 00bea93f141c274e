//! What callgrind runs and counts: a call on a source, so many times.

use std::path::Path;
use std::process::Command;
use std::{env, io};

/// Has glibc's memset store vectors. Else it takes one repeated instruction,
/// which callgrind counts once for each byte.
const TUNABLES: (&str, &str) = (
    "GLIBC_TUNABLES",
    "glibc.cpu.x86_rep_stosb_threshold=1000000000",
);

/// The instructions of a whole run of this program: one contender, a file with
/// the source, so many calls. `more` are further words for callgrind.
pub fn counted(who: &str, file: &Path, calls: u64, more: &[String]) -> io::Result<u64> {
    let output = Command::new("valgrind")
        .env(TUNABLES.0, TUNABLES.1)
        .arg("--tool=callgrind")
        .args(more)
        .arg(env::current_exe()?)
        .args(["run", who])
        .arg(file)
        .arg(calls.to_string())
        .output()
        .map_err(|error| io::Error::new(error.kind(), format!("valgrind: {error}")))?;
    let said = String::from_utf8_lossy(&output.stderr);
    said.lines()
        .find_map(|line| line.split_once("Collected : "))
        .and_then(|(_, count)| count.trim().parse().ok())
        .ok_or_else(|| io::Error::other(format!("valgrind counted nothing: {said}")))
}

/// A file that is removed in the end.
pub struct Scratch(pub std::path::PathBuf);

impl Scratch {
    pub fn new(end: &str) -> Self {
        let name = format!("timing-{}.{end}", std::process::id());
        Scratch(env::temp_dir().join(name))
    }
}

impl Drop for Scratch {
    fn drop(&mut self) {
        // It may never have been written.
        let _ = std::fs::remove_file(&self.0);
    }
}
