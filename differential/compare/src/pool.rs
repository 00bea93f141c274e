//! The accepted sources that the repository and the papers have.

use std::path::{Path, PathBuf};
use std::sync::OnceLock;
use std::{fs, io};

use differential::sources;

use crate::generate::mutate::Pool;

/// The repository's root, from where this package stands.
fn root() -> PathBuf {
    Path::new(env!("CARGO_MANIFEST_DIR")).join("../..")
}

/// The sources that `differential` builds by topic, with their bases.
pub fn built() -> &'static [(String, u32)] {
    static BUILT: OnceLock<Vec<(String, u32)>> = OnceLock::new();
    BUILT.get_or_init(|| {
        let mut sources = sources::built(&sources::BUILDERS);
        sources.extend(sources::built(&sources::FURTHER));
        sources.extend(sources::built(&[sources::BEYOND]));
        sources.extend(sources::long_chains().into_iter().map(|text| (text, 0)));
        sources
    })
}

/// The display routines in the repository.
pub fn examples() -> io::Result<Vec<Vec<u8>>> {
    sources_in(&root().join("examples"))
}

fn sources_in(folder: &Path) -> io::Result<Vec<Vec<u8>>> {
    let mut files: Vec<PathBuf> = fs::read_dir(folder)?
        .map(|entry| entry.map(|entry| entry.path()))
        .collect::<io::Result<_>>()?;
    files.sort();
    let sources = files
        .iter()
        .filter(|file| file.extension().is_some_and(|end| end == "s"));
    sources.map(fs::read).collect()
}

/// Everything that is changed by the kind `mutate`.
pub fn pool() -> io::Result<Pool> {
    let mut texts = examples()?;
    // The long ones count several times, so that the short do not hide them.
    for _ in 0..20 {
        texts.extend(examples()?);
    }
    texts.extend(sources_in(&root().join("../shared/speed"))?);
    // One in five of the small ones, for the same reason.
    texts.extend(
        built()
            .iter()
            .step_by(5)
            .map(|(text, _)| text.clone().into_bytes()),
    );
    Ok(Pool::new(texts))
}
