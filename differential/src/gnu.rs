//! Asks GNU as for the words of instructions and the bytes of strings.

use std::io::{Error, Result};
use std::path::PathBuf;
use std::process::Command;
use std::{env, fs, process};

const ASSEMBLER: &str = "riscv64-unknown-elf-as";
const OBJCOPY: &str = "riscv64-unknown-elf-objcopy";
const PACKAGE: &str = "binutils-riscv64-unknown-elf";

/// The word of each line. Every line has to be one instruction that GNU as
/// encodes as one word.
pub fn words(lines: &[String]) -> Result<Vec<u32>> {
    let object = Object::new(&(lines.join("\n") + "\n"))?;
    object.words(".text", lines.len())
}

/// The bytes of each line, a line of data.
pub fn data(lines: &[String]) -> Result<Vec<Vec<u8>>> {
    let mut source = ".data\n.Lstart:\n".to_string();
    let mut ends = ".section .ends, \"a\"\n".to_string();
    for (number, line) in lines.iter().enumerate() {
        source.push_str(&format!("{line}\n.Lend{number}:\n"));
        ends.push_str(&format!(".4byte .Lend{number} - .Lstart\n"));
    }
    let object = Object::new(&(source + &ends))?;
    let data = object.section(".data")?;
    let ends = object.words(".ends", lines.len())?;
    let starts = [0].into_iter().chain(ends.iter().copied());
    let spans = starts.zip(&ends);
    Ok(spans
        .map(|(start, end)| data[start as usize..*end as usize].to_vec())
        .collect())
}

/// What GNU as makes of a source, in a folder of its own that is taken away
/// when this is dropped.
struct Object(PathBuf);

impl Object {
    fn new(source: &str) -> Result<Object> {
        let folder = env::temp_dir().join(format!("differential-{}", process::id()));
        fs::create_dir(&folder)?;
        let object = Object(folder);
        fs::write(object.0.join("s"), source)?;
        run(Command::new(ASSEMBLER)
            .args(["-march=rv32im", "-mabi=ilp32", "-mno-relax", "-o"])
            .args([object.0.join("o"), object.0.join("s")]))?;
        Ok(object)
    }

    fn section(&self, name: &str) -> Result<Vec<u8>> {
        let binary = self.0.join("bin");
        run(Command::new(OBJCOPY)
            .args(["-O", "binary", "--only-section", name])
            .args([&self.0.join("o"), &binary]))?;
        fs::read(&binary)
    }

    /// A section that has so many words.
    fn words(&self, name: &str, count: usize) -> Result<Vec<u32>> {
        let bytes = self.section(name)?;
        if bytes.len() != 4 * count {
            return Err(Error::other(format!(
                "{ASSEMBLER}: {} bytes in {name} for {count} words",
                bytes.len()
            )));
        }
        let word = |bytes: &[u8]| u32::from_le_bytes(bytes.try_into().expect("four bytes"));
        Ok(bytes.chunks_exact(4).map(word).collect())
    }
}

impl Drop for Object {
    fn drop(&mut self) {
        let _ = fs::remove_dir_all(&self.0);
    }
}

fn run(command: &mut Command) -> Result<()> {
    let program = command.get_program().to_string_lossy().into_owned();
    let status = command.status().map_err(|error| {
        Error::new(
            error.kind(),
            format!("{program}: {error}; to install it: apt-get install {PACKAGE}"),
        )
    })?;
    if !status.success() {
        return Err(Error::other(format!("{program}: {status}")));
    }
    Ok(())
}
