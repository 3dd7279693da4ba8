//! What a run makes, to standard output or into files.

use crate::options::Options;
use crate::{Console, Trouble};
use std::fs::{self, File, OpenOptions};
use std::io::{self, BufWriter, Write};
use std::path::Path;

/// The file that `--out` names; none if it names standard output or is not given.
pub fn name(options: &Options) -> Option<&str> {
    options.value("out").filter(|name| *name != "-")
}

/// Writes to that file, or to standard output if there is none.
pub fn deliver(bytes: &[u8], options: &Options, console: &mut Console) -> Result<(), Trouble> {
    match name(options) {
        Some(name) => file(name, bytes),
        None => Ok(console.output().write_all(bytes)?),
    }
}

/// Writes a file whole or not at all.
pub fn file(name: &str, bytes: &[u8]) -> Result<(), Trouble> {
    stream(name, |out| out.write_all(bytes))
}

/// What writes the bytes of a file one after another.
type Writes<'a> = &'a mut dyn FnMut(&mut dyn Write) -> io::Result<()>;

/// .. that is too large to be held in memory first.
pub fn stream(
    name: &str,
    mut writes: impl FnMut(&mut dyn Write) -> io::Result<()>,
) -> Result<(), Trouble> {
    write(Path::new(name), &mut writes).map_err(|why| Trouble::File(name.to_string(), why))
}

/// A new file takes the place of an old one once it is whole. A device or a pipe is written into.
fn write(path: &Path, writes: Writes) -> io::Result<()> {
    let old = match fs::metadata(path) {
        Ok(old) => old,
        Err(why) if why.kind() == io::ErrorKind::NotFound => return replace(path, writes),
        Err(why) => return Err(why),
    };
    // What may not be written may not be replaced either.
    let open = OpenOptions::new().write(true).open(path)?;
    if old.is_file() {
        replace(&fs::canonicalize(path)?, writes)
    } else {
        fill(open, writes)
    }
}

/// Writes beside a file, then renames.
fn replace(path: &Path, writes: Writes) -> io::Result<()> {
    let mut part = path.as_os_str().to_os_string();
    part.push(".part");
    let file = File::create(&part)?;
    let written = fill(file, writes).and_then(|()| fs::rename(&part, path));
    if written.is_err() {
        // Half a file is of no use; where it cannot be removed the first trouble is the one to tell.
        let _ = fs::remove_file(&part);
    }
    written
}

/// Writes all of a file.
fn fill(file: File, writes: Writes) -> io::Result<()> {
    let mut out = BufWriter::new(file);
    writes(&mut out)?;
    out.flush()
}
