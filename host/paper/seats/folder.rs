//! The folder that holds what the seats get.

use crate::Trouble;
use std::ffi::OsStr;
use std::fs::{self, File};
use std::io::{self, BufWriter, Write};
use std::path::{Path, PathBuf};

/// Where files stand until all of them are whole, below the folder itself.
const PART: &str = ".seats.part";

/// A folder that is filled with all its files or with none.
pub struct Folder {
    path: PathBuf,
    /// Whether it was made for this.
    made: bool,
    finished: bool,
}

/// That a paper does not stand in the folder itself, where it could be taken for what an earlier run wrote.
pub fn apart(paper: &str, folder: &str) -> Result<(), Trouble> {
    let paper_in = fs::canonicalize(paper).ok().and_then(|path| Some(path.parent()?.to_path_buf()));
    match (paper_in, fs::canonicalize(folder)) {
        (Some(one), Ok(other)) if one == other => {
            Err(Trouble::Said(format!("{paper} stands in {folder}: name another folder")))
        }
        _ => Ok(()),
    }
}

impl Folder {
    /// A folder to fill, made if it is missing. One that is not empty is taken with `force` only.
    pub fn open(name: &str, force: bool) -> Result<Folder, Trouble> {
        let path = PathBuf::from(name);
        let made = !path.exists();
        let trouble = |why| Trouble::File(name.to_string(), why);
        fs::create_dir_all(&path).map_err(trouble)?;
        let folder = Folder { path, made, finished: false };
        // A run that was broken off may have left its own.
        let _ = fs::remove_dir_all(folder.part());
        let is_empty = fs::read_dir(&folder.path).map_err(trouble)?.next().is_none();
        if !is_empty && !force {
            let why = format!("{name} is not empty; --force replaces what an earlier run wrote");
            return Err(Trouble::Said(why));
        }
        fs::create_dir(folder.part()).map_err(trouble)?;
        Ok(folder)
    }

    fn part(&self) -> PathBuf {
        self.path.join(PART)
    }

    /// Writes a file, which comes to its place with all others.
    pub fn write(&self, name: &str, bytes: &[u8]) -> Result<(), Trouble> {
        let path = self.part().join(name);
        fs::write(path, bytes).map_err(|why| self.trouble(OsStr::new(name), why))
    }

    /// Writes a file that is too long to be made at once.
    pub fn write_by(
        &self,
        name: &str,
        write: impl FnOnce(&mut dyn Write) -> io::Result<()>,
    ) -> Result<(), Trouble> {
        let written = File::create(self.part().join(name)).and_then(|file| {
            let mut file = BufWriter::new(file);
            write(&mut file)?;
            file.flush()
        });
        written.map_err(|why| self.trouble(OsStr::new(name), why))
    }

    fn trouble(&self, name: &OsStr, why: io::Error) -> Trouble {
        Trouble::File(self.path.join(name).to_string_lossy().into_owned(), why)
    }

    /// Puts all files in their places. What an earlier run wrote and this one did not is removed, so that no seat has
    /// a paper that the key is not for.
    pub fn finish(mut self) -> Result<(), Trouble> {
        let part = self.part();
        let new = names(&part).map_err(|why| self.trouble(OsStr::new(PART), why))?;
        if let Some(name) = new.iter().find(|name| self.path.join(name).is_dir()) {
            return Err(self.trouble(name, io::Error::new(io::ErrorKind::Other, "is a folder")));
        }
        for name in names(&self.path).map_err(|why| self.trouble(OsStr::new(""), why))? {
            if is_ours(&name) && !part.join(&name).exists() {
                let removed = fs::remove_file(self.path.join(&name));
                removed.map_err(|why| self.trouble(&name, why))?;
            }
        }
        for name in new {
            let moved = fs::rename(part.join(&name), self.path.join(&name));
            moved.map_err(|why| self.trouble(&name, why))?;
        }
        self.finished = true;
        Ok(())
    }
}

/// What is not whole is of no use; where it cannot be removed there is another trouble to tell.
impl Drop for Folder {
    fn drop(&mut self) {
        let _ = fs::remove_dir_all(self.part());
        if self.made && !self.finished {
            let _ = fs::remove_dir(&self.path);
        }
    }
}

/// The names of what stands in a folder.
fn names(path: &Path) -> io::Result<Vec<std::ffi::OsString>> {
    fs::read_dir(path)?.map(|entry| entry.map(|entry| entry.file_name())).collect()
}

/// Whether a file has a name that this tool gives.
fn is_ours(name: &OsStr) -> bool {
    let name = name.to_string_lossy();
    let seat = name.strip_prefix("seat-").and_then(|rest| rest.split_once('.'));
    match seat {
        Some((number, ending)) => {
            let is_number = !number.is_empty() && number.bytes().all(|byte| byte.is_ascii_digit());
            is_number && matches!(ending, "txt" | "tape")
        }
        None => matches!(&*name, "paper.txt" | "paper.tape" | "key.txt" | "orders.csv"),
    }
}
