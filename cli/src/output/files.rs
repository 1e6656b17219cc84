//! Files that are written: beside their target first, so that a target is replaced whole or not at
//! all, and never while it is still read.

use crate::fault::Fault;
use crate::words::shown;
use std::fs::{self, File, OpenOptions};
use std::io::{self, BufWriter, Write};
use std::path::{Path, PathBuf};
use std::process;
use std::sync::atomic::{AtomicUsize, Ordering};

/// Whether two names are one file, by whatever spelling or link.
pub fn same_file(one: &Path, other: &Path) -> bool {
    match (identity(one), identity(other)) {
        (Some(one), Some(other)) => one == other,
        _ => matches!((place(one), place(other)), (Some(one), Some(other)) if one == other),
    }
}

/// Whether standard output goes to this file.
pub fn is_standard_output(path: &Path) -> bool {
    path.is_file() && same_file(path, Path::new("/dev/stdout"))
}

#[cfg(unix)]
fn identity(path: &Path) -> Option<(u64, u64)> {
    use std::os::unix::fs::MetadataExt;
    let about = fs::metadata(path).ok()?;
    Some((about.dev(), about.ino()))
}

#[cfg(not(unix))]
fn identity(path: &Path) -> Option<PathBuf> {
    fs::canonicalize(path).ok()
}

/// Where a file that is not there yet would be.
fn place(path: &Path) -> Option<PathBuf> {
    let folder = fs::canonicalize(folder(path)).ok()?;
    Some(folder.join(path.file_name()?))
}

fn folder(path: &Path) -> &Path {
    match path.parent() {
        Some(folder) if !folder.as_os_str().is_empty() => folder,
        _ => Path::new("."),
    }
}

/// A file on the way to its target. Dropped before `finish`, it leaves the target as it was.
pub struct Draft {
    /// The target as it was named, for messages.
    name: String,
    target: PathBuf,
    /// None where the target is a device or a pipe, which is written to as it is.
    beside: Option<PathBuf>,
    file: BufWriter<File>,
}

impl Draft {
    pub fn new(path: &Path) -> Result<Draft, Fault> {
        let name = shown(&path.display().to_string());
        Draft::open(path, &name).map_err(|error| Fault::access(name, error))
    }

    fn open(path: &Path, name: &str) -> io::Result<Draft> {
        // A link stays a link: what it names is replaced.
        let target = fs::canonicalize(path).unwrap_or_else(|_| path.to_path_buf());
        let about = fs::metadata(&target).ok();
        let (beside, file) = match &about {
            Some(about) if about.is_dir() => return Err(io::ErrorKind::IsADirectory.into()),
            Some(about) if !about.is_file() => {
                (None, OpenOptions::new().write(true).open(&target)?)
            }
            Some(about) if about.permissions().readonly() => {
                return Err(io::ErrorKind::PermissionDenied.into())
            }
            _ => {
                let beside = beside(&target);
                let file = File::create_new(&beside)?;
                (Some(beside), file)
            }
        };
        let draft = Draft {
            name: name.to_string(),
            target,
            beside,
            file: BufWriter::new(file),
        };
        if let (Some(beside), Some(about)) = (&draft.beside, about) {
            fs::set_permissions(beside, about.permissions())?;
        }
        Ok(draft)
    }

    pub fn write(&mut self, text: &str) -> Result<(), Fault> {
        let written = self.file.write_all(text.as_bytes());
        written.map_err(|error| Fault::access(&self.name, error))
    }

    /// Puts the file in its target's place and tells its name.
    pub fn finish(mut self) -> Result<String, Fault> {
        let done = self.settle();
        done.map_err(|error| Fault::access(&self.name, error))?;
        self.beside = None;
        Ok(self.name.clone())
    }

    fn settle(&mut self) -> io::Result<()> {
        self.file.flush()?;
        match &self.beside {
            Some(beside) => {
                self.file.get_ref().sync_all()?;
                fs::rename(beside, &self.target)
            }
            None => Ok(()),
        }
    }
}

impl Drop for Draft {
    fn drop(&mut self) {
        if let Some(beside) = &self.beside {
            // There is nobody left to tell.
            let _ = fs::remove_file(beside);
        }
    }
}

/// A name in the target's folder that nobody else uses.
fn beside(target: &Path) -> PathBuf {
    static MADE: AtomicUsize = AtomicUsize::new(0);
    let count = MADE.fetch_add(1, Ordering::Relaxed);
    folder(target).join(format!(".clevisroot-{}-{count}.part", process::id()))
}
