//! Files written whole or not at all: a new file in the same folder, written and synced, then renamed over
//! the old one, and the folder synced.

use crate::failure::{reason, Failure};
use rustix::fs::{flock, FlockOperation};
use rustix::io::Errno;
use std::fs::{self, File, Metadata, OpenOptions};
use std::io::{self, ErrorKind, Write};
use std::os::unix::fs::{OpenOptionsExt, PermissionsExt};
use std::path::{Path, PathBuf};
use std::process;

/// A symbolic link is followed to its target; after so many the path is taken to be a circle.
const MOST_LINKS: usize = 40;

/// A new file may meet so many others of its name, which were left behind when the machine stopped.
const MOST_TRIES: usize = 100;

/// A new file, complete and synced, beside the one that it is to replace. Until it is put in place the old
/// file is as it was; if it never is, the new file is removed.
pub struct Replacement {
    /// The path as the user wrote it, for messages.
    path: PathBuf,
    target: PathBuf,
    new: PathBuf,
    is_in_place: bool,
}

impl Replacement {
    /// Writes the new file. It gets the mode of the old one, where there is one.
    pub fn write(path: &Path, bytes: &[u8]) -> Result<Replacement, Failure> {
        let target = follow_links(path).map_err(|error| cannot_write(path, &error))?;
        let old = metadata(&target).map_err(|error| cannot_write(path, &error))?;
        if let Some(old) = &old {
            refuse_unfit(old, path)?;
        }
        let (new, file) = create_beside(&target, old.as_ref()).map_err(|error| cannot_write(path, &error))?;
        let replacement = Replacement { path: path.to_owned(), target, new, is_in_place: false };
        fill(file, bytes, old.as_ref()).map_err(|error| cannot_write(path, &error))?;
        Ok(replacement)
    }

    /// Keeps other calls of this tool from replacing the old file until the answer is dropped. There is no
    /// lock where there is no old file, or where the file system has none.
    pub fn lock(&self) -> Result<Option<File>, Failure> {
        let old = File::open(&self.target).ok();
        match old.as_ref().map(|old| flock(old, FlockOperation::NonBlockingLockExclusive)) {
            Some(Err(Errno::WOULDBLOCK)) => {
                let what = "another program has a lock on the file, nothing is written";
                Err(Failure::new(what, self.path.display(), "run the command again"))
            }
            _ => Ok(old),
        }
    }

    /// A failure unless the old file still has the bytes that were read, or is still not there.
    pub fn expect_unchanged(&self, read: Option<&[u8]>) -> Result<(), Failure> {
        let now = match fs::read(&self.target) {
            Ok(bytes) => Some(bytes),
            Err(error) if error.kind() == ErrorKind::NotFound => None,
            Err(error) => return Err(cannot_write(&self.path, &error)),
        };
        match (now.as_deref(), read) {
            (now, read) if now == read => Ok(()),
            (Some(_), None) => {
                Err(Failure::new("the file is there already", self.path.display(), "name another"))
            }
            _ => {
                let what = "another program changed the file meanwhile, nothing is written";
                Err(Failure::new(what, self.path.display(), "run the command again"))
            }
        }
    }

    /// Renames the new file over the old one.
    pub fn put_in_place(mut self) -> Result<(), Failure> {
        fs::rename(&self.new, &self.target).map_err(|error| cannot_write(&self.path, &error))?;
        self.is_in_place = true;
        match File::open(folder_of(&self.target)).and_then(|folder| folder.sync_all()) {
            // A file system that cannot sync folders says so with this.
            Err(error) if error.kind() != ErrorKind::InvalidInput => {
                let what = format!("written, but its folder cannot be synced ({})", reason(&error));
                Err(Failure::new(what, self.path.display(), "look at the disk before relying on the file"))
            }
            _ => Ok(()),
        }
    }
}

impl Drop for Replacement {
    fn drop(&mut self) {
        if !self.is_in_place {
            // The failure that brought us here is told; there is nobody left to tell this one.
            let _ = fs::remove_file(&self.new);
        }
    }
}

fn cannot_write(path: &Path, error: &io::Error) -> Failure {
    let advice = "make room or choose a folder that can be written; nothing is lost";
    Failure::new(format!("cannot write ({})", reason(error)), path.display(), advice)
}

/// What stands at a path, if anything does.
fn metadata(path: &Path) -> io::Result<Option<Metadata>> {
    match fs::metadata(path) {
        Ok(metadata) => Ok(Some(metadata)),
        Err(error) if error.kind() == ErrorKind::NotFound => Ok(None),
        Err(error) => Err(error),
    }
}

/// Only a regular file that may be written is replaced: a rename would put a file in place of a device, and
/// would not mind that the file is read-only.
fn refuse_unfit(old: &Metadata, path: &Path) -> Result<(), Failure> {
    if !old.is_file() {
        return Err(Failure::new(
            "not a regular file, and only such are replaced",
            path.display(),
            "name a file",
        ));
    }
    if old.permissions().readonly() {
        return Err(Failure::new("the file is read-only", path.display(), "allow writing with chmod u+w"));
    }
    Ok(())
}

/// The path that a chain of symbolic links ends in, which need not be there.
fn follow_links(path: &Path) -> io::Result<PathBuf> {
    let mut target = path.to_owned();
    for _ in 0..MOST_LINKS {
        match fs::read_link(&target) {
            Ok(next) => target = folder_of(&target).join(next),
            // It is no link, or is not there.
            Err(_) => return Ok(target),
        }
    }
    Err(io::Error::new(ErrorKind::Other, "too many symbolic links"))
}

fn folder_of(path: &Path) -> &Path {
    match path.parent() {
        Some(folder) if folder != Path::new("") => folder,
        _ => Path::new("."),
    }
}

/// Creates a file of a name that nobody has, in the folder of the target.
fn create_beside(target: &Path, old: Option<&Metadata>) -> io::Result<(PathBuf, File)> {
    let name =
        target.file_name().ok_or_else(|| io::Error::new(ErrorKind::Other, "the path names no file"))?;
    let mode = old.map_or(0o666, |old| old.permissions().mode() & 0o777);
    for attempt in 0..MOST_TRIES {
        let mut new_name = name.to_owned();
        new_name.push(format!(".new-{}-{attempt}", process::id()));
        let new = folder_of(target).join(new_name);
        match OpenOptions::new().write(true).create_new(true).mode(mode).open(&new) {
            Ok(file) => return Ok((new, file)),
            Err(error) if error.kind() == ErrorKind::AlreadyExists => {}
            Err(error) => return Err(error),
        }
    }
    Err(io::Error::new(ErrorKind::AlreadyExists, "too many files of that name with .new after it"))
}

fn fill(mut file: File, bytes: &[u8], old: Option<&Metadata>) -> io::Result<()> {
    file.write_all(bytes)?;
    if let Some(old) = old {
        // The mode that the file was created with went through the umask.
        if file.metadata()?.permissions() != old.permissions() {
            file.set_permissions(old.permissions())?;
        }
    }
    file.sync_all()
}
