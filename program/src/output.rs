//! Files that are written. One grows in a folder of its own beside its name and gets the name when it is whole.
use crate::failure::{number, Failure};
use crate::input::{identity, Identity};
use crate::names::shown;
use crate::signals;
use std::ffi::{OsStr, OsString};
use std::fs::{self, File};
use std::io;
use std::os::fd::AsRawFd;
use std::os::unix::ffi::OsStrExt;
use std::path::{Path, PathBuf};

/// What may be written: not what the call reads and, unless it was asked for, nothing that exists.
#[derive(Clone, Default)]
pub struct Rules {
    pub reads: Vec<Identity>,
    pub force: bool,
}

/// A folder that is held open, so that it may be renamed meanwhile.
struct Folder {
    path: PathBuf,
    _handle: File,
}

impl Folder {
    fn open(path: &Path) -> io::Result<Folder> {
        let handle = File::open(path)?;
        let real = fs::canonicalize(path)?;
        if !handle.metadata()?.is_dir() {
            return Err(io::Error::other("it is no folder"));
        }
        let held = PathBuf::from(format!("/proc/self/fd/{}", handle.as_raw_fd()));
        let path = if held.is_dir() { held } else { real };
        Ok(Folder { path, _handle: handle })
    }
}

/// A folder of this run's own; it goes when this does.
struct Room(PathBuf);

impl Room {
    fn make(beside: &Path) -> io::Result<Room> {
        let new = || tempfile::Builder::new().prefix(".yalivucu-").tempdir_in(beside);
        signals::remembered(|| Ok(new()?.into_path())).map(Room)
    }
}

impl Drop for Room {
    fn drop(&mut self) {
        signals::removed(&self.0);
    }
}

/// A file that grows, and the name that it will get.
pub struct Pending {
    room: Room,
    folder: Folder,
    name: OsString,
    /// The name as it was given.
    given: PathBuf,
    rules: Rules,
}

fn cannot(given: &Path, why: &io::Error) -> Failure {
    let name = shown(given);
    Failure::new(number::CANNOT_WRITE, format_args!("{name} cannot be written: {why}."))
}

/// A name cut into its folder and the name in it.
fn parts(out: &Path) -> Result<(&Path, &OsStr), Failure> {
    let bytes = out.as_os_str().as_bytes();
    let no_name = bytes.ends_with(b"/") || bytes.ends_with(b"/.");
    match out.file_name() {
        Some(name) if !no_name => {
            let folder = out.parent().filter(|folder| !folder.as_os_str().is_empty());
            Ok((folder.unwrap_or(Path::new(".")), name))
        }
        _ => Err(Failure::new(number::OUT_IS_NO_FILE, format_args!("{} is no name of a file.", shown(out)))),
    }
}

/// A name among the system's can lead to an ordinary file, as /dev/stdout does, and is not ours.
fn is_of_the_system(folder: &Path) -> bool {
    fs::canonicalize(folder)
        .is_ok_and(|real| real == Path::new("/dev") || real.starts_with("/proc") || real.starts_with("/sys"))
}

/// Whether a name may be written. Judged first and, before the file gets its name, again.
fn may_write(path: &Path, given: &Path, rules: &Rules) -> Result<(), Failure> {
    let name = shown(given);
    if let Ok(metadata) = fs::metadata(path) {
        if rules.reads.contains(&identity(&metadata)) {
            let sentence = format_args!("{name} is a file that this call reads.");
            return Err(Failure::new(number::OUT_IS_FILE, sentence));
        }
        if !metadata.is_file() {
            let sentence = format_args!("{name} is a folder, a device or a pipe.");
            return Err(Failure::new(number::OUT_IS_NO_FILE, sentence));
        }
    }
    if !rules.force && fs::symlink_metadata(path).is_ok() {
        return Err(exists(given));
    }
    Ok(())
}

/// The refusal of a name that is taken.
pub fn exists(given: &Path) -> Failure {
    let name = shown(given);
    Failure::new(number::OUT_EXISTS, format_args!("{name} exists; --force replaces it."))
}

impl Pending {
    /// Begins a file, if its name may be written.
    pub fn begin(out: &Path, rules: &Rules) -> Result<(Pending, File), Failure> {
        let (folder, name) = parts(out)?;
        if is_of_the_system(folder) {
            let sentence = format_args!("{} is a name of the system's; - writes to standard output.", shown(out));
            return Err(Failure::new(number::OUT_IS_NO_FILE, sentence));
        }
        let folder = Folder::open(folder).map_err(|why| cannot(out, &why))?;
        may_write(&folder.path.join(name), out, rules)?;
        let room = Room::make(&folder.path).map_err(|why| cannot(out, &why))?;
        let file = File::options().write(true).create_new(true).open(room.0.join("new"));
        let file = file.map_err(|why| cannot(out, &why))?;
        let pending = Pending { room, folder, name: name.to_owned(), given: out.to_owned(), rules: rules.clone() };
        Ok((pending, file))
    }

    /// The refusal of a write that failed.
    pub fn cannot(&self, why: &io::Error) -> Failure {
        cannot(&self.given, why)
    }

    /// Gives the file, which is whole now, its name.
    pub fn place(self) -> Result<Placed, Failure> {
        let out = self.folder.path.join(&self.name);
        may_write(&out, &self.given, &self.rules)?;
        let new = self.room.0.join("new");
        let old = self.room.0.join("old");
        let before = if self.rules.force {
            let before = Before::of(&out, &old);
            fs::rename(&new, &out).map_err(|why| self.cannot(&why))?;
            before
        } else {
            self.place_at_a_free_name(&new, &out)?;
            Before::Nothing
        };
        Ok(Placed { out, before, _pending: self })
    }

    /// A link is made only where the name is free. Where there are no links the name is taken first by an empty file, which
    /// no signal leaves empty.
    fn place_at_a_free_name(&self, new: &Path, out: &Path) -> Result<(), Failure> {
        if fs::hard_link(new, out).is_ok() {
            return Ok(());
        }
        if fs::symlink_metadata(out).is_ok() {
            return Err(exists(&self.given));
        }
        let taken_first = || -> io::Result<()> {
            File::options().write(true).create_new(true).open(out)?;
            fs::rename(new, out).inspect_err(|_| {
                let _ = fs::remove_file(out);
            })
        };
        signals::undisturbed(taken_first).map_err(|why| self.cannot(&why))
    }
}

/// What had the name before.
enum Before {
    Nothing,
    /// A file, which is in the room now.
    Kept(PathBuf),
    /// A file that could not be kept, since this file system has no links.
    Lost,
}

impl Before {
    /// Keeps what has the name.
    fn of(out: &Path, old: &Path) -> Before {
        if fs::symlink_metadata(out).is_err() {
            Before::Nothing
        } else if fs::hard_link(out, old).is_ok() {
            Before::Kept(old.to_owned())
        } else {
            Before::Lost
        }
    }
}

/// A file that has its name.
pub struct Placed {
    out: PathBuf,
    before: Before,
    _pending: Pending,
}

impl Placed {
    /// Makes it as if nothing had been written, as far as the file system lets us.
    pub fn undo(self) {
        signals::undisturbed(|| {
            let _ = match &self.before {
                Before::Nothing => fs::remove_file(&self.out),
                Before::Kept(old) => fs::rename(old, &self.out),
                Before::Lost => Ok(()),
            };
        });
    }
}
