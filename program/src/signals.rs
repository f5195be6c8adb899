//! Folders that must not outlive the run: whoever ends it, by a signal too, removes them.
use signal_hook::consts::{SIGHUP, SIGINT, SIGQUIT, SIGTERM, SIGXFSZ};
use signal_hook::iterator::Signals;
use std::fs;
use std::io;
use std::path::{Path, PathBuf};
use std::sync::atomic::AtomicBool;
use std::sync::{Arc, Mutex, MutexGuard, PoisonError};
use std::thread;

static ROOMS: Mutex<Vec<PathBuf>> = Mutex::new(Vec::new());

/// The folders that are to be removed. While this is held, no signal ends the run.
fn rooms() -> MutexGuard<'static, Vec<PathBuf>> {
    ROOMS.lock().unwrap_or_else(PoisonError::into_inner)
}

/// Does something that no signal may cut in two.
pub fn undisturbed<T>(work: impl FnOnce() -> T) -> T {
    let _held = rooms();
    work()
}

/// Makes a folder and remembers it, undisturbed.
pub fn remembered(make: impl FnOnce() -> io::Result<PathBuf>) -> io::Result<PathBuf> {
    let mut rooms = rooms();
    let path = make()?;
    rooms.push(path.clone());
    Ok(path)
}

/// Removes a folder that was remembered.
pub fn removed(path: &Path) {
    let mut rooms = rooms();
    let _ = fs::remove_dir_all(path);
    rooms.retain(|room| room != path);
}

/// The signals that were ignored when the program was started, as bits: `nohup` does so with SIGHUP.
fn ignored() -> u64 {
    let status = fs::read_to_string("/proc/self/status").unwrap_or_default();
    status
        .lines()
        .find_map(|line| line.strip_prefix("SigIgn:"))
        .and_then(|mask| u64::from_str_radix(mask.trim(), 16).ok())
        .unwrap_or(0)
}

/// From now on a signal that ends the program removes the folders first. A file that grows beyond a limit of the system
/// (SIGXFSZ) is a write that fails.
pub fn watch() -> io::Result<()> {
    signal_hook::flag::register(SIGXFSZ, Arc::new(AtomicBool::new(false)))?;
    let ignored = ignored();
    let heard = [SIGHUP, SIGINT, SIGQUIT, SIGTERM].into_iter().filter(|signal| ignored >> (signal - 1) & 1 == 0);
    let mut signals = Signals::new(heard)?;
    thread::Builder::new().spawn(move || {
        for signal in signals.forever() {
            let rooms = rooms();
            for room in rooms.iter() {
                let _ = fs::remove_dir_all(room);
            }
            let _ = signal_hook::low_level::emulate_default_handler(signal);
        }
    })?;
    Ok(())
}
