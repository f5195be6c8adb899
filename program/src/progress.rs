//! Progress on a terminal.
use indicatif::{ProgressBar, ProgressDrawTarget, ProgressStyle};
use std::sync::atomic::{AtomicUsize, Ordering};

/// A bar on standard error, where that is a terminal and there is enough to do; otherwise nothing.
pub struct Progress {
    bar: ProgressBar,
    done: AtomicUsize,
}

impl Progress {
    /// A bar that counts so many of something, and is shown from `least` on.
    pub fn new(count: usize, least: usize, what: &'static str) -> Progress {
        let target = if count < least { ProgressDrawTarget::hidden() } else { ProgressDrawTarget::stderr() };
        let bar = ProgressBar::with_draw_target(Some(count as u64), target);
        if let Ok(style) = ProgressStyle::with_template("{wide_bar} {msg} {pos} of {len}, {eta} left") {
            bar.set_style(style);
        }
        bar.set_message(what);
        Progress { bar, done: AtomicUsize::new(0) }
    }

    /// One more is done.
    pub fn tick(&self) {
        self.bar.set_position(self.done.fetch_add(1, Ordering::Relaxed) as u64 + 1);
    }

    /// Says something while the bar makes room for it.
    pub fn beside<T>(&self, say: impl FnOnce() -> T) -> T {
        self.bar.suspend(say)
    }
}

impl Drop for Progress {
    fn drop(&mut self) {
        self.bar.finish_and_clear();
    }
}
