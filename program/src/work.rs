//! Work on several threads whose results are taken in order.
use std::collections::BTreeMap;
use std::sync::{Condvar, Mutex, MutexGuard, PoisonError};
use std::thread;

/// How many threads there are to be had.
pub fn processors() -> usize {
    thread::available_parallelism().map_or(1, usize::from)
}

struct Queue<T> {
    /// The next piece of work that nobody has begun.
    next: usize,
    /// How many results were taken.
    taken: usize,
    /// Results that were not taken yet.
    done: BTreeMap<usize, T>,
    /// Nobody takes a result any more, or a thread came to an end that it should not.
    is_over: bool,
}

struct Shared<T> {
    queue: Mutex<Queue<T>>,
    changed: Condvar,
}

impl<T> Shared<T> {
    fn lock(&self) -> MutexGuard<'_, Queue<T>> {
        self.queue.lock().unwrap_or_else(PoisonError::into_inner)
    }

    fn wait<'a>(&self, queue: MutexGuard<'a, Queue<T>>) -> MutexGuard<'a, Queue<T>> {
        self.changed.wait(queue).unwrap_or_else(PoisonError::into_inner)
    }

    /// The next piece of work, at most so many ahead of the one whose result is taken next.
    fn begun(&self, count: usize, ahead: usize) -> Option<usize> {
        let mut queue = self.lock();
        while !queue.is_over && queue.next < count && queue.next >= queue.taken + ahead {
            queue = self.wait(queue);
        }
        if queue.is_over || queue.next >= count {
            return None;
        }
        queue.next += 1;
        Some(queue.next - 1)
    }

    fn finished(&self, k: usize, result: T) {
        self.lock().done.insert(k, result);
        self.changed.notify_all();
    }

    fn result(&self, k: usize) -> Option<T> {
        let mut queue = self.lock();
        while !queue.is_over && !queue.done.contains_key(&k) {
            queue = self.wait(queue);
        }
        let result = queue.done.remove(&k);
        queue.taken += 1;
        self.changed.notify_all();
        result
    }
}

/// Ends the work when it goes, also where a thread panics.
struct Ending<'a, T>(&'a Shared<T>, bool);

impl<T> Drop for Ending<'_, T> {
    fn drop(&mut self) {
        if self.1 || thread::panicking() {
            self.0.lock().is_over = true;
            self.0.changed.notify_all();
        }
    }
}

/// Does pieces of work 0, 1, 2 .. on so many threads, and takes their results in that order on the caller's thread. At most
/// two results a thread wait to be taken. The first error ends it.
pub fn in_order<T: Send, E>(
    count: usize,
    threads: usize,
    work: impl Fn(usize) -> T + Sync,
    mut take: impl FnMut(usize, T) -> Result<(), E>,
) -> Result<(), E> {
    if threads.min(count) <= 1 {
        return (0..count).try_for_each(|k| take(k, work(k)));
    }
    let queue = Queue { next: 0, taken: 0, done: BTreeMap::new(), is_over: false };
    let shared = &Shared { queue: Mutex::new(queue), changed: Condvar::new() };
    let work = &work;
    thread::scope(|scope| {
        let _all = Ending(shared, true);
        let run = move || {
            let _one = Ending(shared, false);
            while let Some(k) = shared.begun(count, 2 * threads) {
                shared.finished(k, work(k));
            }
        };
        let mut started = 0;
        for _ in 0..threads.min(count) {
            started += usize::from(thread::Builder::new().spawn_scoped(scope, run).is_ok());
        }
        for k in 0..count {
            let result = if started == 0 { Some(work(k)) } else { shared.result(k) };
            match result {
                Some(result) => take(k, result)?,
                None => break,
            }
        }
        Ok(())
    })
}

#[cfg(test)]
mod tests {
    use super::*;

    #[test]
    fn results_come_in_order_and_the_first_error_ends_it() {
        for threads in [1, 2, 5] {
            let mut seen = Vec::new();
            let all = in_order(
                100,
                threads,
                |k| k * k,
                |k, square| {
                    seen.push((k, square));
                    Ok::<(), ()>(())
                },
            );
            assert_eq!(all, Ok(()));
            assert_eq!(seen, (0..100).map(|k| (k, k * k)).collect::<Vec<_>>());
            let ended = in_order(1_000_000, threads, |k| k, |k, _| if k < 7 { Ok(()) } else { Err(k) });
            assert_eq!(ended, Err(7));
        }
    }
}
