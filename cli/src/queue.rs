//! Work on all processors at once, with results in order.

use std::collections::BTreeMap;
use std::sync::{Condvar, Mutex, MutexGuard, PoisonError};
use std::thread;
use std::time::Duration;

/// How far a worker may be ahead of the result that is taken next: it bounds how many results wait.
pub const AHEAD: usize = 32;

/// The stack of a worker, whatever the environment says: an audit takes some 38 KiB of it.
const STACK: usize = 1 << 20;

struct State<T> {
    /// The task that is given out next.
    next: usize,
    /// How many results were taken.
    taken: usize,
    /// Whether some are being taken just now.
    taking: bool,
    /// Results that wait, by their task.
    waiting: BTreeMap<usize, T>,
    /// Workers that have not ended, and those of them that wait for room.
    working: usize,
    idle: usize,
    stopped: bool,
}

impl<T> State<T> {
    /// The results that are next in order.
    fn ready(&mut self) -> Vec<T> {
        let mut results = Vec::new();
        while let Some(result) = self.waiting.remove(&self.taken) {
            results.push(result);
            self.taken += 1;
        }
        results
    }
}

struct Queue<T> {
    state: Mutex<State<T>>,
    /// There is room again for a result, or no more to do.
    room: Condvar,
    /// The last worker has ended.
    end: Condvar,
    count: usize,
    most: usize,
}

impl<T> Queue<T> {
    fn new(count: usize, most: usize) -> Queue<T> {
        let waiting = BTreeMap::new();
        let state = State { next: 0, taken: 0, taking: false, waiting, working: 0, idle: 0, stopped: false };
        Queue { state: Mutex::new(state), room: Condvar::new(), end: Condvar::new(), count, most }
    }

    fn lock(&self) -> MutexGuard<'_, State<T>> {
        self.state.lock().unwrap_or_else(PoisonError::into_inner)
    }

    /// The next task, once there is room for its result.
    fn task(&self) -> Option<usize> {
        let mut state = self.lock();
        state.idle += 1;
        let full =
            |state: &mut State<T>| !state.stopped && state.next < self.count && state.next >= state.taken + self.most;
        let mut state = self.room.wait_while(state, full).unwrap_or_else(PoisonError::into_inner);
        state.idle -= 1;
        if state.stopped || state.next >= self.count {
            return None;
        }
        state.next += 1;
        Some(state.next - 1)
    }

    /// Hands a result in. The worker that brings the next one in order takes it, and all that wait behind it: so no further thread has to
    /// be woken for it.
    fn give(&self, task: usize, result: T, take: &impl Fn(Vec<T>) -> bool) {
        let mut state = self.lock();
        state.waiting.insert(task, result);
        while !state.taking && !state.stopped && state.waiting.contains_key(&state.taken) {
            let results = state.ready();
            state.taking = true;
            drop(state);
            let go_on = take(results);
            state = self.lock();
            state.taking = false;
            state.stopped |= !go_on;
            if state.idle > 0 {
                self.room.notify_all();
            }
        }
    }

    fn stop(&self) {
        self.lock().stopped = true;
        self.room.notify_all();
    }

    /// Waits for the last worker, for so long at most. Whether it has ended.
    fn ended(&self, patience: Duration) -> bool {
        let working = |state: &mut State<T>| state.working > 0;
        let (state, _) =
            self.end.wait_timeout_while(self.lock(), patience, working).unwrap_or_else(PoisonError::into_inner);
        state.working == 0
    }
}

/// Ends a worker's part. If it panics, all end: its result will never come, and nobody must wait for it.
struct Ending<'a, T>(&'a Queue<T>);

impl<T> Drop for Ending<'_, T> {
    fn drop(&mut self) {
        if thread::panicking() {
            self.0.stop();
        }
        self.0.lock().working -= 1;
        self.0.end.notify_one();
    }
}

/// Does the tasks 0 to `count` - 1 with so many workers, each with a room of its own that it uses again and again. `take` is given the
/// results in order, as they come, one call at a time, and says whether to go on. `tick` is called every so often, beside it. Gives whether
/// all results were taken and `take` always said to go on.
pub fn in_order<T: Send, R>(
    count: usize,
    workers: usize,
    room: impl Fn() -> R + Sync,
    work: impl Fn(&mut R, usize) -> T + Sync,
    take: impl Fn(Vec<T>) -> bool + Sync,
    patience: Duration,
    tick: impl Fn(),
) -> bool {
    let workers = workers.clamp(1, count.max(1));
    let queue = Queue::new(count, AHEAD * workers);
    let worker = || {
        let _ending = Ending(&queue);
        let mut room = room();
        while let Some(task) = queue.task() {
            let result = work(&mut room, task);
            queue.give(task, result, &take);
        }
    };
    thread::scope(|scope| {
        for started in 0..workers {
            queue.lock().working += 1;
            // Where there are no more threads, those that there are do all the work; without any, this one does it.
            if thread::Builder::new().stack_size(STACK).spawn_scoped(scope, worker).is_err() {
                match started {
                    0 => worker(),
                    _ => queue.lock().working -= 1,
                }
                break;
            }
        }
        while !queue.ended(patience) {
            tick();
        }
    });
    let state = queue.lock();
    state.taken == count && !state.stopped
}
