//! The queue of workers: results in order whatever they take, an end whatever happens, and no more waiting results than it says.

use std::sync::atomic::{AtomicUsize, Ordering::SeqCst};
use std::sync::mpsc::channel;
use std::sync::Mutex;
use std::thread;
use std::time::Duration;
use tirfolma::queue::{in_order, AHEAD};

const TICK: Duration = Duration::from_millis(5);

/// The queue with a taker that keeps something, and nothing to be called beside it.
fn queue<T: Send, R>(
    count: usize,
    workers: usize,
    room: impl Fn() -> R + Sync,
    work: impl Fn(&mut R, usize) -> T + Sync,
    take: impl FnMut(Vec<T>) -> bool + Send,
) -> bool {
    let take = Mutex::new(take);
    let take = |results: Vec<T>| (take.try_lock().expect("one call at a time"))(results);
    in_order(count, workers, room, work, take, TICK, || ())
}

/// Runs something that must end. Gives whether it panicked.
fn ends(what: &str, run: impl FnOnce() + Send + 'static) -> bool {
    let (told, tell) = channel();
    let runs = thread::spawn(move || {
        let caught = std::panic::catch_unwind(std::panic::AssertUnwindSafe(run));
        told.send(caught.is_err()).expect("someone waits");
    });
    let panicked = tell.recv_timeout(Duration::from_secs(10)).unwrap_or_else(|_| panic!("{what}: it hangs"));
    runs.join().expect("it was caught");
    panicked
}

fn pause(task: usize) {
    // Some take long, and not those that come last.
    let scrambled = (task as u64).wrapping_mul(0x9e37_79b9_7f4a_7c15) >> 60;
    thread::sleep(Duration::from_micros(if scrambled == 0 { 3_000 } else { scrambled * 20 }));
}

#[test]
fn results_keep_the_order() {
    for workers in [1, 2, 3, 8, 64] {
        for count in [0, 1, 2, 63, 500] {
            let mut taken = Vec::new();
            let work = |_: &mut (), task| {
                pause(task);
                task
            };
            let all = queue(
                count,
                workers,
                || (),
                work,
                |results| {
                    taken.extend(results);
                    true
                },
            );
            assert!(all, "{count} tasks, {workers} workers");
            assert!(taken.iter().copied().eq(0..count), "{count} tasks, {workers} workers: {taken:?}");
        }
    }
}

#[test]
fn each_worker_keeps_its_room() {
    let rooms = AtomicUsize::new(0);
    let mut uses = 0;
    let room = || {
        rooms.fetch_add(1, SeqCst);
        0
    };
    let work = |used: &mut usize, _| {
        *used += 1;
        *used
    };
    queue(1_000, 4, room, work, |results| {
        uses += results.iter().filter(|&&used| used > 1).count();
        true
    });
    assert!(rooms.load(SeqCst) <= 4, "a room for each worker");
    assert!(uses >= 1_000 - 4, "each room is used again: {uses}");
}

/// Several workers at once: with as many as there are tasks, each waits until all have begun.
#[test]
fn workers_run_at_once() {
    assert!(!ends("workers that wait for each other", || {
        let barrier = std::sync::Barrier::new(4);
        let work = |_: &mut (), _| barrier.wait();
        assert!(queue(4, 4, || (), work, |_| true));
    }));
}

#[test]
fn a_panic_is_no_hang() {
    for (count, workers, bad) in [(1, 1, 0), (10, 2, 3), (10, 2, 9), (5_000, 1, 7), (5_000, 2, 7), (5_000, 8, 4_000)] {
        let what = format!("a panic in task {bad} of {count} with {workers} workers");
        let panicked = ends(&what, move || {
            let work = |_: &mut (), task| assert!(task != bad, "on purpose");
            queue(count, workers, || (), work, |_| true);
        });
        assert!(panicked, "{what}: it looks as if all were well");
    }
}

#[test]
fn a_panic_while_taking_is_no_hang() {
    let panicked = ends("a panic of the taker", || {
        queue(5_000, 2, || (), |_, task| task, |_| panic!("on purpose"));
    });
    assert!(panicked);
}

#[test]
fn it_stops_when_told() {
    let begun: &'static AtomicUsize = Box::leak(Box::new(AtomicUsize::new(0)));
    let panicked = ends("a taker that has enough", || {
        let work = |_: &mut (), task| {
            begun.fetch_add(1, SeqCst);
            task
        };
        let mut taken = 0;
        let all = queue(
            1_000_000,
            3,
            || (),
            work,
            |results| {
                taken += results.len();
                taken < 100
            },
        );
        assert!(!all, "not all were taken");
        assert!(taken >= 100);
    });
    assert!(!panicked && begun.load(SeqCst) < 10_000, "{} tasks were begun", begun.load(SeqCst));
}

/// A taker that can't use the last results says so when all of them are taken already.
#[test]
fn the_last_word_of_the_taker_counts() {
    for count in [1, 5, 100] {
        let mut taken = 0;
        let all = queue(
            count,
            2,
            || (),
            |_, task| task,
            |results| {
                taken += results.len();
                taken < count
            },
        );
        assert!(!all && taken == count, "{count} tasks");
    }
}

/// While the taker does nothing, the workers stop; and a slow first task lets the others be only so far ahead.
#[test]
fn few_results_wait() {
    for workers in [1, 2, 5] {
        let begun = AtomicUsize::new(0);
        let (mut taken, mut most) = (0, 0);
        let work = |_: &mut (), task: usize| {
            begun.fetch_add(1, SeqCst);
            thread::sleep(Duration::from_millis(if task == 0 { 60 } else { 0 }));
        };
        queue(
            2_000,
            workers,
            || (),
            work,
            |results| {
                taken += results.len();
                if taken % 5 == 0 {
                    thread::sleep(Duration::from_millis(2));
                }
                let ahead = begun.load(SeqCst) - taken;
                assert!(ahead <= AHEAD * workers, "{ahead} ahead with {workers} workers");
                most = most.max(ahead);
                true
            },
        );
        assert_eq!(taken, 2_000);
        // A worker that is alone takes each result itself.
        assert!(workers == 1 || most > AHEAD / 2, "the bound was put to the test: {most}");
    }
}

/// Something is called now and then while the work goes on, so that progress can be shown.
#[test]
fn it_ticks_while_it_works() {
    let ticks = AtomicUsize::new(0);
    let tick = || {
        ticks.fetch_add(1, SeqCst);
    };
    let work = |_: &mut (), _| thread::sleep(Duration::from_millis(100));
    assert!(in_order(1, 1, || (), work, |_| true, TICK, tick));
    assert!(ticks.load(SeqCst) >= 3, "{ticks:?} times");
}
