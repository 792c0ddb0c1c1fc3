//! Turns at the processors, of which there are as many as `--jobs` names. A thread that waits for a disk gives its turn back
//! meanwhile, so that another one works.

use std::sync::{Condvar, Mutex, MutexGuard, PoisonError};

/// How many turns nobody has; None where there are none, as without threads.
static FREE: Mutex<Option<usize>> = Mutex::new(None);
static GIVEN_BACK: Condvar = Condvar::new();

/// A turn, which ends where this is dropped.
struct Turn;

impl Drop for Turn {
    fn drop(&mut self) {
        give_back();
    }
}

/// Sets how many turns there are. No thread may have one.
pub fn set(count: usize) {
    *free() = Some(count);
}

/// Waits for a turn, and does something in it.
pub fn in_turn<T>(call: impl FnOnce() -> T) -> T {
    take();
    let _turn = Turn;
    call()
}

/// Does something that waits for the system. Where there are turns the thread has one, which is given back until it is done.
pub fn waiting<T>(call: impl FnOnce() -> T) -> T {
    if free().is_none() {
        return call();
    }
    give_back();
    let made = call();
    take();
    made
}

fn free() -> MutexGuard<'static, Option<usize>> {
    FREE.lock().unwrap_or_else(PoisonError::into_inner)
}

fn take() {
    let mut free = free();
    while *free == Some(0) {
        free = GIVEN_BACK
            .wait(free)
            .unwrap_or_else(PoisonError::into_inner);
    }
    *free = free.map(|count| count - 1);
}

fn give_back() {
    let mut free = free();
    *free = free.map(|count| count + 1);
    GIVEN_BACK.notify_one();
}

#[cfg(test)]
mod tests {
    use super::*;
    use std::boxed::Box;
    use std::panic::{catch_unwind, resume_unwind};
    use std::sync::mpsc::{channel, Receiver, RecvTimeoutError, Sender};
    use std::thread;
    use std::time::Duration;
    use std::vec::Vec;

    /// Who has the turns, which all tests of a process share.
    static ALONE: Mutex<()> = Mutex::new(());

    /// How long something is waited for. What holds comes at once, so that this is over in a test that fails alone.
    const LATE: Duration = Duration::from_secs(120);

    /// Runs a test that has `count` turns, in a thread, so that it fails where no turn comes back, and demands them back. Then
    /// there are none.
    fn with_turns(count: usize, test: impl FnOnce() + Send + 'static) {
        let _alone = ALONE.lock().unwrap_or_else(PoisonError::into_inner);
        set(count);
        assert_eq!(*free(), Some(count));
        let (works, working): (Sender<()>, _) = channel();
        let tested = thread::spawn(move || {
            let _works = works;
            test();
        });
        // (its sender is dropped at its end, also where it panics)
        let end = working.recv_timeout(LATE);
        assert_eq!(end, Err(RecvTimeoutError::Disconnected));
        tested.join().unwrap();
        assert_eq!(free().take(), Some(count));
    }

    /// A thread that works in a turn, once it has one: it says its number then, and ends once its sender is dropped.
    fn worker(number: usize, begun: &Sender<usize>) -> (Sender<()>, thread::JoinHandle<()>) {
        let begun = begun.clone();
        let (end, ended): (_, Receiver<()>) = channel();
        let work = move || {
            begun.send(number).unwrap();
            assert!(ended.recv().is_err());
        };
        (end, thread::spawn(|| in_turn(work)))
    }

    #[test]
    fn a_turn_is_back_behind_what_is_done_in_it() {
        with_turns(2, || {
            let made = in_turn(|| {
                assert_eq!(*free(), Some(1));
                in_turn(|| assert_eq!(*free(), Some(0)));
                assert_eq!(*free(), Some(1));
                7
            });
            assert_eq!((made, *free()), (7, Some(2)));
            let panics = || in_turn::<()>(|| resume_unwind(Box::new(8)));
            assert!(catch_unwind(panics).unwrap_err().is::<i32>());
            assert_eq!(*free(), Some(2));
        });
    }

    #[test]
    fn one_that_waits_has_no_turn_meanwhile() {
        with_turns(2, || {
            let waits = || {
                let made = waiting(|| {
                    assert_eq!(*free(), Some(2));
                    9
                });
                assert_eq!((made, *free()), (9, Some(1)));
            };
            in_turn(waits);
        });
    }

    #[test]
    fn no_more_work_at_a_time_than_there_are_turns() {
        with_turns(2, || {
            let (begun, begins) = channel();
            let (mut ends, threads): (Vec<_>, Vec<_>) = (0..5)
                .map(|number| worker(number, &begun))
                .map(|(end, thread)| (Some(end), thread))
                .unzip();
            let next = || begins.recv_timeout(LATE).unwrap();
            let mut working = [next(), next()];
            for number in 0..3 {
                assert_eq!(*free(), Some(0));
                // One that ends lets one begin.
                assert!(begins.try_recv().is_err());
                ends[working[number % 2]].take();
                working[number % 2] = next();
            }
            ends.clear();
            for thread in threads {
                thread.join().unwrap();
            }
            assert!(begins.try_recv().is_err());
        });
    }

    #[test]
    fn one_that_is_woken_though_no_turn_is_free_waits_on() {
        with_turns(1, || {
            let (begun, begins) = channel();
            in_turn(|| {
                let (end, thread) = worker(3, &begun);
                // (it may be woken by itself, or another may have taken the turn before)
                for _ in 0..200 {
                    GIVEN_BACK.notify_all();
                    thread::sleep(Duration::from_millis(1));
                }
                assert_eq!(*free(), Some(0));
                assert!(begins.try_recv().is_err());
                drop(end);
                waiting(|| thread.join().unwrap());
            });
            assert_eq!(begins.try_recv(), Ok(3));
        });
    }

    #[test]
    fn another_works_while_one_waits() {
        with_turns(1, || {
            let (begun, begins) = channel();
            in_turn(|| {
                let (end, thread) = worker(3, &begun);
                let made = waiting(|| {
                    assert_eq!(begins.recv_timeout(LATE), Ok(3));
                    assert_eq!(*free(), Some(0));
                    drop(end);
                    thread.join().unwrap();
                    assert_eq!(*free(), Some(1));
                    4
                });
                assert_eq!((made, *free()), (4, Some(0)));
            });
        });
    }

    #[test]
    fn nobody_waits_where_there_are_no_turns() {
        let _alone = ALONE.lock().unwrap_or_else(PoisonError::into_inner);
        assert_eq!(*free(), None);
        let made = in_turn(|| in_turn(|| waiting(|| *free())));
        assert_eq!((made, *free()), (None, None));
    }
}
