//! The requests of a file, read in threads. What a line requests, and whether a line before it names its file, is found by the
//! calls that find it without threads, so that the requests are the same for each N.

use crate::proved::subset_batch::{lines_of, Line};
use crate::proved::subset_task::batch::orders::order_of;
use crate::proved::subset_task::batch::requests::{numbers_of, push_order, Batch, MOST_NUMBERS};
use crate::rattle::alloc::{AllocError, Global};
use crate::rattle::collections::HashMap;
use crate::rattle::prelude;
use std::panic;
use std::sync::atomic::{AtomicUsize, Ordering};
use std::thread::{self, Builder};
use std::vec::Vec;

/// How many items a thread takes at a time. Fewer are no work for a second thread.
const AT_ONCE: usize = 16;

/// The requests of a file, and how far each is, found in `count` threads.
pub fn requests_in(alloc: Global, file: &[u8], count: usize) -> Result<Batch, AllocError> {
    let lines = lines_of(alloc, file)?;
    let kept = AtomicUsize::new(0);
    // Lists that may be too long in sum aren't kept.
    let read = |line: &Line<'_>| {
        let order = order_of(alloc, line.bytes);
        let numbers = order.as_ref().map_or(0, numbers_of);
        let before = kept.fetch_add(numbers, Ordering::Relaxed);
        if numbers > 0 && before + numbers > MOST_NUMBERS {
            kept.fetch_sub(numbers, Ordering::Relaxed);
            return None;
        }
        Some(order)
    };
    let orders = in_threads(&lines, count, read);
    let mut batch = Batch {
        requests: prelude::Vec::with_capacity(alloc, lines.len())?,
        states: prelude::Vec::with_capacity(alloc, lines.len())?,
    };
    let mut names = HashMap::new(alloc);
    let mut left = MOST_NUMBERS;
    for (line, order) in lines.iter().zip(orders) {
        let order = order.unwrap_or_else(|| order_of(alloc, line.bytes));
        push_order(alloc, &mut batch, &mut names, &mut left, *line, order)?;
    }
    Ok(batch)
}

/// What a call makes of each item, in the order of the items. `count` threads, of which this is one, take some
/// items after others; where the system has no thread left, the others do all.
fn in_threads<T: Sync, U: Send>(
    items: &[T],
    count: usize,
    call: impl Fn(&T) -> U + Sync,
) -> Vec<U> {
    let pieces: Vec<(usize, &[T])> = items.chunks(AT_ONCE).enumerate().collect();
    let next = AtomicUsize::new(0);
    let work = || {
        let mut made = Vec::new();
        while let Some((number, piece)) = pieces.get(next.fetch_add(1, Ordering::Relaxed)) {
            let results: Vec<U> = piece.iter().map(&call).collect();
            made.push((*number, results));
        }
        made
    };
    let mut made = thread::scope(|scope| {
        let work = &work;
        let begun: Vec<_> = (1..count.min(pieces.len()))
            .map_while(|_| Builder::new().spawn_scoped(scope, work).ok())
            .collect();
        let mut made = work();
        for thread in begun {
            let others = thread.join();
            made.extend(others.unwrap_or_else(|cause| panic::resume_unwind(cause)));
        }
        made
    });
    made.sort_unstable_by_key(|(number, _)| *number);
    made.into_iter().flat_map(|(_, results)| results).collect()
}
