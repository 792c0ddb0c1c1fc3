//! The program, with `--jobs N` beside `--batch FILE`: N threads read the lines, and then work on the requests of a source,
//! where as many more may wait until a new font is on its disk. They share the source and the requests, which no call
//! changes; each does one request after another by the call that does it without threads. One thread sets the answers and
//! writes them, so that they are the same for each N.

mod lines;

use crate::host::process::{ExitCode, Termination};
use crate::host::rt::{AllocGlobal, Eprint, HostRuntime};
use crate::host::turns;
use crate::proved::subset_args::Shown;
use crate::proved::subset_font::{
    answer_apart, batch_or_status, read_lines, read_source, refuse_memory, run_by, status_of_batch,
    AnswerLines, Ended,
};
use crate::proved::subset_task::batch::requests::{
    due, due_of, next_of_source, set_answer, Batch, Request, State,
};
use crate::proved::subset_task::refusals::failure::{Failure, Report};
use crate::proved::subset_task::run::request::read_arguments;
use crate::proved::subset_task::streams::{hold_streams, is_shown};
use crate::rattle::io::{self, BufWriter, Write};
use crate::rattle::prelude::String;
use std::iter;
use std::sync::atomic::{AtomicUsize, Ordering};
use std::sync::mpsc;
use std::thread::{self, Builder};
use std::vec::Vec;

/// The options that belong together, and the most threads.
const BATCH: &str = "--batch";
const JOBS: &str = "--jobs";
const MOST: usize = 64;
/// The threads for each that works, where more than one does. (A disk settles several files at once about as fast as one.)
const FOR_EACH: usize = 2;

/// How a run ended: as one without threads, or by its status.
pub enum End {
    /// Without threads.
    Run(Ended),
    /// A batch in threads.
    Status(u8),
}

impl Termination for End {
    fn report<R: Eprint>(self, rt: &R) -> ExitCode {
        match self {
            End::Run(ended) => ended.report(rt),
            End::Status(status) => ExitCode::from(status),
        }
    }
}

/// Runs the program.
pub fn main(rt: HostRuntime) -> End {
    let _held = hold_streams(&rt);
    let words = read_arguments(&rt);
    match words.as_ref().map(|words| jobs_in(words)) {
        Ok(Some((file, number))) => End::Status(run_jobs(&rt, file, number)),
        Ok(None) if matches!(&words, Ok(given) if is_apart(given)) => {
            End::Status(refuse_apart(&rt))
        }
        _ => End::Run(run_by(&rt, words)),
    }
}

/// The value of an option that comes first, in its word or in the next, and the arguments after it.
fn value_of<'a>(words: &'a [String], name: &str) -> Option<(&'a str, &'a [String])> {
    match words {
        [word, value, rest @ ..] if word.as_str() == name => Some((value.as_str(), rest)),
        [word, rest @ ..] => {
            let value = word.as_str().strip_prefix(name)?.strip_prefix('=')?;
            Some((value, rest))
        }
        [] => None,
    }
}

/// The values of two options, where these are all arguments, in this order.
fn values_of<'a>(words: &'a [String], one: &str, other: &str) -> Option<(&'a str, &'a str)> {
    let (first, rest) = value_of(words, one)?;
    let (second, rest) = value_of(rest, other)?;
    rest.is_empty().then_some((first, second))
}

/// FILE and N, where the arguments are `--batch FILE` and `--jobs N`.
fn jobs_in(words: &[String]) -> Option<(&str, &str)> {
    let turned = || values_of(words, JOBS, BATCH).map(|(number, file)| (file, number));
    values_of(words, BATCH, JOBS).or_else(turned)
}

/// Whether `--jobs` is an argument, where the arguments aren't `--batch FILE` and `--jobs N`.
fn is_apart(words: &[String]) -> bool {
    match words {
        [jobs, ..] if jobs.as_str() == JOBS => true,
        [batch, _, jobs, ..] => batch.as_str() == BATCH && jobs.as_str() == JOBS,
        _ => false,
    }
}

/// How many threads a number means.
fn count_of(number: &str) -> Option<usize> {
    if !number.bytes().all(|byte| byte.is_ascii_digit()) {
        return None;
    }
    let count = number.parse().ok()?;
    (1..=MOST).contains(&count).then_some(count)
}

/// Reports `--jobs` without `--batch FILE`, or beside more, and returns the status.
fn refuse_apart(rt: &HostRuntime) -> u8 {
    let failure = &Failure::Usage;
    let _ = eprintln!(rt; "{}", Report { failure, file: None });
    let _ = eprintln!(rt; "{} goes with {} FILE alone", JOBS, BATCH);
    let _ = eprintln!(rt; "expected: {} FILE {} N", BATCH, JOBS);
    failure.status()
}

/// Reports a wrong N, and returns the status.
fn refuse(rt: &HostRuntime, number: &str) -> u8 {
    let failure = &Failure::Usage;
    let _ = eprintln!(rt; "{}", Report { failure, file: None });
    let _ = eprintln!(rt; "{}: \"{}\" is not a number of threads", JOBS, Shown(number));
    let _ = eprintln!(rt; "expected: a number from 1 to {}", MOST);
    failure.status()
}

/// Does what the lines of FILE request in N threads, and returns the status.
fn run_jobs(rt: &HostRuntime, file: &str, number: &str) -> u8 {
    let count = match count_of(number) {
        Some(count) => count,
        None => return refuse(rt, number),
    };
    match read_requests(rt, file, count) {
        Ok(batch) => run_requests(rt, batch, count),
        Err(status) => status,
    }
}

/// The requests of FILE, read in `count` threads, or the status where it can't be used.
fn read_requests(rt: &HostRuntime, file: &str, count: usize) -> Result<Batch, u8> {
    let text = read_lines(rt, file)?;
    batch_or_status(rt, file, lines::requests_in(rt.alloc(), &text, count))
}

/// Does the requests of a batch, and returns the status.
fn run_requests(rt: &HostRuntime, batch: Batch, count: usize) -> u8 {
    let is_shown = is_shown(rt);
    let lines = match BufWriter::new(rt.alloc(), io::writer(rt)) {
        Ok(lines) => lines,
        Err(_) => return refuse_memory(rt),
    };
    let Batch {
        requests,
        mut states,
    } = batch;
    let next = match next_of_source(rt.alloc(), &requests) {
        Ok(next) => next,
        Err(_) => return refuse_memory(rt),
    };
    turns::set(count);
    let mut answers = AnswerLines::new(lines, is_shown);
    let ended = answer_all(rt, &requests, &next, &mut states, count, &mut answers);
    status_of_batch(rt, &ended, answers.has_failed(), is_shown)
}

/// Does all requests, source by source, by the index of each one's next, and writes the answers.
fn answer_all<W: Write>(
    rt: &HostRuntime,
    requests: &[Request],
    next: &[usize],
    states: &mut [State],
    count: usize,
    answers: &mut AnswerLines<W>,
) -> Result<(), Failure> {
    answers.write_ready(rt, requests, states)?;
    for first in 0..requests.len() {
        if let Some(job) = due(requests, states, first) {
            let input = job.input.as_str();
            let of_source = |index: &usize| due_of(requests, states, *index, input).is_some();
            let chain = iter::successors(Some(first), |index| next.get(*index).copied());
            let indexes: Vec<usize> = chain.filter(of_source).collect();
            answer_source(rt, requests, states, input, &indexes, count, answers)?;
        }
    }
    Ok(())
}

/// Does the requests of these indexes, which are of one source, `count` at a time, and writes the answers as they come. Where
/// an answer can't be written no request is begun after those that are under way. Where the system has no thread left, those
/// that there are do all.
fn answer_source<W: Write>(
    rt: &HostRuntime,
    requests: &[Request],
    states: &mut [State],
    input: &str,
    indexes: &[usize],
    count: usize,
    answers: &mut AnswerLines<W>,
) -> Result<(), Failure> {
    let source = read_source(rt, input);
    let next = AtomicUsize::new(0);
    let (send, receive) = mpsc::channel();
    let work = |send: mpsc::Sender<_>| {
        while let Some(&index) = indexes.get(next.fetch_add(1, Ordering::Relaxed)) {
            if let Some(job) = &requests[index].job {
                let answer = turns::in_turn(|| answer_apart(rt, &source, job));
                if send.send((index, answer)).is_err() {
                    return;
                }
            }
        }
    };
    thread::scope(|scope| {
        let work = &work;
        let mut is_one_there = false;
        let threads = if count > 1 { FOR_EACH * count } else { 1 };
        for _ in 0..threads.min(indexes.len()) {
            let send = send.clone();
            let made = Builder::new().spawn_scoped(scope, move || work(send));
            is_one_there = is_one_there || made.is_ok();
        }
        if is_one_there {
            drop(send);
        } else {
            work(send);
        }
        for (index, answer) in receive {
            set_answer(states, index, answer);
            answers.write_ready(rt, requests, states)?;
        }
        Ok(())
    })
}
