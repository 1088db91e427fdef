//! Many files on some threads, told in the order of the arguments.

use super::args::{Format, Options};
use super::look::{look, Outcome};
use super::output::{End, Output};
use super::style::Style;
use super::{CLEAN, FAULTS, REFUSED};
use ravneket::names::counted;
use std::collections::BTreeMap;
use std::io::{IsTerminal, Write};
use std::sync::{Condvar, Mutex, MutexGuard};
use std::time::{Duration, Instant};

/// Files that may wait for their turn, for each thread: the memory for answers stays bounded.
const AHEAD: usize = 8;
/// How long a batch runs before its progress is shown.
const PATIENCE: Duration = Duration::from_secs(1);
/// How often the progress is looked at.
const TICK: Duration = Duration::from_millis(200);

/// What the threads share.
struct Shared {
    state: Mutex<State>,
    changed: Condvar,
    jobs: usize,
}

struct State {
    /// The next file that no thread has taken.
    next: usize,
    /// The file whose turn it is to be told.
    turn: usize,
    /// No more files are to be taken.
    stopped: bool,
    done: BTreeMap<usize, Outcome>,
}

/// Audits all files and answers the exit status: the highest that applies.
pub fn run(options: &Options, output: &mut Output) -> u8 {
    let cores = std::thread::available_parallelism().map_or(1, |cores| cores.get());
    let jobs = options.jobs.unwrap_or(cores).min(options.files.len());
    let state = State { next: 0, turn: 0, stopped: false, done: BTreeMap::new() };
    let shared = Shared { state: Mutex::new(state), changed: Condvar::new(), jobs };
    let style = Style::of_stdout();
    std::thread::scope(|scope| {
        for _ in 0..jobs {
            scope.spawn(|| shared.work(options, style));
        }
        let mut counts = [0; 4];
        let told = tell(&shared, options, output, &mut counts);
        shared.lock().stopped = true;
        shared.changed.notify_all();
        let so_far = (0..4).rev().find(|&status| counts[usize::from(status)] > 0).unwrap_or(CLEAN);
        match told {
            Ok(()) => so_far,
            // A thread may be waiting for standard input, which nobody wants any more.
            Err(end) => std::process::exit(end.status(so_far).into()),
        }
    })
}

impl Shared {
    fn lock(&self) -> MutexGuard<'_, State> {
        self.state.lock().expect("no thread panics with the lock held")
    }

    /// Takes files until there are no more.
    fn work(&self, options: &Options, style: Style) {
        loop {
            let mut state = self.lock();
            while !state.stopped && state.next >= state.turn + AHEAD * self.jobs {
                state = self.changed.wait(state).expect("no thread panics with the lock held");
            }
            let at = state.next;
            if state.stopped || at == options.files.len() {
                return;
            }
            state.next += 1;
            drop(state);
            let outcome = look(&options.files[at], options, style);
            self.lock().done.insert(at, outcome);
            self.changed.notify_all();
        }
    }

    /// Waits for the file whose turn it is, and answers it with the next turn begun.
    fn outcome(&self, progress: &mut Progress) -> Outcome {
        let mut state = self.lock();
        loop {
            let turn = state.turn;
            if let Some(outcome) = state.done.remove(&turn) {
                state.turn += 1;
                self.changed.notify_all();
                return outcome;
            }
            progress.show(turn + state.done.len());
            let waited = self.changed.wait_timeout(state, TICK);
            state = waited.expect("no thread panics with the lock held").0;
        }
    }
}

fn tell(shared: &Shared, options: &Options, output: &mut Output, counts: &mut [usize; 4]) -> Result<(), End> {
    let files = options.files.len();
    let mut progress = Progress::new(files, options.quiet);
    for _ in 0..files {
        let outcome = shared.outcome(&mut progress);
        counts[usize::from(outcome.status)] += 1;
        if !outcome.out.is_empty() || outcome.trouble.is_some() {
            progress.clear();
        }
        if let Some(trouble) = outcome.trouble {
            let _ = writeln!(std::io::stderr(), "ravneket: {trouble}");
        }
        output.write(&outcome.out)?;
    }
    progress.clear();
    if files > 1 && options.format == Format::Text {
        let [clean, faulty, refused, unread] = *counts;
        let all = counted(files, "file");
        let line = format!("{all}: {clean} clean, {faulty} with faults, {refused} refused, {unread} not read\n");
        output.write(line.as_bytes())?;
    }
    Ok(())
}

/// One line on standard error, for people at a terminal who wait.
struct Progress {
    wanted: bool,
    shown: bool,
    files: usize,
    start: Instant,
}

impl Progress {
    fn new(files: usize, quiet: bool) -> Self {
        let wanted = !quiet && files > 1 && std::io::stderr().is_terminal();
        Progress { wanted, shown: false, files, start: Instant::now() }
    }

    fn show(&mut self, done: usize) {
        if self.wanted && self.start.elapsed() >= PATIENCE {
            let _ = write!(std::io::stderr(), "\r{done} of {} files\x1b[K", self.files);
            self.shown = true;
        }
    }

    fn clear(&mut self) {
        if std::mem::replace(&mut self.shown, false) {
            let _ = write!(std::io::stderr(), "\r\x1b[K");
        }
    }
}

const _: () = assert!(CLEAN < FAULTS && FAULTS < REFUSED, "the highest status tells the most");
