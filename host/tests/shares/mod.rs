//! Long tests on all processors at once.

use std::thread;

/// Runs a share of something on each processor, and answers what each gave. `run` is told the number of its share and how many there are.
pub fn shared<T: Send>(run: impl Fn(usize, usize) -> T + Sync) -> Vec<T> {
    let shares = thread::available_parallelism().map_or(1, |number| number.get());
    let run = &run;
    thread::scope(|scope| {
        let running: Vec<_> = (0..shares).map(|share| scope.spawn(move || run(share, shares))).collect();
        running.into_iter().map(|share| share.join().expect("no share fails")).collect()
    })
}

/// Adds tallies, place by place.
pub fn summed<const N: usize>(tallies: impl IntoIterator<Item = [u64; N]>) -> [u64; N] {
    tallies.into_iter().fold([0; N], |sum, tally| std::array::from_fn(|at| sum[at] + tally[at]))
}
