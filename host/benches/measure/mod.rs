//! Times two functions in turn and compares them.

use std::time::{Duration, Instant};

/// Under this ratio a row is a defect.
pub const LEAST: f64 = 0.7;

/// Median times of one call, and the ratios (the proved one's speed by the plain one's) of calls that came one behind the other: lowest, median, highest.
#[derive(Clone, Copy)]
pub struct Pair {
    pub proved: Duration,
    pub plain: Duration,
    ratios: [f64; 3],
}

impl Pair {
    pub fn ratio(self) -> f64 {
        self.ratios[1]
    }

    /// Millions a second of both, the ratio, its span over the runs, and, where rows are judged, a mark on a defect.
    pub fn line(self, things: usize, judged: bool) -> String {
        let speed = |time: Duration| things as f64 / 1e6 / time.as_secs_f64();
        let mark = if judged && self.ratio() < LEAST { " DEFECT" } else { "" };
        let [low, ratio, high] = self.ratios;
        format!("{:12.1} {:11.1} {ratio:6.2}  {low:.2}-{high:.2}{mark}", speed(self.proved), speed(self.plain))
    }
}

/// Runs both `runs` times in turn, each `repeats` times in a row. `clear` comes before each and is not timed.
pub fn in_turn<T>(
    runs: usize,
    repeats: u32,
    things: &mut T,
    clear: fn(&mut T),
    proved: &dyn Fn(&mut T),
    plain: &dyn Fn(&mut T),
) -> Pair {
    let mut times = [Vec::new(), Vec::new()];
    for run in 0..runs {
        for turn in 0..2 {
            let which = (run + turn) % 2;
            let call = [proved, plain][which];
            clear(things);
            let start = Instant::now();
            for _ in 0..repeats {
                call(things);
            }
            times[which].push(start.elapsed() / repeats);
        }
    }
    let ratio = |(proved, plain): (&Duration, &Duration)| plain.as_secs_f64() / proved.as_secs_f64();
    let mut ratios: Vec<f64> = times[0].iter().zip(&times[1]).map(ratio).collect();
    ratios.sort_unstable_by(f64::total_cmp);
    let ratios = [ratios[0], ratios[runs / 2], ratios[runs - 1]];
    let [proved, plain] = times.map(median);
    Pair { proved, plain, ratios }
}

fn median(mut times: Vec<Duration>) -> Duration {
    times.sort_unstable();
    times[times.len() / 2]
}

/// The worst ratio met, and where.
pub struct Worst {
    what: &'static str,
    ratio: f64,
    name: String,
}

impl Worst {
    pub fn new(what: &'static str) -> Worst {
        Worst { what, ratio: f64::INFINITY, name: String::new() }
    }

    pub fn add(&mut self, pair: Pair, name: &str) {
        if pair.ratio() < self.ratio {
            self.ratio = pair.ratio();
            self.name = name.to_string();
        }
    }

    pub fn is_defect(&self) -> bool {
        self.ratio < LEAST
    }

    pub fn say(&self) -> String {
        format!("worst {} ratio {:.2} ({})", self.what, self.ratio, self.name)
    }
}

/// Peak memory of this process in KiB, where the system tells it.
pub fn peak_memory() -> Option<u64> {
    let status = std::fs::read_to_string("/proc/self/status").ok()?;
    let line = status.lines().find(|line| line.starts_with("VmHWM:"))?;
    line.split_whitespace().nth(1)?.parse().ok()
}
