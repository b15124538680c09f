//! Two programs side by side: time of each, their ratio, and its spread over repeats.

use std::time::Instant;

use crate::clock::thread_seconds;

/// The times of both sides, repeat by repeat, in seconds for one piece of work.
pub struct Contest {
    pub what: String,
    pub ours: Vec<f64>,
    pub theirs: Vec<f64>,
    /// The ratio wanted, if one is.
    pub target: Option<f64>,
}

/// Times both sides in turn, so that a busy machine hits both alike. Each side does `pieces` pieces
/// of work and returns a sum of its answers; the sums must agree. Short work is done several times
/// in a repeat. The time is this thread's own.
pub fn contest(
    what: &str,
    target: Option<f64>,
    pieces: usize,
    repeats: usize,
    mut ours: impl FnMut() -> u64,
    mut theirs: impl FnMut() -> u64,
) -> Contest {
    assert_eq!(ours(), theirs(), "{what}: the answers differ");
    let times = (REPEAT_SECONDS / seconds(1, &mut theirs)).clamp(1.0, 1000.0) as usize;
    let each = 1.0 / (pieces * times) as f64;
    let pair = || {
        let mine = seconds(times, &mut ours);
        (mine * each, seconds(times, &mut theirs) * each)
    };
    Contest::new(what, target, repeats, pair)
}

/// The same for two commands, which run outside this thread: by the clock on the wall.
pub fn contest_of_commands(
    what: &str,
    target: Option<f64>,
    repeats: usize,
    mut ours: impl FnMut(),
    mut theirs: impl FnMut(),
) -> Contest {
    let pair = || {
        let start = Instant::now();
        ours();
        let middle = Instant::now();
        theirs();
        let mine = (middle - start).as_secs_f64();
        (mine, middle.elapsed().as_secs_f64())
    };
    Contest::new(what, target, repeats, pair)
}

/// How long a repeat is to take, about.
const REPEAT_SECONDS: f64 = 4e-3;

fn seconds(times: usize, work: &mut impl FnMut() -> u64) -> f64 {
    let start = thread_seconds();
    for _ in 0..times {
        std::hint::black_box(work());
    }
    thread_seconds() - start
}

/// The least time of some runs, in seconds.
pub fn least_seconds(runs: usize, mut work: impl FnMut() -> u64) -> f64 {
    let times: Vec<f64> = (0..runs).map(|_| seconds(1, &mut work)).collect();
    least(&times)
}

/// The least of some times.
pub fn least(times: &[f64]) -> f64 {
    times.iter().copied().fold(f64::INFINITY, f64::min)
}

impl Contest {
    /// Takes the pairs of times.
    fn new(
        what: &str,
        target: Option<f64>,
        repeats: usize,
        pair: impl FnMut() -> (f64, f64),
    ) -> Contest {
        let (ours, theirs) = std::iter::repeat_with(pair).take(repeats).unzip();
        Contest {
            what: what.to_string(),
            ours,
            theirs,
            target,
        }
    }

    /// The ratio of the least times: what else the machine does can only lengthen a time.
    pub fn ratio(&self) -> f64 {
        least(&self.ours) / least(&self.theirs)
    }

    /// The ratios repeat by repeat: a quarter of them lies below the first, a quarter above the
    /// second.
    pub fn spread(&self) -> (f64, f64) {
        let pairs = self.ours.iter().zip(&self.theirs);
        let mut ratios: Vec<f64> = pairs.map(|(a, b)| a / b).collect();
        ratios.sort_by(f64::total_cmp);
        let last = ratios.len() - 1;
        (ratios[last / 4], ratios[last - last / 4])
    }
}

/// A time with a fitting unit.
pub fn shown(seconds: f64) -> String {
    if seconds < 1e-6 {
        format!("{:.1} ns", seconds * 1e9)
    } else if seconds < 1e-3 {
        format!("{:.2} us", seconds * 1e6)
    } else {
        format!("{:.2} ms", seconds * 1e3)
    }
}

/// The head of the table.
pub fn print_head(ours: &str, theirs: &str) {
    println!(
        "{:<57} {ours:>12} {theirs:>12} {:>7} {:>15} {:>7}",
        "what", "ratio", "middle half", "target"
    );
}

/// One line of the table.
pub fn print_line(contest: &Contest) {
    let spread = match contest.ours.len() {
        1 => String::new(),
        _ => {
            let (low, high) = contest.spread();
            format!("{low:.2} .. {high:.2}")
        }
    };
    let verdict = match contest.target {
        None => String::new(),
        Some(target) if contest.ratio() <= target => format!("{target:>7.2} met"),
        Some(target) => format!("{target:>7.2} NOT MET"),
    };
    println!(
        "{:<57} {:>12} {:>12} {:>7.2} {spread:>15} {verdict}",
        contest.what,
        shown(least(&contest.ours)),
        shown(least(&contest.theirs)),
        contest.ratio(),
    );
}

#[cfg(test)]
mod tests {
    use super::*;

    #[test]
    fn ratio_and_spread() {
        let contest = Contest {
            what: String::new(),
            ours: vec![1.0, 9.0, 3.0, 4.0, 2.0],
            theirs: vec![2.0, 3.0, 3.0, 2.0, 2.0],
            target: Some(1.0),
        };
        assert_eq!(contest.ratio(), 0.5);
        assert_eq!(contest.spread(), (1.0, 2.0));
    }

    #[test]
    fn units() {
        assert_eq!(shown(2.5e-9), "2.5 ns");
        assert_eq!(shown(2.5e-6), "2.50 us");
        assert_eq!(shown(2.5e-3), "2.50 ms");
    }
}
