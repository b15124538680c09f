//! Whether any even cuts fit, whatever they cost.

use super::remembered::{after_cut, divisors};
use super::{Cuts, Job};

/// Looks for cuts dimension after dimension, large ones first, until some fit.
pub fn some_fit(job: &Job) -> bool {
    let (list, count) = divisors(job.p);
    // Cuts are divisors of p, and the order of the dimensions makes no difference: the roomiest comes first.
    let mut most = job.most.map(|most| most.min(job.p));
    most.sort_unstable_by(|a, b| b.cmp(a));
    let room = Room {
        d: job.d,
        most,
        divisors: &list[..count],
    };
    room.is_left(0, job.p, job.p)
}

struct Room<'a> {
    d: usize,
    /// The largest cut of each dimension, falling.
    most: Cuts,
    divisors: &'a [u32],
}

impl Room<'_> {
    /// Whether the dimensions from k on have cuts whose product is a multiple of a, and that of all but any one of them
    /// a multiple of e.
    fn is_left(&self, k: usize, a: u32, e: u32) -> bool {
        let most = self.most[k];
        let others = &self.most[k + 1..self.d];
        if others.is_empty() {
            return e == 1 && a <= most;
        }
        let largest: u64 = others.iter().map(|&most| u64::from(most)).product();
        if u64::from(e) > largest || u64::from(a) > largest * u64::from(most) {
            return false;
        }
        let cuts = self.divisors.iter().rev();
        let mut cuts = cuts.filter(|&&b| b <= most && a.is_multiple_of(b));
        cuts.any(|&b| {
            let (a, e) = after_cut(a, e, b);
            self.is_left(k + 1, a, e)
        })
    }
}
