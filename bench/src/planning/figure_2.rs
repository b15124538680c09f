//! The paper's enumeration: each factor's distributions listed once, then combined in all ways.

use super::{tiles, Cuts, Job, LEAST_FACTOR};

/// The distributions of each factor, as powers of it, one after the other in one list.
struct Distributions {
    powers: Vec<Cuts>,
    /// Where each factor's part ends.
    ends: [usize; 5],
    factors: usize,
}

struct Enumeration<'a> {
    job: &'a Job,
    distributions: &'a Distributions,
    leave_early: bool,
    /// The least sum of b * w so far.
    cost: u64,
    cuts: Cuts,
}

/// The cheapest elementary partitioning that fits.
pub fn cheapest(job: &Job, leave_early: bool) -> Option<(u64, Cuts)> {
    let mut one = [0; 5];
    one[..job.d].fill(1);
    let mut distributions = Distributions {
        powers: Vec::with_capacity(64),
        ends: [0; 5],
        factors: 0,
    };
    let mut left = job.p;
    while left > 1 {
        let factor = u32::from(LEAST_FACTOR[left as usize]);
        let mut powers = [1; 13];
        let mut times = 0;
        while left.is_multiple_of(factor) {
            left /= factor;
            times += 1;
            powers[times] = powers[times - 1] * factor;
        }
        let (r, d) = (times as i32, job.d as i32);
        for m in (r + d - 2) / (d - 1)..=r {
            fill_bins(
                r + m,
                m,
                2,
                0,
                d,
                &powers,
                &mut one,
                &mut distributions.powers,
            );
        }
        distributions.ends[distributions.factors] = distributions.powers.len();
        distributions.factors += 1;
    }
    one[..job.d].fill(1);
    let mut enumeration = Enumeration {
        job,
        distributions: &distributions,
        leave_early,
        cost: u64::MAX,
        cuts: [u32::MAX; 5],
    };
    if distributions.factors == 0 {
        enumeration.consider(one);
    } else {
        enumeration.combine(0, one);
    }
    (enumeration.cost != u64::MAX).then(|| (enumeration.cost - job.uncut(), enumeration.cuts))
}

/// `P` of Figure 2.
#[allow(clippy::too_many_arguments)]
fn fill_bins(
    n: i32,
    m: i32,
    c: i32,
    t: usize,
    d: i32,
    powers: &[u32; 13],
    bins: &mut Cuts,
    all: &mut Vec<Cuts>,
) {
    let after = d - t as i32 - 1;
    if after == 0 {
        bins[t] = powers[n as usize];
        all.push(*bins);
        return;
    }
    for i in 0.max(n - after * m)..=(m - 1).min(n - c * m) {
        bins[t] = powers[i as usize];
        fill_bins(n - i, m, c, t + 1, d, powers, bins, all);
    }
    if n >= m {
        bins[t] = powers[m as usize];
        fill_bins(n - m, m, 0.max(c - 1), t + 1, d, powers, bins, all);
    }
}

impl Enumeration<'_> {
    fn combine(&mut self, factor: usize, cuts: Cuts) {
        let distributions = self.distributions;
        let from = if factor == 0 {
            0
        } else {
            distributions.ends[factor - 1]
        };
        let part = &distributions.powers[from..distributions.ends[factor]];
        if factor + 1 == distributions.factors {
            for powers in part {
                self.consider(times(cuts, powers));
            }
            return;
        }
        for powers in part {
            let product = times(cuts, powers);
            if !self.leave_early || self.fits(&product) {
                self.combine(factor + 1, product);
            }
        }
    }

    #[inline]
    fn fits(&self, cuts: &Cuts) -> bool {
        let mut fits = true;
        for (b, most) in cuts.iter().zip(&self.job.most) {
            fits &= b <= most;
        }
        fits
    }

    #[inline]
    fn consider(&mut self, cuts: Cuts) {
        let mut cost = 0;
        for (&b, &w) in cuts.iter().zip(&self.job.weights) {
            cost += u64::from(b) * u64::from(w);
        }
        if self.fits(&cuts) && (cost < self.cost || cost == self.cost && self.come_first(&cuts)) {
            self.cost = cost;
            self.cuts = cuts;
        }
    }

    /// Among equal costs: fewer tiles, or as many and the smaller cut where they first differ.
    #[cold]
    #[inline(never)]
    fn come_first(&self, cuts: &Cuts) -> bool {
        let d = self.job.d;
        (tiles(&cuts[..d]), *cuts) < (tiles(&self.cuts[..d]), self.cuts)
    }
}

#[inline]
fn times(cuts: Cuts, powers: &Cuts) -> Cuts {
    let mut product = cuts;
    for (b, f) in product.iter_mut().zip(powers) {
        *b *= f;
    }
    product
}
