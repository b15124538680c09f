//! The paper's enumeration as its program stands: for every combination of the factors so far, the
//! next factor's distributions are made anew.

use super::{tiles, Cuts, Job, LEAST_FACTOR};

/// The cheapest elementary partitioning that fits.
pub fn cheapest(job: &Job) -> Option<(u64, Cuts)> {
    Nested::new(job).cheapest()
}

struct Nested<'a> {
    job: &'a Job,
    powers: [[u32; 13]; 5],
    times: [i32; 5],
    factors: usize,
    /// The least sum of b * w so far.
    cost: u64,
    cuts: Cuts,
}

impl Nested<'_> {
    fn new(job: &Job) -> Nested<'_> {
        let mut nested = Nested {
            job,
            powers: [[1; 13]; 5],
            times: [0; 5],
            factors: 0,
            cost: u64::MAX,
            cuts: [u32::MAX; 5],
        };
        let mut left = job.p;
        while left > 1 {
            let factor = u32::from(LEAST_FACTOR[left as usize]);
            let powers = &mut nested.powers[nested.factors];
            let mut times = 0;
            while left.is_multiple_of(factor) {
                left /= factor;
                times += 1;
                powers[times] = powers[times - 1] * factor;
            }
            nested.times[nested.factors] = times as i32;
            nested.factors += 1;
        }
        nested
    }

    fn cheapest(mut self) -> Option<(u64, Cuts)> {
        let mut one = [0; 5];
        one[..self.job.d].fill(1);
        self.partitions(0, one);
        (self.cost != u64::MAX).then(|| (self.cost - self.job.uncut(), self.cuts))
    }

    /// `Partitions` of Figure 2 for one factor after the others.
    fn partitions(&mut self, factor: usize, cuts: Cuts) {
        if factor == self.factors {
            self.consider(cuts);
            return;
        }
        let (r, d) = (self.times[factor], self.job.d as i32);
        for m in (r + d - 2) / (d - 1)..=r {
            self.bins(factor, cuts, r + m, m, 2, 0);
        }
    }

    /// `P` of Figure 2.
    fn bins(&mut self, factor: usize, mut cuts: Cuts, n: i32, m: i32, c: i32, t: usize) {
        let after = (self.job.d - t) as i32 - 1;
        let before = cuts[t];
        if after == 0 {
            cuts[t] = before * self.powers[factor][n as usize];
            self.partitions(factor + 1, cuts);
            return;
        }
        for i in 0.max(n - after * m)..=(m - 1).min(n - c * m) {
            cuts[t] = before * self.powers[factor][i as usize];
            self.bins(factor, cuts, n - i, m, c, t + 1);
        }
        if n >= m {
            cuts[t] = before * self.powers[factor][m as usize];
            self.bins(factor, cuts, n - m, m, 0.max(c - 1), t + 1);
        }
    }

    fn consider(&mut self, cuts: Cuts) {
        let mut cost = 0;
        for ((&b, &most), &w) in cuts.iter().zip(&self.job.most).zip(&self.job.weights) {
            if b > most {
                return;
            }
            cost += u64::from(b) * u64::from(w);
        }
        if cost < self.cost || cost == self.cost && self.come_first(&cuts) {
            self.cost = cost;
            self.cuts = cuts;
        }
    }

    /// Among equal costs: fewer tiles, or as many and the smaller cut where they first differ.
    fn come_first(&self, cuts: &Cuts) -> bool {
        let d = self.job.d;
        (tiles(&cuts[..d]), *cuts) < (tiles(&self.cuts[..d]), self.cuts)
    }
}
