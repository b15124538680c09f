//! Cuts chosen dimension after dimension, each choice leaving the same question for one dimension
//! fewer, and the answers remembered.

use super::{gcd, lcm, Cuts, Job, LEAST_FACTOR};

/// No p up to 4,096 has more divisors.
const MOST_DIVISORS: usize = 48;
/// No cuts do.
const NONE: u64 = u64::MAX;

/// The divisors of p in rising order, and how many there are.
pub fn divisors(p: u32) -> ([u32; MOST_DIVISORS], usize) {
    let mut list = [0; MOST_DIVISORS];
    list[0] = 1;
    let mut count = 1;
    let mut left = p;
    while left > 1 {
        let factor = u32::from(LEAST_FACTOR[left as usize]);
        let without = count;
        let mut power = 1;
        while left.is_multiple_of(factor) {
            left /= factor;
            power *= factor;
            for i in 0..without {
                list[count] = list[i] * power;
                count += 1;
            }
        }
    }
    list[..count].sort_unstable();
    (list, count)
}

/// What is chosen: its cost, its number of tiles and its first cut. Where there are no cuts, the
/// cost is `NONE`.
type Choice = (u64, u64, u32);

const NO_CHOICE: Choice = (NONE, 0, 0);

struct Search<'a> {
    job: &'a Job,
    divisors: &'a [u32],
    /// The sum of the last two weights.
    last_weights: u64,
    /// The place of each divisor among them; empty where nothing is remembered.
    place: &'a [u8],
    /// Cost times 8192 plus cut, or `NONE`, and the number of tiles; 0 where not known yet.
    table: &'a mut [(u64, u64)],
}

/// The cheapest even, fitting cuts.
pub fn cheapest(job: &Job) -> Option<(u64, Cuts)> {
    let (list, count) = divisors(job.p);
    let divisors = &list[..count];
    let mut search = Search {
        job,
        divisors,
        last_weights: u64::from(job.weights[job.d - 2]) + u64::from(job.weights[job.d - 1]),
        place: &[],
        table: &mut [],
    };
    // The states of the first two dimensions never repeat, and the last one is settled.
    if job.d <= 3 {
        return search.cuts();
    }
    let mut place = [0; 4097];
    for (at, &b) in divisors.iter().enumerate() {
        place[b as usize] = at as u8;
    }
    search.place = &place;
    // Most counts have few divisors; a large table takes longer to clear than to use.
    match count {
        0..=12 => search.cuts_with(&mut [(0, 0); 2 * 12 * 12]),
        13..=24 => search.cuts_with(&mut [(0, 0); 2 * 24 * 24]),
        _ => search.cuts_with(&mut [(0, 0); 2 * MOST_DIVISORS * MOST_DIVISORS]),
    }
}

/// The state after a cut b that divides a: the product of the later cuts is to be a multiple of the
/// first number, that of all but any one of them of the second.
#[inline]
pub fn after_cut(a: u32, e: u32, b: u32) -> (u32, u32) {
    if e == 1 {
        (a / b, 1)
    } else {
        (lcm(e, a / b), e / gcd(e, b))
    }
}

impl Search<'_> {
    #[inline(never)]
    fn cuts_with(&mut self, table: &mut [(u64, u64)]) -> Option<(u64, Cuts)> {
        let mut search = Search { table, ..*self };
        search.cuts()
    }

    fn cuts(&mut self) -> Option<(u64, Cuts)> {
        let (mut a, mut e) = (self.job.p, self.job.p);
        let mut least = 0;
        let mut cuts = [0; 5];
        for (k, cut) in cuts.iter_mut().enumerate().take(self.job.d) {
            let (cost, _, first) = self.least(k, a, e);
            if cost == NONE {
                return None;
            }
            if k == 0 {
                least = cost;
            }
            *cut = first;
            (a, e) = after_cut(a, e, first);
        }
        Some((least, cuts))
    }

    /// What is chosen for the dimensions from k on in a state.
    fn least(&mut self, k: usize, a: u32, e: u32) -> Choice {
        let left = self.job.d - k;
        if left == 1 {
            return self.last(k, a, e);
        }
        let slot = if k >= 2 && !self.place.is_empty() {
            let row = (k - 2) * self.divisors.len() + usize::from(self.place[a as usize]);
            row * self.divisors.len() + usize::from(self.place[e as usize])
        } else {
            usize::MAX
        };
        if slot < self.table.len() && self.table[slot].0 != 0 {
            let (known, tiles) = self.table[slot];
            if known == NONE {
                return NO_CHOICE;
            }
            return (known / 8192, tiles, (known % 8192) as u32);
        }
        let (cost, tiles, cut) = if left == 2 {
            self.last_two(k, a, e)
        } else {
            self.more(k, a, e)
        };
        if slot < self.table.len() {
            let answer = if cost == NONE {
                NONE
            } else {
                cost * 8192 + u64::from(cut)
            };
            self.table[slot] = (answer, tiles);
        }
        (cost, tiles, cut)
    }

    fn last(&self, k: usize, a: u32, e: u32) -> Choice {
        if e == 1 && a <= self.job.most[k] {
            let cost = u64::from(a - 1) * u64::from(self.job.weights[k]);
            (cost, u64::from(a), a)
        } else {
            NO_CHOICE
        }
    }

    /// Two cuts left: both are multiples of e, and the last is settled by the other. So their product
    /// is a multiple of a and of e * e.
    fn last_two(&self, k: usize, a: u32, e: u32) -> Choice {
        let weight = u64::from(self.job.weights[k]);
        let last_weight = u64::from(self.job.weights[k + 1]);
        let parts = a / e;
        let fewest = u64::from(e) * u64::from(lcm(e, parts));
        let mut best = NO_CHOICE;
        for &t in self.divisors {
            let b = e * t;
            let cost = u64::from(b - 1) * weight;
            let at_least = cost + u64::from(e - 1) * last_weight;
            if t > parts || b > self.job.most[k] || (at_least, fewest) >= (best.0, best.1) {
                break;
            }
            if parts.is_multiple_of(t) {
                let last = lcm(e, parts / t);
                let cost = cost + u64::from(last - 1) * last_weight;
                let tiles = u64::from(b) * u64::from(last);
                if last <= self.job.most[k + 1] && (cost, tiles) < (best.0, best.1) {
                    best = (cost, tiles, b);
                }
            }
        }
        best
    }

    /// Three or more cuts left. Those after b have a product that is a multiple of e.
    fn more(&mut self, k: usize, a: u32, e: u32) -> Choice {
        let weight = u64::from(self.job.weights[k]);
        let mut best = NO_CHOICE;
        for &b in self.divisors {
            let cost = u64::from(b - 1) * weight;
            let fewest = u64::from(a).max(u64::from(b) * u64::from(e));
            // The later dimensions may cost nothing.
            if b > a || b > self.job.most[k] || (cost, fewest) >= (best.0, best.1) {
                break;
            }
            if !a.is_multiple_of(b) {
                continue;
            }
            let (next_a, next_e) = after_cut(a, e, b);
            // Of two cuts left each is a multiple of e.
            let at_least = cost + u64::from(next_e - 1) * self.last_weights;
            if self.job.d - k == 3 && (at_least, fewest) >= (best.0, best.1) {
                continue;
            }
            let (rest, tiles, _) = self.least(k + 1, next_a, next_e);
            let tiles = u64::from(b) * tiles;
            if rest != NONE && (cost + rest, tiles) < (best.0, best.1) {
                best = (cost + rest, tiles, b);
            }
        }
        best
    }
}

#[cfg(test)]
mod tests {
    use super::*;

    #[test]
    fn no_p_has_more_divisors() {
        let most = (1..=4096).map(|p| divisors(p).1).max();
        assert_eq!(most, Some(MOST_DIVISORS));
        for p in 1..=4096 {
            let (list, count) = divisors(p);
            assert_eq!(list[..count], oracle::numbers::divisors(p));
        }
    }
}
